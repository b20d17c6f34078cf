/* Runs the library on many calls and shows all that each leaves behind. It judges nothing.
 *
 *     driver behind|before|heap
 *
 * behind: behind each lent buffer a region begins that faults when it is touched; before: such a region ends where the buffer begins.
 * It is longer than any 16-bit record number can reach. heap: each buffer is a block of its own, as valgrind wants it.
 *
 * Standard input, call after call to its end, numbers low byte first, as x86-64 has them:
 *   u8 function, two u64 (row number, or place and node; else 0), then the function's pointers in their order, out parameters too,
 *   each as u32 entries and the entries as they stand before the call.
 * Standard output, for each call: u8 answer, then the same entries as they stand after it.
 */
#define _DEFAULT_SOURCE
#include "tarnsatchel.h"

#include <signal.h>
#include <stdio.h>
#include <stdlib.h>
#include <string.h>
#include <sys/mman.h>
#include <unistd.h>

enum { BUILD = 1, COUNT, ROW, MEMBER, PROJECT, FIX, TEXT_TO_TREE, TREE_TO_TEXT, FUNCTIONS };
enum { BYTE = sizeof(uint8_t), SHORT = sizeof(uint16_t), NUMBER = sizeof(uint64_t), RECORD = sizeof(tarn_record) };
enum { MOST_BUFFERS = 5, ROOM = 1 << 23, FORBIDDEN = 1 << 20, MOST_SECONDS = 10 };

/* The size of an entry of each buffer; 0 behind the last one. */
static const size_t entry_sizes[FUNCTIONS][MOST_BUFFERS] = {
    [BUILD] = {BYTE, NUMBER, RECORD, SHORT, NUMBER},
    [COUNT] = {SHORT, RECORD, NUMBER, NUMBER},
    [ROW] = {SHORT, RECORD, NUMBER, SHORT},
    [MEMBER] = {SHORT, RECORD, NUMBER, SHORT, BYTE},
    [PROJECT] = {SHORT, RECORD, NUMBER, BYTE},
    [FIX] = {SHORT, RECORD, NUMBER, RECORD, SHORT},
    [TEXT_TO_TREE] = {BYTE, BYTE, NUMBER},
    [TREE_TO_TEXT] = {BYTE, BYTE, NUMBER},
};
/* the position of a fault, and how many bytes were written, are lent as one NUMBER */
_Static_assert(sizeof(size_t) == NUMBER, "a size has 64 bits");

typedef struct {
    void *at;
    size_t entries, bytes;
} buffer;

static enum { BEHIND, BEFORE, HEAP } mode;

/* One for each buffer of a call, between two regions that fault. */
static unsigned char *rooms[MOST_BUFFERS];

static void fail(const char *why) {
    fprintf(stderr, "driver: %s\n", why);
    exit(2);
}

static void end_in_call(int signal) {
    static const char outside[] = "driver: a fault: the library touched what was not lent to it\n";
    static const char runs_on[] = "driver: a call runs on\n";
    ssize_t told = signal == SIGALRM ? write(STDERR_FILENO, runs_on, sizeof runs_on - 1)
                                     : write(STDERR_FILENO, outside, sizeof outside - 1);
    _exit(told < 0 ? 4 : 3);
}

static void take(void *to, size_t bytes) {
    if (bytes > 0 && fread(to, 1, bytes, stdin) != bytes) fail("a call is cut");
}

static void give(const void *from, size_t bytes) {
    if (bytes > 0 && fwrite(from, 1, bytes, stdout) != bytes) fail("cannot write");
}

static void make_rooms(void) {
    for (int i = 0; i < MOST_BUFFERS; i++) {
        unsigned char *whole = mmap(NULL, ROOM + 2 * FORBIDDEN, PROT_NONE, MAP_PRIVATE | MAP_ANONYMOUS, -1, 0);
        if (whole == MAP_FAILED) fail("no memory");
        rooms[i] = whole + FORBIDDEN;
        if (mprotect(rooms[i], ROOM, PROT_READ | PROT_WRITE) != 0) fail("no memory");
    }
}

static void *place_for(int number, size_t bytes) {
    if (mode == HEAP) {
        void *block = malloc(bytes);
        if (!block && bytes > 0) fail("no memory");
        return block;
    }
    if (bytes > ROOM) fail("a buffer is too long");
    return mode == BEHIND ? rooms[number] + ROOM - bytes : rooms[number];
}

static buffer take_buffer(int number, size_t entry_size) {
    uint32_t entries;
    take(&entries, sizeof entries);
    size_t bytes = entries * entry_size;
    buffer lent = {place_for(number, bytes), entries, bytes};
    take(lent.at, bytes);
    return lent;
}

/* A buffer as its pointer and its length. */
#define LENT(i) b[i].at, b[i].entries

static uint8_t call(int function, const buffer *b, const uint64_t *number) {
    switch (function) {
    case BUILD:
        return tarn_build(LENT(0), LENT(1), LENT(2), b[3].at, b[4].at);
    case COUNT:
        return tarn_count(b[0].at, LENT(1), LENT(2), b[3].at);
    case ROW:
        return tarn_row(b[0].at, LENT(1), LENT(2), number[0], LENT(3));
    case MEMBER:
        return tarn_member(b[0].at, LENT(1), LENT(2), LENT(3), b[4].at);
    case PROJECT:
        return tarn_project(b[0].at, LENT(1), LENT(2), (uint16_t)number[0], LENT(3));
    case FIX:
        return tarn_fix(b[0].at, LENT(1), LENT(2), (uint16_t)number[0], (uint16_t)number[1], LENT(3), b[4].at);
    case TEXT_TO_TREE:
        return tarn_text_to_tree(LENT(0), LENT(1), b[2].at);
    default:
        return tarn_tree_to_text(LENT(0), LENT(1), b[2].at);
    }
}

static void run(int function) {
    const size_t *entry_size = entry_sizes[function];
    buffer lent[MOST_BUFFERS];
    uint64_t number[2];
    int buffers = 0;
    take(number, sizeof number);
    for (; buffers < MOST_BUFFERS && entry_size[buffers] > 0; buffers++) lent[buffers] = take_buffer(buffers, entry_size[buffers]);
    alarm(MOST_SECONDS);
    uint8_t answer = call(function, lent, number);
    alarm(0);
    give(&answer, sizeof answer);
    for (int i = 0; i < buffers; i++) {
        give(lent[i].at, lent[i].bytes);
        if (mode == HEAP) free(lent[i].at);
    }
}

int main(int count, char **words) {
    const char *word = count == 2 ? words[1] : "";
    if (strcmp(word, "behind") != 0 && strcmp(word, "before") != 0 && strcmp(word, "heap") != 0) fail("behind, before or heap?");
    mode = strcmp(word, "heap") == 0 ? HEAP : strcmp(word, "before") == 0 ? BEFORE : BEHIND;
    if (mode != HEAP) make_rooms();
    signal(SIGSEGV, end_in_call);
    signal(SIGBUS, end_in_call);
    signal(SIGALRM, end_in_call);
    for (int function = getchar(); function != EOF; function = getchar()) {
        if (function < BUILD || function >= FUNCTIONS) fail("unknown function");
        run(function);
        /* so that a call that ends the program is the first without an answer */
        if (fflush(stdout) != 0) fail("cannot write");
    }
    return 0;
}
