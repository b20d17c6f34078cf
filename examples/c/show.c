/* Builds the set of a stream and asks it everything: how many rows, a page of them, whether a row is among them, which nodes stand at
 * a place, and which rows have a node there.
 *
 *     show STREAM FIRST LAST PLACE NODE ROW ..
 *
 * Lists rows FIRST to LAST, projects PLACE and fixes it at NODE, and looks for ROW, a node for each place.
 */
#include "tarnsatchel.h"

#include <stdio.h>
#include <stdlib.h>

enum { MOST_INPUT = 16384, MOST_NODES = 4095, MOST_PLACES = 4 };

static uint8_t input[MOST_INPUT];
static uint64_t work[TARN_MOST_WORK];
static tarn_record table[TARN_MOST_RECORDS], target[TARN_MOST_RECORDS];

/* A refusal is told and ends the program. */
static void stop_if_refused(const char *call, uint8_t refused) {
    if (refused == 0) return;
    printf("%s refused %d\n", call, refused);
    exit(1);
}

/* The first four are told with their position in the stream. */
static void stop_if_build_refused(uint8_t refused, size_t position) {
    if (refused < TARN_REFUSED_TREE || refused > TARN_REFUSED_TWICE) {
        stop_if_refused("build", refused);
        return;
    }
    printf("build refused %d at %zu\n", refused, position);
    exit(1);
}

static size_t read_stream(const char *name) {
    FILE *file = fopen(name, "rb");
    if (!file) {
        fprintf(stderr, "cannot open %s\n", name);
        exit(2);
    }
    size_t length = fread(input, 1, MOST_INPUT, file);
    fclose(file);
    return length;
}

static uint64_t count(const uint16_t *head, const tarn_record *records) {
    uint64_t rows = 0;
    stop_if_refused("count", tarn_count(head, records, TARN_MOST_RECORDS, work, TARN_MOST_WORK, &rows));
    return rows;
}

/* Rows first to last, as far as there are; a fixed place is shown as '-'. */
static void list(const uint16_t *head, const tarn_record *records, uint64_t first, uint64_t last) {
    uint64_t rows = count(head, records);
    uint16_t row[MOST_PLACES];
    for (uint64_t number = first; number <= last && number < rows; number++) {
        stop_if_refused("row", tarn_row(head, records, TARN_MOST_RECORDS, work, TARN_MOST_WORK, number, row, MOST_PLACES));
        for (int place = 0; place < head[TARN_ARITY]; place++) {
            if (place > 0) printf(" ");
            if (row[place] == TARN_BLANK) printf("-");
            else printf("%d", row[place]);
        }
        printf("\n");
    }
}

static void ask_member(const uint16_t *head, int places, char **nodes) {
    uint16_t row[MOST_PLACES];
    uint8_t listed = 0;
    printf("member");
    for (int place = 0; place < places; place++) {
        row[place] = (uint16_t)atoi(nodes[place]);
        printf(" %d", row[place]);
    }
    printf(": ");
    stop_if_refused("member", tarn_member(head, table, TARN_MOST_RECORDS, work, TARN_MOST_WORK, row, (size_t)places, &listed));
    printf("%s\n", listed ? "yes" : "no");
}

static void project(const uint16_t *head, uint16_t place) {
    uint8_t marks[MOST_NODES];
    stop_if_refused("project", tarn_project(head, table, TARN_MOST_RECORDS, work, TARN_MOST_WORK, place, marks, MOST_NODES));
    printf("place %d:", place);
    for (int node = 0; node < head[TARN_NODES]; node++)
        if (marks[node]) printf(" %d", node);
    printf("\n");
}

static void fix(const uint16_t *head, uint16_t place, uint16_t node) {
    uint16_t fixed[TARN_HEAD];
    stop_if_refused("fix", tarn_fix(head, table, TARN_MOST_RECORDS, work, TARN_MOST_WORK, place, node, target, TARN_MOST_RECORDS, fixed));
    uint64_t rows = count(fixed, target);
    printf("place %d fixed at %d: rows %llu\n", place, node, (unsigned long long)rows);
    list(fixed, target, 0, rows);
}

int main(int words, char **word) {
    if (words < 7 || words > 6 + MOST_PLACES) {
        fprintf(stderr, "usage: show STREAM FIRST LAST PLACE NODE ROW ..\n");
        return 2;
    }
    uint16_t head[TARN_HEAD];
    size_t length = read_stream(word[1]), position = 0;
    uint8_t refused = tarn_build(input, length, work, TARN_MOST_WORK, table, TARN_MOST_RECORDS, head, &position);
    stop_if_build_refused(refused, position);
    printf("records %d\nrows %llu\n", head[TARN_USED], (unsigned long long)count(head, table));
    printf("rows %s to %s:\n", word[2], word[3]);
    list(head, table, strtoull(word[2], NULL, 10), strtoull(word[3], NULL, 10));
    ask_member(head, words - 6, word + 6);
    project(head, (uint16_t)atoi(word[4]));
    fix(head, (uint16_t)atoi(word[4]), (uint16_t)atoi(word[5]));
    return 0;
}
