/* Types a tree: makes its records, finds the nodes of a label in it, and types it back.
 *
 *     typed LABEL TEXT
 *
 * Finds the written nodes of LABEL, 0 to 63, in the tree that TEXT is the bracketed text of, as 9(5 6).
 * The tree's pads have label 0 too, and stand in no row.
 */
#include "tarnsatchel.h"

#include <stdio.h>
#include <stdlib.h>
#include <string.h>

enum { LABELS = 64, LONGEST_QUERY = 4096 };

/* The tree's records, and behind them the query's. */
static uint8_t stream[TARN_LONGEST_TREE + LONGEST_QUERY], text[TARN_LONGEST_TEXT];
static uint64_t work[TARN_MOST_WORK];
static tarn_record table[TARN_MOST_RECORDS];

/* A refusal is told and ends the program. */
static void stop_if_refused(const char *call, uint8_t refused) {
    if (refused == 0) return;
    printf("%s refused %d\n", call, refused);
    exit(1);
}

/* The first four are told with their position in the stream. */
static void stop_if_build_refused(uint8_t refused, size_t position) {
    if (refused < TARN_REFUSED_TREE || refused > TARN_REFUSED_TWICE) {
        stop_if_refused("build", refused);
        return;
    }
    printf("build refused %d at %zu\n", refused, position);
    exit(1);
}

/* Writes a branch rule, and tells where the next record begins. */
static uint8_t *put_rule(uint8_t *to, uint8_t label, uint8_t flag, uint8_t left, uint8_t right, uint8_t state) {
    const uint8_t rule[] = {18, label, flag, left, right, state};
    memcpy(to, rule, sizeof rule);
    return to + sizeof rule;
}

/* The query that finds the nodes of a label: arity 1, state 1 where one is marked, state 0 elsewhere. A branch has its children on its
 * left and the siblings behind it on its right; the marked node is the branch itself, or among the ones, or among the others. In this
 * order of the rules the rows come in the order of the text. Tells the query's length. */
static size_t put_query(uint8_t *query, uint8_t wanted) {
    static const uint8_t first[] = {16, 1, 2, 17, 0, 0, 0, 19, 1};
    memcpy(query, first, sizeof first);
    uint8_t *to = put_rule(query + sizeof first, wanted, 1, 0, 0, 1);
    for (uint8_t label = 0; label < LABELS; label++) {
        to = put_rule(to, label, 0, 0, 0, 0);
        to = put_rule(to, label, 0, 1, 0, 1);
        to = put_rule(to, label, 0, 0, 1, 1);
    }
    return (size_t)(to - query);
}

/* The number that a word of digits writes; another word, or a number over 255, ends the program. Over 63 the query is refused. */
static uint8_t label_of(const char *word) {
    char *end;
    long label = strtol(word, &end, 10);
    if (word[0] < '0' || word[0] > '9' || *end != '\0' || label > 255) {
        fprintf(stderr, "LABEL is no number from 0 to 255\n");
        exit(2);
    }
    return (uint8_t)label;
}

int main(int words, char **word) {
    if (words != 3) {
        fprintf(stderr, "usage: typed LABEL TEXT\n");
        return 2;
    }
    uint8_t label = label_of(word[1]);
    size_t tree_length = 0, text_length = 0;
    stop_if_refused("text_to_tree", tarn_text_to_tree((const uint8_t *)word[2], strlen(word[2]), stream, TARN_LONGEST_TREE, &tree_length));
    printf("tree");
    for (size_t at = 0; at < tree_length; at++) printf(" %d", stream[at]);
    printf("\n");

    size_t length = tree_length + put_query(stream + tree_length, label), position = 0;
    uint16_t head[TARN_HEAD], node;
    uint64_t rows = 0;
    uint8_t refused = tarn_build(stream, length, work, TARN_MOST_WORK, table, TARN_MOST_RECORDS, head, &position);
    stop_if_build_refused(refused, position);
    stop_if_refused("count", tarn_count(head, table, TARN_MOST_RECORDS, work, TARN_MOST_WORK, &rows));
    printf("rows %llu\n", (unsigned long long)rows);
    for (uint64_t number = 0; number < rows; number++) {
        stop_if_refused("row", tarn_row(head, table, TARN_MOST_RECORDS, work, TARN_MOST_WORK, number, &node, 1));
        printf("%d\n", node);
    }

    stop_if_refused("tree_to_text", tarn_tree_to_text(stream, tree_length, text, TARN_LONGEST_TEXT, &text_length));
    printf("text %.*s\n", (int)text_length, (const char *)text);
    return 0;
}
