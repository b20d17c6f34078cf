/* Tarnsatchel for C: a query's answer over a tree, kept as a set of records in buffers that the caller lends.
 * First the types and numbers, then the eight functions: a build, five questions on a set, and text to tree and back.
 *
 * For all eight:
 * - They return 0 for an answer, else the number of the refusal. Any input, head, table, number and length is answered or
 *   refused; nothing has to be checked before a call.
 * - A buffer is a pointer and its length in entries. It may be longer than asked for: the entries behind stay as they are.
 *   With length 0 the pointer is not followed. What a call writes to may not overlap what else is lent to it.
 * - What is lent as const is not written. The out parameters (head, rows, listed, fixed, bytes) are written only with an
 *   answer, but position only with refusals 1 to 4; otherwise they stay as they were. None may be a null pointer.
 * - Work need not be cleared before a call. After it the stated part is zero and the rest as it was; after refusals 1 to 5
 *   all of it is as it was.
 * - Nothing is kept between calls and no memory is asked for, so calls on different buffers may run at the same time.
 */
#ifndef TARNSATCHEL_H
#define TARNSATCHEL_H

#include <stddef.h>
#include <stdint.h>

#ifdef __cplusplus
extern "C" {
#endif

/* One entry of the table; all zeros is the blank entry. Kind 1 is a single: the node at each place of the flag. Kinds 2 and 3
 * are a union and a product of the records numbered left and right. Place 1 is the lowest bit of a flag. */
typedef struct tarn_record {
    uint16_t kind, node, left, right, flag;
} tarn_record;

/* What stands where in a head, an array of six: nodes of the tree, arity, open places as a flag, records used, the set, and
 * the number of its record (0 where the set is none). */
enum { TARN_NODES, TARN_ARITY, TARN_OPEN_PLACES, TARN_USED, TARN_SET, TARN_RECORD, TARN_HEAD };

/* The set in a head. A head with another number there is not sound. */
enum { TARN_EMPTY = 0, TARN_UNIT = 1, TARN_AT_RECORD = 2 };

/* Stands at a fixed place of a row. */
enum { TARN_BLANK = 65535 };

/* No build asks for more work, and none makes more records. */
enum { TARN_MOST_WORK = 524544, TARN_MOST_RECORDS = 60000 };

/* The most written nodes of a bracketed text. Outputs of so many bytes are long enough for the records of any text, and for
 * the text of any records: no call then refuses 10. */
enum { TARN_MOST_WRITTEN = 2047, TARN_LONGEST_TREE = 8190, TARN_LONGEST_TEXT = 8188 };

/* The numbers that say no. */
enum {
    TARN_REFUSED_TREE = 1,          /* cut, label over 63, branch with fewer than two unjoined, no node, not one subtree */
    TARN_REFUSED_MANY_NODES = 2,    /* a 4,096th tree record */
    TARN_REFUSED_QUERY = 3,         /* no head first, second head, unknown kind, cut, number out of range, 1,025th rule */
    TARN_REFUSED_TWICE = 4,         /* a rule with the kind and left side of an earlier one, or a state accepted twice */
    TARN_REFUSED_SHORT_WORK = 5,    /* work shorter than stated */
    TARN_REFUSED_SHORT_TABLE = 6,   /* build: more records than the table or 60,000; fix: target shorter than asked for */
    TARN_REFUSED_PLACE = 7,         /* place not 1 to the arity, or not open */
    TARN_REFUSED_NODE = 8,          /* node not in the tree; in a row also a fixed place that is not blank */
    TARN_REFUSED_ROW_NUMBER = 9,    /* row number not below the count */
    TARN_REFUSED_SHORT_OUTPUT = 10, /* output shorter than the arity (row), the nodes (project) or the result (text, tree) */
    TARN_REFUSED_NOT_SOUND = 11,    /* head and table are no sound set */
    TARN_REFUSED_UNIT_TWICE = 12,   /* fix: both operands of a used union become unit; never of a set that was built */
    TARN_REFUSED_ROW_LENGTH = 13,   /* row not as long as the arity */
    TARN_REFUSED_LONG_INPUT = 14,   /* input over 16,384 bytes (listing program) or 65,536 (program tree); no function's */
    TARN_REFUSED_TEXT = 15          /* text outside the rules of bracketed text, or bytes that are not wholly an image */
};

/* Builds the set of a stream, a tree's records and then a query's. A row is listed exactly if it names no pad and the tree,
 * marked at the row's nodes, has an accepting run; and it is listed once. A pad is a leaf of label 0: it has its state by its
 * rule with flag 0, and its rules with a flag above 0 are tested and counted and never used.
 * Returns 0, or 1, 2 (tree), 3, 4 (query), 5, 6: the tree first, then the query, and in each the first record at fault.
 * Position: written with 1 to 4 only, and with 0, 5 and 6 as it was. It counts bytes of the input from 0 and is that of the
 * same first fault: the first byte of the record at fault; where the tree ends with nothing or with several subtrees, the place
 * where it ended; where the input ends before a head, its length. So it is at most input_length, and where it is input_length
 * no byte stands there.
 * Work: (1 + the most subtrees ever unjoined) * states * 2 to the arity.
 * Table: the records made stand first, the rest is as it was; after 6 every entry is blank, after 1 to 5 all is as it was. */
uint8_t tarn_build(const uint8_t *input, size_t input_length, uint64_t *work, size_t work_length, tarn_record *table,
                   size_t table_length, uint16_t head[TARN_HEAD], size_t *position);

/* Counts the rows that a set lists, at most 2 to the power of 48.
 * Returns 0, or 5, 11, in this order. Work: head[TARN_USED]. */
uint8_t tarn_count(const uint16_t head[TARN_HEAD], const tarn_record *table, size_t table_length, uint64_t *work,
                   size_t work_length, uint64_t *rows);

/* Writes a row by its number, from 0, in the set's order.
 * Returns 0, or 5, 11, 9, 10, in this order. Work: head[TARN_USED].
 * Row: head[TARN_ARITY] entries are written, a node for each place, TARN_BLANK at fixed places; a refusal writes none. */
uint8_t tarn_row(const uint16_t head[TARN_HEAD], const tarn_record *table, size_t table_length, uint64_t *work,
                 size_t work_length, uint64_t number, uint16_t *row, size_t row_length);

/* Tells whether a set lists a row: listed is 1 or 0. The row has head[TARN_ARITY] entries, TARN_BLANK at fixed places.
 * Returns 0, or 5, 11, 13, 8, in this order. Work: head[TARN_USED]. */
uint8_t tarn_member(const uint16_t head[TARN_HEAD], const tarn_record *table, size_t table_length, uint64_t *work,
                    size_t work_length, const uint16_t *row, size_t row_length, uint8_t *listed);

/* Marks the nodes that stand at a place, 1 to the arity, in some row.
 * Returns 0, or 5, 11, 7, 10, in this order. Work: head[TARN_USED].
 * Marks: head[TARN_NODES] entries are written, 1 for such a node, else 0; a refusal writes none. */
uint8_t tarn_project(const uint16_t head[TARN_HEAD], const tarn_record *table, size_t table_length, uint64_t *work,
                     size_t work_length, uint16_t place, uint8_t *marks, size_t marks_length);

/* Fixes a place at a node: a new set, of the rows that have the node there, in the old order; the place is blank in them and
 * no longer open.
 * Returns 0, or 5, 11, 7, 8, 6, 12, in this order. Work: head[TARN_USED].
 * Target: head[TARN_USED] entries are asked for. The new set's records stand first, no more than that; the rest is as it was;
 * a refusal writes none. */
uint8_t tarn_fix(const uint16_t head[TARN_HEAD], const tarn_record *source, size_t source_length, uint64_t *work,
                 size_t work_length, uint16_t place, uint16_t node, tarn_record *target, size_t target_length,
                 uint16_t fixed[TARN_HEAD]);

/* Makes tree records, as tarn_build reads them, of a tree that is written as bracketed text.
 * The text has one root. A label is a decimal number 0 to 63 without leading zeros; its children follow in round brackets, as
 * in 9(5 6), and brackets with nothing between them mean no children. Blanks and line ends (bytes 32 and 10) may stand
 * anywhere but inside a number, and one must stand between two numbers. A comment, from an exclamation mark to the next line
 * end or the text's end, may stand where a blank may; that line end separates two numbers as any other does. Any other byte is
 * wrong, also a slash, a tab and a carriage return, and the zero that ends a C string: it is not part of the text, and
 * text_length does not count it.
 * The image: every written node is a branch, with its first child left and its next sibling right, and a missing one is a pad,
 * a leaf of label 0. n written nodes give 2n + 1 nodes, which are 4n + 2 bytes. 9(5 6) gives seven: pads 0, 1, 2, branch 6 as
 * node 3, branch 5 as node 4, pad 5, branch 9 as node 6.
 * Returns 0, or 15, 10, in this order; 15 also for more than TARN_MOST_WRITTEN written nodes.
 * Tree: *bytes entries are written, the rest is as it was; a refusal writes none. */
uint8_t tarn_text_to_tree(const uint8_t *text, size_t text_length, uint8_t *tree, size_t tree_length, size_t *bytes);

/* Writes the canonical text of tree records that are the image of a written tree: one byte 32 between two neighbouring
 * numbers, no other blank or line end, no empty brackets and no comments. tarn_text_to_tree makes the same records of it.
 * Returns 0, or 15, 10, in this order; 15 also where anything stands behind the root, as a query does in a stream.
 * Text: *bytes entries are written, at most 4 a written node, and no zero behind them; the rest is as it was; a refusal writes
 * none. */
uint8_t tarn_tree_to_text(const uint8_t *tree, size_t tree_length, uint8_t *text, size_t text_length, size_t *bytes);

#ifdef __cplusplus
}
#endif

#endif
