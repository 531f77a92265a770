/* Simmerroof: column pruning for query plans.
 *
 * Link crates/simmerroof/out/libsimmerroof.a, which `rt lib` in crates/simmerroof proves and writes (x86-64 Linux).
 *
 * A plan file and a request go in; a plan file comes out whose scans read only the columns that are needed. The file's
 * form is in docs/FORMAT.md, with worked examples byte by byte; examples/ has small programs.
 */
#ifndef SIMMERROOF_H
#define SIMMERROOF_H

#include <stddef.h>
#include <stdint.h>

#ifdef __cplusplus
extern "C" {
#endif

/* Modes. House mode loses no row and no value; where the file declares keys, of tables that keep them. Crate mode gives what
 * the Rust crate datafusion-optimizer 55.0.0 gives, up to what docs/DIFFERENCES.md lists; it folds two equal projections into
 * one, which can change values. */
#define SIMMERROOF_CRATE 0
#define SIMMERROOF_HOUSE 1

/* The push mask: bit t is 1 if a definition whose outermost tag is t may be put in the place of a column that is used
 * more than once. 0 is a safe choice; at most 4095. */

/* Limits of a plan file: nodes and expression tags; fields of a node, by the file's version, and the larger of the two, which
 * is how many indices a request can have. A result has its file's version. It can be longer than its file; ROOM says the
 * length needed. */
#define SIMMERROOF_MAX_NODES 256
#define SIMMERROOF_MAX_TAGS 4096
#define SIMMERROOF_MAX_FIELDS_V1 128
#define SIMMERROOF_MAX_FIELDS_V2 512
#define SIMMERROOF_MAX_FIELDS SIMMERROOF_MAX_FIELDS_V2

/* Codes. Every call sets answer[0] to a code, answer[1] to a length and answer[2] to a place. On success the length is
 * the number of bytes written and the place is 0; the bytes of the output past the length stay as they were. On a
 * refusal the length is 0 and no byte of the output changes. Of several reasons the first in this order counts: 1; 2;
 * 3 to 6 at the first fault in reading order; 8, 17, 9, 10, 7 at each node, inputs first, left before right; 11; 12; 13.
 * Nodes are numbered in prefix order from 0.
 *
 *   code           given exactly when                                                            place
 *   0              the result was written                                                        0
 *   1  SETTING     the mode is above 1 or the mask above 4095                                    0
 *   2  MARK        under 5 bytes, or another mark or version                                     0
 *   3  CUT         a field runs past the end                                                     the field's offset
 *   4  VALUE       a tag, flag, function, zero, table or column index that is not allowed        the field's offset
 *   5  MANY        a count above the limit of the file's version; the 257th node; the
 *                  4097th expression tag                                                         offset
 *   6  TAIL        bytes after the plan                                                          offset of the first
 *   7  CLASH       two equal pairs, or one name both with and without qualifier, in a node's
 *                  fields or in a join's two sides together                                      node
 *   8  UNKNOWN     no field fits a column                                                        node
 *   9  WIDTH       a Union's inputs have unequal widths                                          node
 *   10 FIELDS      a node has over 128 fields (version 2: over 512)                              node
 *   11 REQUEST     the request is not strictly increasing, or not below the root's field count   first such position
 *   12 LARGE       a merge step's list, or the result, passes the node or tag limit              0
 *   13 ROOM        the output is shorter than the result                                         length needed
 *   17 AMBIGUOUS   two fields fit a column                                                       node
 *   18 PAIRS       a set of over 64 pairs (the two functions on predicates alone)                0
 *
 * A column with a qualifier fits the field of that pair; a name alone (qualifier 0) fits every field of that name. A
 * join's two halves are looked up each in their own side, its condition in both together; a scan's filters (version 2) among
 * all columns of its table under the scan's qualifier.
 */
#define SIMMERROOF_OK 0
#define SIMMERROOF_SETTING 1
#define SIMMERROOF_MARK 2
#define SIMMERROOF_CUT 3
#define SIMMERROOF_VALUE 4
#define SIMMERROOF_MANY 5
#define SIMMERROOF_TAIL 6
#define SIMMERROOF_CLASH 7
#define SIMMERROOF_UNKNOWN 8
#define SIMMERROOF_WIDTH 9
#define SIMMERROOF_FIELDS 10
#define SIMMERROOF_REQUEST 11
#define SIMMERROOF_LARGE 12
#define SIMMERROOF_ROOM 13
#define SIMMERROOF_AMBIGUOUS 17
#define SIMMERROOF_PAIRS 18

/* What the caller owes. Every pointer points to as many elements as its length says, is not NULL even where the length
 * is 0, and is aligned for its type. `out`, `answer` and the lent arrays overlap neither each other nor what is read.
 * Nothing else is asked: every content of every array gets an answer.
 *
 * Keys (version 2). A file that declares a key of a table says that in each content of this table no two rows have the same
 * values in all key columns, and that none of these values is missing. By it both modes drop groups that were not requested.
 * The library does not see the tables: over one that breaks its key the rewritten plan can give other rows. A file without
 * keys, as every file of version 1, says nothing of its tables.
 *
 * Stack: 4 MiB are enough for the two plain functions on files of version 1, 8 MiB on files of version 2, and 3 MiB for the lent
 * form below on both; less where plans are small. The plain ones keep their working arrays on the stack and clear them in each
 * call: 1.2 MB for a file of version 1, 3.2 MB for one of version 2. Besides, each level of a plan takes some 3.3 KB, and each
 * level of an expression a third of a KB. (Measured on the kit before this one, not proved: bench/stack.)
 *
 * request: the wanted fields of the plan's root, by index, strictly increasing. */
void simmerroof_prune(uint8_t mode, uint16_t mask, const uint8_t *file, size_t file_len, const uint16_t *request,
                      size_t request_len, uint8_t *out, size_t out_len, uint64_t answer[3]);

/* The same, asking for every field of the root. */
void simmerroof_prune_all(uint8_t mode, uint16_t mask, const uint8_t *file, size_t file_len, uint8_t *out,
                          size_t out_len, uint64_t answer[3]);

/* Reading and checking alone, as the functions above do it before they look at the request: is the file an accepted plan
 * file? answer[0] is the code (0, 2 to 10, or 17), answer[1] the place; answer[2] is the plan's number of nodes and answer[3] the
 * number of its root's fields, both 0 on a refusal. The working arrays are on the stack, 0.9 MB for a file of version 1 and 2.8 MB
 * for one of version 2: 4 MiB are enough for both. */
void simmerroof_check(const uint8_t *file, size_t file_len, uint64_t answer[4]);

/* The plan of a file as an indented text, one node a line, two spaces a level, each line ended by a newline (docs/FORMAT.md,
 * "A plan as text"); no zero byte is added. The codes are those of simmerroof_check, then 13 with the length needed; the
 * text of a plan can be many times as long as its file. No two plans have one text. The working arrays are on the stack, as
 * those of simmerroof_check. */
void simmerroof_list_plan(const uint8_t *file, size_t file_len, uint8_t *out, size_t out_len, uint64_t answer[3]);

/* ---- Keys out of a predicate ----------------------------------------------------------------------------------------
 * A predicate is one expression in the file's form (docs/FORMAT.md) and nothing after it. The codes are 3 to 6 at offsets
 * within the argument at fault, the predicate before the keys; then 18; then 13.
 *
 * simmerroof_join_keys writes the pairs of expressions that are both present and equal on every row where the predicate is
 * yes: one byte n (at most 64) and n times two expressions, in the order in which the Rust's JoinKeySet has them; a pair and
 * its mirror are one. An output as long as the predicate always has room. */
void simmerroof_join_keys(const uint8_t *predicate, size_t predicate_len, uint8_t *out, size_t out_len,
                          uint64_t answer[3]);

/* What is left of the predicate where all pairs of `keys` (as the function above writes them) are present and equal: it is
 * yes exactly where the predicate is. Written: 0 for nothing left, which counts as yes, or 1 and an expression. An output
 * one byte longer than the predicate always has room. */
void simmerroof_without_keys(const uint8_t *predicate, size_t predicate_len, const uint8_t *keys, size_t keys_len,
                             uint8_t *out, size_t out_len, uint64_t answer[3]);

/* ---- The lent form --------------------------------------------------------------------------------------------------
 * The same two with the working arrays lent: for callers that prune many plans, or have less stack. Keep one
 * `struct simmerroof_work` on the heap (3,170,720 bytes, for files of both versions) and call the two `_with` functions. What
 * the arrays held does not matter, and what they hold afterwards means nothing; nobody clears them. One struct serves one call
 * at a time. */
struct simmerroof_work {
    uint64_t cells[12288], nodes[1792], widths[512], keys[2448], acells[12288], bcells[12288], records[3328], icells[12288];
    uint16_t rows[1065088], names[8208], fields[262144], arows[2048], brows[2048], items[16896];
};

/* The library's own functions, which take the arrays one by one. The number at the end of their names is that of the lengths
 * above and changes whenever one of them does, so that a program compiled for other lengths does not link. */
void simmerroof_prune_in3(uint8_t mode, uint16_t mask, const uint8_t *file, size_t file_len, const uint16_t *request,
                          size_t request_len, uint8_t *out, size_t out_len, uint64_t cells[12288],
                          uint16_t rows[1065088], uint64_t nodes[1792], uint16_t names[8208], uint16_t fields[262144],
                          uint64_t widths[512], uint64_t keys[2448], uint16_t arows[2048], uint64_t acells[12288],
                          uint16_t brows[2048], uint64_t bcells[12288], uint64_t records[3328], uint16_t items[16896],
                          uint64_t icells[12288], uint64_t answer[3]);
void simmerroof_prune_all_in3(uint8_t mode, uint16_t mask, const uint8_t *file, size_t file_len, uint8_t *out,
                              size_t out_len, uint64_t cells[12288], uint16_t rows[1065088], uint64_t nodes[1792],
                              uint16_t names[8208], uint16_t fields[262144], uint64_t widths[512],
                              uint64_t keys[2448], uint16_t arows[2048], uint64_t acells[12288], uint16_t brows[2048],
                              uint64_t bcells[12288], uint64_t records[3328], uint16_t items[16896],
                              uint64_t icells[12288], uint64_t answer[3]);

/* As simmerroof_prune. */
static inline void simmerroof_prune_with(uint8_t mode, uint16_t mask, const uint8_t *file, size_t file_len,
                                         const uint16_t *request, size_t request_len, uint8_t *out, size_t out_len,
                                         struct simmerroof_work *work, uint64_t answer[3]) {
    simmerroof_prune_in3(mode, mask, file, file_len, request, request_len, out, out_len, work->cells, work->rows,
                         work->nodes, work->names, work->fields, work->widths, work->keys, work->arows, work->acells, work->brows,
                         work->bcells, work->records, work->items, work->icells, answer);
}

/* As simmerroof_prune_all. */
static inline void simmerroof_prune_all_with(uint8_t mode, uint16_t mask, const uint8_t *file, size_t file_len,
                                             uint8_t *out, size_t out_len, struct simmerroof_work *work,
                                             uint64_t answer[3]) {
    simmerroof_prune_all_in3(mode, mask, file, file_len, out, out_len, work->cells, work->rows, work->nodes,
                             work->names, work->fields, work->widths, work->keys, work->arows, work->acells, work->brows,
                             work->bcells, work->records, work->items, work->icells, answer);
}

#ifdef __cplusplus
}
#endif
#endif
