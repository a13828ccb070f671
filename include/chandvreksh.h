/*
 * Chandvreksh for C and C++: the rounds of a park's shortest path tree, the exact table to compare
 * with, and the reader and writer of the park file. Seven calls over lent bytes.
 * No call keeps state, allocates or blocks, and every call ends.
 */
#ifndef CHANDVREKSH_H
#define CHANDVREKSH_H

#include <stddef.h>
#include <stdint.h>

#ifdef __cplusplus
extern "C" {
#endif

/*
 * What a caller owes: each pointer is not NULL, even with length 0, and points to as many numbers
 * as its length says; `area` and `answer` overlap nothing else. Nothing else need be checked first:
 * any bytes, count, node and place get either the stated result or one refusal.
 *
 * Units. Every _len counts the numbers its pointer leads to: bytes for a file, a group, the marks and
 * an area; 16-bit numbers for links and parents; 32-bit numbers for distances. Costs and distances
 * are in cost units; the ceiling, 16,777,215 cost units, means "no path". Nodes are numbered from 1 to
 * n, n from 1 to 256; as a parent 0 means none. A park has 0 to 1,024 links. Places are in bytes,
 * counted from 0: `place` from the start of the lent area, a refusal's place from the start of the
 * file (in chandvreksh_write, of the file that the numbers would make).
 *
 * The answer is 8 numbers of 64 bits:
 *   answer[0]        refusal number, 0 for none
 *   answer[1]        place of the refusal in bytes, 0 for none
 *   answer[2] to [7] the call's own values, as said at each call; slots not in use are 0
 * A refusal leaves the lent area as it was and sets answer[2] to [7] to 0, so rounds 0 and quiet 0.
 *
 * The lent area. The calls that write put one file into area[place .. place + file length]; bytes
 * before and after it stay. The file written by chandvreksh_run and chandvreksh_exact is as long as
 * the file read. No file is longer than 7,984 bytes: 48 + 6 for each link + 7 for each node.
 *
 * Refusals:
 *   no.  given exactly when                                               place in bytes
 *    1   bytes end where a field is still due, or inside its              where that field starts
 *        three-byte head or its body                                      or should start
 *    2   tag is not the one due                                           the field's first byte
 *    3   length is not 4; not a multiple of 6, or above 6,144;            the field's first byte
 *        not 32; not 7 times n
 *    4   n not in 1 to 256, or root not in 1 to n                         0
 *    5   link end not in 1 to n, ends not ascending, or cost 0            the record's first byte
 *    6   link not after the one before                                    the record's first byte
 *    7   group bit above n                                                the field's first byte
 *    8   bytes after the last field                                       the first such byte
 *    9   place beyond the lent area, or file too long for the rest of it  0
 *   10   count above 16,777,217 rounds                                    0
 *   11   count is 16,777,217 rounds and the table is not quiet after them 0
 *   12   node not in 1 to n                                               0
 *
 * Order: the file from its start, field by field: head complete (1), tag (2), length (3), body
 * complete (1), contents (4; in each link 5 before 6; 7); then 8, 10, 12, 9, 11. The first that holds
 * is the one given. "Refusals 1 to 8" below are these of the file, in this order.
 */

/*
 * Check a park file.
 *   file, file_len   the bytes offered; length in bytes
 *   answer[2]        nodes, 1 to 256
 *   answer[3]        links, 0 to 1,024
 * Refusals, in order: 1 to 8.
 */
void chandvreksh_check(const uint8_t *file, size_t file_len, uint64_t answer[8]);

/*
 * Run rounds from the stored state until `count` are done or the next would change nothing, and write
 * the new file into the lent area. With count 0 that is the file as it was.
 *   file, file_len   the bytes offered; length in bytes
 *   count            most rounds to do, 0 to 16,777,217 rounds
 *   area, area_len   the lent area; length in bytes
 *   place            where in the area the file is to start, in bytes
 *   answer[2]        rounds done
 *   answer[3]        quiet: 1 if one more round would leave every stored value as it is, else 0
 * Refusals, in order: 1 to 8, 10, 9, 11.
 */
void chandvreksh_run(const uint8_t *file, size_t file_len, uint32_t count,
                     uint8_t *area, size_t area_len, size_t place, uint64_t answer[8]);

/*
 * Write the file with the exact table as its state into the lent area: for each node the exact distance
 * in cost units, the exact parent (a node, 0 for none) and the exact mark, 0 or 1.
 *   file, file_len   the bytes offered; length in bytes
 *   area, area_len   the lent area; length in bytes
 *   place            where in the area the file is to start, in bytes
 *   answer           no values of its own
 * Refusals, in order: 1 to 8, 9.
 */
void chandvreksh_exact(const uint8_t *file, size_t file_len,
                       uint8_t *area, size_t area_len, size_t place, uint64_t answer[8]);

/*
 * Write the file of a park given by its numbers into the lent area.
 *   nodes            n, 1 to 256 nodes
 *   root             the root, a node from 1 to n
 *   links, links_len 3 numbers a link: lower node, higher node, cost in cost units (1 to 65,535);
 *                    ascending by lower, then higher; length in 16-bit numbers, at most 3,072
 *   group, group_len the group: node i is bit (i - 1) mod 8, lowest bit 0, of byte (i - 1) / 8;
 *                    bits above n are 0; length 32 bytes
 *   distances        stored distance of nodes 1 to n in cost units, any value; length n
 *   parents          stored parent of nodes 1 to n, a node or any value, 0 for none; length n
 *   marks            stored mark of nodes 1 to n, 0 clear, all else set; length n, in bytes
 *   area, area_len   the lent area; length in bytes
 *   place            where in the area the file is to start, in bytes
 *   answer           no values of its own
 * Refusals, in order, each at its place in the file that the numbers would make: 4; 3 at byte 7 if
 * links_len is no multiple of 3 or is above 3,072; 5 before 6 in each link; 3 at the group field's
 * first byte (10 + 2 times links_len) if group_len is not 32; 7; 3 at the state field's first byte
 * (45 + 2 times links_len) if distances_len, parents_len or marks_len is not n; 9.
 */
void chandvreksh_write(uint16_t nodes, uint16_t root,
                       const uint16_t *links, size_t links_len,
                       const uint8_t *group, size_t group_len,
                       const uint32_t *distances, size_t distances_len,
                       const uint16_t *parents, size_t parents_len,
                       const uint8_t *marks, size_t marks_len,
                       uint8_t *area, size_t area_len, size_t place, uint64_t answer[8]);

/*
 * Tell whether the stored state is the exact table, value for value: a mark of 7 is set but not exact.
 *   file, file_len   the bytes offered; length in bytes
 *   answer[2]        right: 1 if it is, else 0
 * Refusals, in order: 1 to 8.
 */
void chandvreksh_right(const uint8_t *file, size_t file_len, uint64_t answer[8]);

/*
 * Follow stored parents from a node, one hop at a time.
 *   file, file_len   the bytes offered; length in bytes
 *   node             where to start, a node from 1 to n
 *   answer[2]        the node asked about
 *   answer[3]        0 reached: the root was met; its own parent is not read
 *                    1 broken: a node was met whose parent is not one of its neighbours (0 never is)
 *                    2 looping: n hops have met neither
 *   answer[4]        reached: hops made; broken: the node whose parent breaks the way; looping: 0
 * Refusals, in order: 1 to 8, 12.
 */
void chandvreksh_way(const uint8_t *file, size_t file_len, uint16_t node, uint64_t answer[8]);

/*
 * Count members and marks.
 *   file, file_len   the bytes offered; length in bytes
 *   answer[2]        members, in nodes
 *   answer[3]        marked, in nodes: those whose stored mark is set, members or not
 *   answer[4]        served, in nodes: members whose stored mark is set
 * Refusals, in order: 1 to 8.
 */
void chandvreksh_summary(const uint8_t *file, size_t file_len, uint64_t answer[8]);

#ifdef __cplusplus
}
#endif

#endif
