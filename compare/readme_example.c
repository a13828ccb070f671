/* Builds the park file of three nodes (case A, 81 bytes) and runs rounds until it is quiet.
 * Prints: rounds 11 */
#include <stdio.h>
#include "chandvreksh.h"

int main(void) {
    const uint16_t links[] = {1, 2, 10, 2, 3, 1}; /* lower node, higher node, cost in cost units */
    const uint8_t group[32] = {1 << (3 - 1)};     /* node 3 is the only member */
    const uint32_t distances[3] = {0};
    const uint16_t parents[3] = {0};
    const uint8_t marks[3] = {0};
    uint8_t file[81], settled[81];
    uint64_t answer[8];
    chandvreksh_write(3, 1, links, 6, group, 32, distances, 3, parents, 3, marks, 3, file, 81, 0, answer);
    if (answer[0] == 0) chandvreksh_run(file, 81, 16777217, settled, 81, 0, answer);
    if (answer[0] != 0) return 1;
    printf("rounds %d\n", (int)answer[2]);
    return 0;
}
