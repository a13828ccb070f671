/* Makes the library's calls for a program of another processor: requests on standard input, answers on
 * standard output, until the input ends. A request is the call's number, then its arguments in the
 * header's order: numbers of 64 bits, low byte first; a slice as its length, then its elements; an area
 * as a whole buffer, a slice, then where in it the area starts, and the area's length. An answer is
 * the call's eight numbers between two guards, then, for a call with an area, the whole buffer. */
#include <stdio.h>
#include <stdlib.h>
#include "chandvreksh.h"

enum { CHECK, RUN, EXACT, WRITE, RIGHT, WAY, SUMMARY };

/* More than any slice of a request takes, in bytes. */
#define ROOM 65536
/* No call answers this, so a slot left unwritten, or a neighbour of the answer overwritten, shows. */
#define UNWRITTEN 0xA5A55A5AA5A55A5A

static uint8_t file[ROOM], group[ROOM], marks[ROOM], buffer[ROOM];
static uint16_t links[ROOM / 2], parents[ROOM / 2];
static uint32_t distances[ROOM / 4];
static size_t buffer_len;

/* The lent area: a part of the buffer, and the place that the call is given, in bytes. */
struct area {
    uint8_t *start;
    size_t len, place;
};

/* A request that is not as said above is the asker's fault, and ends the program. */
static void need(int holds) {
    if (!holds) exit(2);
}

static uint64_t number(void) {
    uint64_t taken;
    need(fread(&taken, sizeof taken, 1, stdin) == 1);
    return taken;
}

/* Takes a slice of elements of `width` bytes each; its length in elements. */
static size_t slice(void *room, size_t width) {
    uint64_t len = number();
    need(len <= ROOM / width);
    need(fread(room, width, len, stdin) == len);
    return len;
}

static struct area area_and_place(void) {
    struct area area;
    uint64_t start;
    buffer_len = slice(buffer, 1);
    start = number();
    area.len = number();
    area.place = number();
    need(start <= buffer_len && area.len <= buffer_len - start);
    area.start = buffer + start;
    return area;
}

static void serve_write(uint64_t *answer) {
    uint16_t nodes = (uint16_t)number();
    uint16_t root = (uint16_t)number();
    size_t links_len = slice(links, sizeof links[0]);
    size_t group_len = slice(group, 1);
    size_t distances_len = slice(distances, sizeof distances[0]);
    size_t parents_len = slice(parents, sizeof parents[0]);
    size_t marks_len = slice(marks, 1);
    struct area area = area_and_place();
    chandvreksh_write(nodes, root, links, links_len, group, group_len, distances, distances_len, parents,
                      parents_len, marks, marks_len, area.start, area.len, area.place, answer);
}

static void serve_run(size_t file_len, uint64_t *answer) {
    uint32_t count = (uint32_t)number();
    struct area area = area_and_place();
    chandvreksh_run(file, file_len, count, area.start, area.len, area.place, answer);
}

static void serve_exact(size_t file_len, uint64_t *answer) {
    struct area area = area_and_place();
    chandvreksh_exact(file, file_len, area.start, area.len, area.place, answer);
}

static void serve(uint64_t call, uint64_t *answer) {
    size_t file_len = call == WRITE ? 0 : slice(file, 1);
    switch (call) {
    case CHECK: chandvreksh_check(file, file_len, answer); break;
    case RUN: serve_run(file_len, answer); break;
    case EXACT: serve_exact(file_len, answer); break;
    case WRITE: serve_write(answer); break;
    case RIGHT: chandvreksh_right(file, file_len, answer); break;
    case WAY: chandvreksh_way(file, file_len, (uint16_t)number(), answer); break;
    case SUMMARY: chandvreksh_summary(file, file_len, answer); break;
    default: need(0);
    }
}

int main(void) {
    uint64_t call, slots[10];
    while (fread(&call, sizeof call, 1, stdin) == 1) {
        for (int i = 0; i < 10; i++) slots[i] = UNWRITTEN;
        buffer_len = 0;
        serve(call, slots + 1);
        fwrite(slots, sizeof slots[0], 10, stdout);
        fwrite(buffer, 1, buffer_len, stdout);
        need(fflush(stdout) == 0);
    }
    return 0;
}
