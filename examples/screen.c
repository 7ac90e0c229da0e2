/* Sets a screen of 640 x 480 at 24 bits a pixel, then asks for its frame buffer, in two messages that
 * an emulated board answers. */
#include <stdio.h>
#include <stdlib.h>

#include "vcmailbox.h"

enum { SET_PHYSICAL = 0x00048003, SET_VIRTUAL = 0x00048004, SET_DEPTH = 0x00048005, ALLOCATE = 0x00040001 };

static uint8_t buffer[256];

static void check(const char *what, uint32_t outcome)
{
    if (outcome != VC_DONE) {
        fprintf(stderr, "%s: outcome %u\n", what, (unsigned)outcome);
        exit(1);
    }
}

/* Adds a tag whose value is `size` bytes, the first of them these words. */
static void add(uint32_t *cursor, uint32_t id, uint32_t size, const uint32_t *words, size_t count)
{
    uint8_t request[8];
    for (size_t i = 0; i < 4 * count; i++)
        request[i] = (uint8_t)(words[i / 4] >> (8 * (i % 4)));
    check("adding a tag", vc_add(buffer, sizeof buffer, cursor, id, size, request, 4 * count));
}

static void send(vc_board *board, uint32_t cursor)
{
    uint32_t size, place;
    check("finishing", vc_finish(buffer, sizeof buffer, cursor, &size));
    check("serving", vc_serve(board, buffer, size, &place));
}

static uint32_t word_at(uint32_t at)
{
    return buffer[at] | buffer[at + 1] << 8 | buffer[at + 2] << 16 | (uint32_t)buffer[at + 3] << 24;
}

int main(void)
{
    const uint32_t size[2] = {640, 480}, depth[1] = {24}, alignment[1] = {16};
    uint32_t cursor, place, answer, value, count;
    vc_board board;
    vc_bench(&board);

    check("starting", vc_start(buffer, sizeof buffer, &cursor));
    add(&cursor, SET_PHYSICAL, 8, size, 2);
    add(&cursor, SET_VIRTUAL, 8, size, 2);
    add(&cursor, SET_DEPTH, 4, depth, 1);
    send(&board, cursor);

    check("starting", vc_start(buffer, sizeof buffer, &cursor));
    add(&cursor, ALLOCATE, 8, alignment, 1);
    send(&board, cursor);

    check("reading", vc_read(buffer, sizeof buffer, ALLOCATE, 0, 8, &place, &answer, &value, &count));
    printf("frame buffer at 0x%08x, %u bytes\n", (unsigned)word_at(value), (unsigned)word_at(value + 4));
    return 0;
}
