/* Allocates GPU memory, locks it to learn its address, unlocks it and releases it, in a message each that an
 * emulated board answers. Then allocates once more: the handle and the room serve again. */
#include <stdio.h>
#include <stdlib.h>

#include "vcmailbox.h"

enum { ALLOCATE = 0x0003000c, LOCK = 0x0003000d, UNLOCK = 0x0003000e, RELEASE = 0x0003000f };

static uint8_t buffer[64];

static void check(const char *what, uint32_t outcome)
{
    if (outcome != VC_DONE) {
        fprintf(stderr, "%s: outcome %u\n", what, (unsigned)outcome);
        exit(1);
    }
}

/* Sends a message of one tag, whose request is these words, and gives the word that the board answers. */
static uint32_t call(vc_board *board, uint32_t id, const uint32_t *words, uint32_t count)
{
    uint8_t request[12];
    uint32_t cursor, size, place, answer, at, stored;
    for (size_t i = 0; i < 4 * count; i++)
        request[i] = (uint8_t)(words[i / 4] >> (8 * (i % 4)));
    check("starting", vc_start(buffer, sizeof buffer, &cursor));
    check("adding a tag", vc_add(buffer, sizeof buffer, &cursor, id, 4 * count, request, 4 * count));
    check("finishing", vc_finish(buffer, sizeof buffer, cursor, &size));
    check("serving", vc_serve(board, buffer, size, &place));
    check("reading", vc_read(buffer, size, id, 0, 4, &place, &answer, &at, &stored));
    return buffer[at] | buffer[at + 1] << 8 | buffer[at + 2] << 16 | (uint32_t)buffer[at + 3] << 24;
}

static void expect(const char *what, bool good)
{
    if (!good) {
        fprintf(stderr, "%s\n", what);
        exit(1);
    }
}

/* Allocates a block, locks it, and gives it back. */
static void use(vc_board *board, uint32_t size, uint32_t alignment)
{
    const uint32_t wanted[3] = {size, alignment, 0};

    /* Handle 0: the size is 0, the alignment is no power of two, or no room or no handle is left. */
    const uint32_t handle = call(board, ALLOCATE, wanted, 3);
    expect("allocating: handle 0", handle != 0);

    /* No block has the address 0: it stands for a handle that the board does not know. */
    const uint32_t address = call(board, LOCK, &handle, 1);
    expect("locking: unknown handle", address != 0);
    printf("handle %u: %u bytes at 0x%08x\n", (unsigned)handle, (unsigned)size, (unsigned)address);

    /* Here a program on a real board would write to the memory at that address. */

    /* To unlock and to release, the board answers 0, or 1 for a handle that it does not know. */
    expect("unlocking: unknown handle", call(board, UNLOCK, &handle, 1) == 0);
    expect("releasing: unknown handle", call(board, RELEASE, &handle, 1) == 0);
}

int main(void)
{
    vc_board board;
    vc_bench(&board);
    use(&board, 4096, 4096);
    use(&board, 8192, 4096);
    return 0;
}
