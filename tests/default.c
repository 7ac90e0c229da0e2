/* Readings with a default: which bytes are shown, and where they stand. */
#include <stdio.h>

#include "vcmailbox.h"

enum { MAC_ADDRESS = 0x00010003, SERIAL = 0x00010004, UNKNOWN = 0x00000002 };

static uint8_t message[64];
static const uint8_t own[6] = {1, 2, 3, 4, 5, 6};

/* Reads with the default of `own`, and prints what is shown. */
static void show(const char *what, size_t length, uint32_t id, size_t wanted)
{
    vc_bytes shown = {own, sizeof own};
    uint32_t outcome = vc_read_or(message, length, id, 0, wanted, &shown);
    printf("%s: outcome %u,", what, (unsigned)outcome);
    if (shown.bytes == own)
        printf(" default,");
    else
        printf(" message at %u,", (unsigned)(shown.bytes - message));
    for (size_t i = 0; i < shown.length; i++)
        printf(" %02x", (unsigned)shown.bytes[i]);
    printf("\n");
}

int main(void)
{
    uint32_t cursor, size, place;
    vc_board board;
    vc_bench(&board);
    vc_start(message, sizeof message, &cursor);
    vc_add(message, sizeof message, &cursor, MAC_ADDRESS, 4, NULL, 0);
    vc_add(message, sizeof message, &cursor, UNKNOWN, 4, NULL, 0);
    vc_finish(message, sizeof message, cursor, &size);
    show("not served", size, MAC_ADDRESS, 4);
    vc_serve(&board, message, size, &place);
    show("four bytes", size, MAC_ADDRESS, 4);
    show("three bytes", size, MAC_ADDRESS, 3);
    show("no bytes", size, MAC_ADDRESS, 0);
    show("six bytes", size, MAC_ADDRESS, 6);
    show("2^32 bytes and more", size, MAC_ADDRESS, (size_t)-1);
    show("no such tag", size, SERIAL, 4);
    show("not answered", size, UNKNOWN, 0);
    show("lent 11", 11, MAC_ADDRESS, 4);
    return 0;
}
