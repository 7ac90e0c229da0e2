/* Lengths of 0, with no bytes behind them: the pointer may be null. */
#include <stdio.h>

#include "vcmailbox.h"

static uint8_t buffer[64];

static void line(const char *what, uint32_t outcome)
{
    printf("%s: %u\n", what, (unsigned)outcome);
}

/* Reads with a default of no bytes. */
static void read_or_nothing(const uint8_t *message, size_t length)
{
    vc_bytes shown = {NULL, 0};
    line("read with a default", vc_read_or(message, length, 1, 0, 4, &shown));
    printf("%u bytes %s\n", (unsigned)shown.length, shown.bytes == NULL ? "at null" : "of the message");
}

int main(void)
{
    uint32_t cursor, size, place, id, bytes, word, answer, value, count;
    vc_board board;
    vc_bench(&board);
    line("start", vc_start(NULL, 0, &cursor));
    cursor = 8;
    line("add", vc_add(NULL, 0, &cursor, 1, 4, NULL, 0));
    line("finish", vc_finish(NULL, 0, 8, &size));
    line("list", vc_list(NULL, 0, 0, &place, &id, &bytes, &word, &value));
    line("read", vc_read(NULL, 0, 1, 0, 4, &place, &answer, &value, &count));
    read_or_nothing(NULL, 0);
    line("serve", vc_serve(&board, NULL, 0, &place));

    /* a tag that asks nothing */
    line("start", vc_start(buffer, sizeof buffer, &cursor));
    line("add", vc_add(buffer, sizeof buffer, &cursor, 1, 4, NULL, 0));
    line("finish", vc_finish(buffer, sizeof buffer, cursor, &size));
    line("serve", vc_serve(&board, buffer, size, &place));
    line("read", vc_read(buffer, size, 1, 0, 4, &place, &answer, &value, &count));
    printf("%u bytes answered, %u shown at %u\n", (unsigned)answer, (unsigned)count, (unsigned)value);
    read_or_nothing(buffer, size);
    return 0;
}
