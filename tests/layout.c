/* Every field of the record, written by the header's layout and told by the board's answers: a field that
 * stood elsewhere in the library's own record would answer with another one's number. A block's lock and flags, which
 * no answer tells, are shown as the board leaves them in the record. */
#include <stdio.h>
#include <string.h>

#include "vcmailbox.h"

enum { ALLOCATE = 0x0003000c, LOCK = 0x0003000d, UNLOCK = 0x0003000e, RELEASE = 0x0003000f };

static uint8_t buffer[64];

/* Has the board answer a tag with this request. The answer's words are in the buffer from `value` on. */
static uint32_t send(vc_board *board, uint32_t id, const uint32_t request[3], uint32_t *word, uint32_t *value)
{
    uint8_t bytes[12];
    uint32_t cursor, size, place, length;
    for (size_t i = 0; i < sizeof bytes; i++)
        bytes[i] = (uint8_t)(request[i / 4] >> (8 * (i % 4)));
    vc_start(buffer, sizeof buffer, &cursor);
    vc_add(buffer, sizeof buffer, &cursor, id, sizeof bytes, bytes, sizeof bytes);
    vc_finish(buffer, sizeof buffer, cursor, &size);
    const uint32_t outcome = vc_serve(board, buffer, size, &place);
    vc_list(buffer, size, 0, &place, &id, &length, word, value);
    return outcome;
}

/* The number of `length` bytes at a place of the buffer. */
static uint32_t number_at(uint32_t at, uint32_t length)
{
    uint32_t number = 0;
    for (uint32_t k = length; k > 0; k--)
        number = number << 8 | buffer[at + k - 1];
    return number;
}

/* Asks the board for one thing, and prints the answer: word by word, or byte by byte where it is not of words. */
static void ask(vc_board *board, const char *what, uint32_t id, uint8_t item)
{
    const uint32_t request[3] = {item, 0, 0};
    uint32_t word, value;
    printf("%s: outcome %u,", what, (unsigned)send(board, id, request, &word, &value));
    const uint32_t answer = word & 0x7fffffff, step = answer % 4 == 0 ? 4 : 1;
    for (uint32_t at = 0; at < answer; at += step)
        printf(step == 4 ? " %u" : " 0x%02x", (unsigned)number_at(value + at, step));
    printf("\n");
}

static void fill_facts(vc_board *board)
{
    vc_facts *facts = &board->facts;
    facts->firmware = 101;
    facts->model = 102;
    facts->revision = 103;
    memcpy(facts->mac, "\x11\x12\x13\x14\x15\x16", 6);
    facts->serial = 104 + ((uint64_t)105 << 32);
    facts->arm.base = 106;
    facts->arm.size = 107;
    facts->vc.base = 108;
    facts->vc.size = 109;
    facts->dma = 110;
    facts->characters = 3;
    memcpy(board->line, "abc", 3);
    board->temperature.current = 111;
    board->temperature.max = 112;
}

/* The first and the last item of each kind. */
static void fill_items(vc_board *board)
{
    const vc_state on = {.exists = true, .on = true}, off = {.exists = true, .on = false};
    board->devices[0] = (vc_device){.state = off, .timing = 201};
    board->devices[10] = (vc_device){.state = on, .timing = 202};
    board->clocks[0] = (vc_clock){.state = off, .rate = 204, .min = 203, .max = 205};
    board->clocks[13] = (vc_clock){.state = on, .rate = 207, .min = 206, .max = 208};
    board->voltages[0] = (vc_voltage){.valid = true, .value = 1250, .min = 1225, .max = 1275};
    board->voltages[3] = (vc_voltage){.valid = true, .value = 1325, .min = 1300, .max = 1350};
}

static void fill_display(vc_display *display)
{
    vc_settings *settings = &display->settings;
    settings->physical = (vc_size){.width = 301, .height = 302};
    settings->logical = (vc_size){.width = 303, .height = 304};
    settings->offset = (vc_offset){.x = 1, .y = 2};
    settings->depth = 16;
    settings->order = 0;
    settings->alpha = 1;
    display->region = (vc_span){.base = 16 * 307, .size = 1000 * 1000};
    display->buffer = (vc_span){.base = 0, .size = 0};
}

/* Blocks in the first, a middle and the last place, and numbers that say nothing in one that is free. Before, between
 * and behind the blocks are 10, 20, 30 and 40 bytes of room. No base is a multiple of twice its alignment. */
static void fill_memory(vc_board *board)
{
    vc_block *first = &board->blocks[0], *middle = &board->blocks[16], *last = &board->blocks[31];
    board->heap = (vc_span){.base = 1048707062, .size = 151203125};
    *first = (vc_block){.taken = true, .base = 8001 * 131072, .size = 65470444, .alignment = 131072, .flags = 400001};
    *middle = (vc_block){.taken = true, .base = 17001 * 65536, .size = 65732578, .alignment = 65536, .flags = 400002};
    *last = (vc_block){.taken = true, .base = 4501 * 262144, .size = 20000003, .alignment = 262144, .flags = 400003};
    board->blocks[1] = (vc_block){.locked = true, .base = 401, .size = 0, .alignment = 402, .flags = 403};
}

/* The handles of the blocks in the first, a middle and the last place. */
static const uint8_t handles[] = {1, 17, 32};
enum { HANDLES = sizeof handles };

/* Prints a block as it stands in the record: its base, size, alignment and flags. */
static void show(const vc_board *board, uint8_t handle)
{
    const vc_block *block = &board->blocks[handle - 1];
    printf("block %u in the record:%s%s %u %u %u %u\n", (unsigned)handle, block->taken ? " taken" : "",
           block->locked ? " locked" : "", (unsigned)block->base, (unsigned)block->size, (unsigned)block->alignment,
           (unsigned)block->flags);
}

/* Has the board answer a tag, and gives the answer's first word. */
static uint32_t answer(vc_board *board, uint32_t id, uint32_t first, uint32_t second, uint32_t third)
{
    const uint32_t request[3] = {first, second, third};
    uint32_t word, value;
    send(board, id, request, &word, &value);
    return number_at(value, 4);
}

/* A block's address and lock, and its alignment: with twice of it the record is not valid. */
static void tell_block(vc_board *board, uint8_t handle)
{
    vc_block *block = &board->blocks[handle - 1];
    const uint32_t request[3] = {handle, 0, 0};
    uint32_t word, value;
    ask(board, "lock", LOCK, handle);
    show(board, handle);
    ask(board, "unlock", UNLOCK, handle);
    show(board, handle);
    block->alignment *= 2;
    printf("twice its alignment: outcome %u\n", (unsigned)send(board, LOCK, request, &word, &value));
    block->alignment /= 2;
}

/* Where the board finds room, and for how much: the blocks' sizes, and the heap's base and size. */
static void tell_room(vc_board *board)
{
    static const uint32_t sizes[] = {41, 40, 30, 20, 10, 1};
    for (size_t i = 0; i < sizeof sizes / sizeof *sizes; i++) {
        const uint32_t handle = answer(board, ALLOCATE, sizes[i], 1, 0);
        const uint32_t address = answer(board, LOCK, handle, 0, 0);
        printf("room for %u: handle %u, address %u\n", (unsigned)sizes[i], (unsigned)handle, (unsigned)address);
    }
}

/* Releases the three blocks, and has the board fill their places and all others itself. */
static void refill(vc_board *board)
{
    for (size_t i = 0; i < HANDLES; i++) {
        ask(board, "release", RELEASE, handles[i]);
        show(board, handles[i]);
    }
    for (uint32_t i = 0; i < 32; i++)
        answer(board, ALLOCATE, 70000 + i, 65536u << i % 8, 500000 + i);
    for (size_t i = 0; i < HANDLES; i++) {
        show(board, handles[i]);
        ask(board, "lock", LOCK, handles[i]);
    }
}

int main(void)
{
    static const struct {
        const char *what;
        uint32_t id;
        uint8_t item;
    } questions[] = {
        {"firmware", 0x00000001, 0},        {"model", 0x00010001, 0},          {"revision", 0x00010002, 0},
        {"MAC address", 0x00010003, 0},     {"serial", 0x00010004, 0},         {"ARM memory", 0x00010005, 0},
        {"VC memory", 0x00010006, 0},       {"command line", 0x00050001, 0},   {"DMA", 0x00060001, 0},
        {"device 0", 0x00020001, 0},        {"its timing", 0x00020002, 0},     {"device 10", 0x00020001, 10},
        {"its timing", 0x00020002, 10},     {"clock 1", 0x00030001, 1},        {"its rate", 0x00030002, 1},
        {"its minimum", 0x00030007, 1},     {"its maximum", 0x00030004, 1},    {"clock 14", 0x00030001, 14},
        {"its rate", 0x00030002, 14},       {"its minimum", 0x00030007, 14},   {"its maximum", 0x00030004, 14},
        {"voltage 1", 0x00030003, 1},       {"its minimum", 0x00030008, 1},    {"its maximum", 0x00030005, 1},
        {"voltage 4", 0x00030003, 4},       {"its minimum", 0x00030008, 4},    {"its maximum", 0x00030005, 4},
        {"temperature", 0x00030006, 0},     {"its maximum", 0x0003000a, 0},    {"physical size", 0x00040003, 0},
        {"virtual size", 0x00040004, 0},    {"virtual offset", 0x00040009, 0}, {"depth", 0x00040005, 0},
        {"pixel order", 0x00040006, 0},     {"alpha mode", 0x00040007, 0},     {"buffer", 0x00040001, 16},
    };
    vc_board board;
    vc_bench(&board);
    fill_facts(&board);
    fill_items(&board);
    fill_display(&board.display);
    fill_memory(&board);
    printf("record of %u bytes\n", (unsigned)sizeof board);
    for (size_t i = 0; i < sizeof questions / sizeof *questions; i++)
        ask(&board, questions[i].what, questions[i].id, questions[i].item);
    printf("buffer in the record: %u %u\n", (unsigned)board.display.buffer.base, (unsigned)board.display.buffer.size);
    for (size_t i = 0; i < HANDLES; i++)
        tell_block(&board, handles[i]);
    ask(&board, "lock of a free place", LOCK, 2);
    tell_room(&board);
    refill(&board);
    return 0;
}
