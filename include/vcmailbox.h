/* The VideoCore property interface: requests and replies, and an emulated board that answers them.
 *
 * Link with libvcmailbox.a, which `./vc library` builds. Every function here is proved: it gives an
 * outcome for any bytes, any numbers and any record, and reads and writes nothing but what it is lent.
 * A pointer must be valid for the length that follows it, and may be null where that is 0, or be valid for
 * the one number or struct it points to; what is lent to be written must overlap nothing else that the same
 * call is lent, and a bool of a record must hold 0 or 1. Numbers are given back through uint32_t pointers:
 * no offset or size is above 65,536.
 *
 * A message is a run of little-endian words: its size in bytes, a code, tags, an end word 0, padding.
 * A tag is its id, the size of its value in bytes, a tag word, and the value, padded to 4. */
#ifndef VCMAILBOX_H
#define VCMAILBOX_H

#include <stdbool.h>
#include <stddef.h>
#include <stdint.h>

#ifdef __cplusplus
extern "C" {
#endif

/* Outcomes. Only VC_NO_END, VC_RUNS_OVER and VC_SHORT_REQUEST have a place other than 0. */
enum {
    VC_DONE = 0,
    VC_TOO_FEW_LENT = 1,     /* fewer than 12 bytes were lent */
    VC_BAD_SIZE = 2,         /* the size word is not 12 to 65,536, a multiple of 4, within what was lent */
    VC_NOT_REQUEST = 3,      /* serving: the code word is not 0 */
    VC_NO_END = 4,           /* the tags reach the size without an end word */
    VC_RUNS_OVER = 5,        /* a tag runs over the size */
    VC_SHORT_REQUEST = 6,    /* serving: a tag's value is shorter than its request */
    VC_NO_ROOM = 7,          /* building: the buffer has no room for it */
    VC_BAD_TAG = 8,          /* building: id 0, or a request longer than its value */
    VC_BAD_CURSOR = 9,       /* building: the cursor is below 8, no multiple of 4 or behind the buffer */
    VC_NOT_RESPONSE = 10,    /* reading: the code word is no response's */
    VC_NO_SUCH_TAG = 11,     /* the message ends before such a tag */
    VC_NOT_ANSWERED = 12,    /* reading: the tag was not answered */
    VC_FEWER_STORED = 13,    /* reading: fewer bytes are stored than wanted */
    VC_INVALID_BOARD = 14    /* serving: the board record is not valid */
};

/* ---- the client: building requests
 *
 * Start, add each tag, finish; each call takes the cursor that the last one gave. A call that is
 * refused writes nothing: adding leaves the cursor as it was, start and finish give 0.
 * The buffer must be aligned to 16 for a real mailbox; nothing here asks it. */

uint32_t vc_start(const uint8_t *buffer, size_t length, uint32_t *cursor);

/* A tag with a value of `size` bytes that begins with the request, and zeros behind it. */
uint32_t vc_add(uint8_t *buffer, size_t length, uint32_t *cursor, uint32_t id, uint32_t size,
                const uint8_t *request, size_t request_length);

/* Gives the size of the message, a multiple of 16. */
uint32_t vc_finish(uint8_t *buffer, size_t length, uint32_t cursor, uint32_t *size);

/* ---- the client: taking messages apart
 *
 * The message is not written. A refusal sets every number but the place to 0. */

/* The tag of this index, counted from 0: its id, the size of its value, its tag word, and the offset
 * of its value in the message. */
uint32_t vc_list(const uint8_t *message, size_t length, size_t index, uint32_t *place, uint32_t *id,
                 uint32_t *size, uint32_t *word, uint32_t *value);

/* The answer of the tag of this id and occurrence, counted from 0, in a reply: the whole answer's
 * length, and the offset and number of its first `wanted` bytes in the message. */
uint32_t vc_read(const uint8_t *message, size_t length, uint32_t id, size_t occurrence, size_t wanted,
                 uint32_t *place, uint32_t *answer, uint32_t *value, uint32_t *count);

/* Bytes that lie elsewhere: in a message, or bytes of your own. */
typedef struct {
    const uint8_t *bytes;
    size_t length;
} vc_bytes;

/* The first `wanted` bytes of the same answer, or a default of your own, to which you set `shown` before each
 * call. After VC_DONE it shows the bytes where they stand in the message; after a refusal it is as it was.
 *
 *     vc_bytes mac = {usual_mac, 6};
 *     vc_read_or(reply, size, 0x00010003, 0, 6, &mac);
 *
 * Nothing is copied: write the message again, and what is shown changes with it. */
uint32_t vc_read_or(const uint8_t *message, size_t length, uint32_t id, size_t occurrence, size_t wanted,
                    vc_bytes *shown);

/* ---- the board */

typedef struct {
    uint32_t base;
    uint32_t size;
} vc_span;

/* What never changes. `characters` says how many bytes of the command line there are, at most 256. */
typedef struct {
    uint32_t firmware;
    uint32_t model;
    uint32_t revision;
    uint8_t mac[6];
    uint64_t serial;
    vc_span arm;
    vc_span vc;
    uint32_t dma;
    uint32_t characters;
} vc_facts;

typedef struct {
    bool exists;
    bool on;
} vc_state;

/* A power device, and how long it takes to come up. */
typedef struct {
    vc_state state;
    uint32_t timing;
} vc_device;

/* A clock, in Hz. */
typedef struct {
    vc_state state;
    uint32_t rate;
    uint32_t min;
    uint32_t max;
} vc_clock;

/* A voltage, in millivolts. */
typedef struct {
    bool valid;
    uint32_t value;
    uint32_t min;
    uint32_t max;
} vc_voltage;

/* In thousandths of a degree. */
typedef struct {
    uint32_t current;
    uint32_t max;
} vc_temperature;

typedef struct {
    uint32_t width;
    uint32_t height;
} vc_size;

typedef struct {
    uint32_t x;
    uint32_t y;
} vc_offset;

/* `logical` is the virtual size. Sides are 1 to 4,096. The offset says where in the virtual picture the shown
 * part begins. On each axis: where the physical side is at most the virtual, offset + physical is at most
 * virtual; where it is larger, the offset is 0. */
typedef struct {
    vc_size physical;
    vc_size logical;
    vc_offset offset;
    uint32_t depth; /* bits a pixel: 8, 16, 24 or 32 */
    uint32_t order; /* 0 or 1 */
    uint32_t alpha; /* 0 to 2 */
} vc_settings;

/* The region for the frame buffer, the settings, and the buffer that stands: where there is none, base and
 * size are 0. */
typedef struct {
    vc_span region;
    vc_settings settings;
    vc_span buffer;
} vc_display;

/* A place for a block of the heap. Where it is taken: not empty, inside the heap, aligned to its alignment, which
 * has one bit set, and with no byte of another block. Where it is free the rest says nothing. */
typedef struct {
    bool taken;
    bool locked;
    uint32_t base;
    uint32_t size;
    uint32_t alignment;
    uint32_t flags;
} vc_block;

/* Devices have the ids 0 to 10, clocks 1 to 14, voltages 1 to 4, blocks of the heap the handles 1 to 32, in this
 * order. The heap's base is above 0, its base + size below 2^32, and it shares no byte with the region for the
 * frame buffer. */
typedef struct {
    vc_facts facts;
    uint8_t line[256];
    vc_device devices[11];
    vc_clock clocks[14];
    vc_voltage voltages[4];
    vc_temperature temperature;
    vc_display display;
    vc_span heap;
    vc_block blocks[32];
} vc_board;

/* Fills in the bench record, which is valid: a board to begin with. */
void vc_bench(vc_board *board);

/* Serves the message on the board: rewrites the message with the answers, and the record as its tags
 * change it. After VC_TOO_FEW_LENT, VC_BAD_SIZE, VC_NOT_REQUEST and VC_INVALID_BOARD both are as they were.
 * After VC_NO_END, VC_RUNS_OVER and VC_SHORT_REQUEST the tags before the fault are carried out, those of the
 * frame buffer group excepted, and the code word is 0x80000001. */
uint32_t vc_serve(vc_board *board, uint8_t *message, size_t length, uint32_t *place);

#ifdef __cplusplus
}
#endif

#endif
