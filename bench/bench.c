/*
 * What the chip costs, in x86-64 instructions per item. Every call of the archive stands between two marks, which icount.c counts; what the
 * host does between calls is not counted. An item is a command, a frame sent, a frame received, an arrival or an attention, and its cost is
 * that of all calls it takes.
 *
 *     bench ROW N ITEMS    runs a row with a memory of N bytes and so many items; with + before it, turns in a row are one lq_run
 *
 * With h before a row of frames (+h too), headers are in buffers: address location 1.
 */
#include "lentoquist.h"
#include "mark.h"

#include <stdio.h>
#include <stdlib.h>
#include <string.h>

/* ---- the board: all structures below 8,192 but a long list's, the SCB base 0. The first 1,536 bytes are left to what passes the end ---- */

enum {
    ISCP_AT = 0x0600,
    SCB_AT = 0x0610,
    BLOCK_AT = 0x0640,       /* a block for a Transmit, or for an MC-Setup of 30 addresses */
    TBD_AT = 0x0700,         /* transmit buffer descriptors, 8 bytes each */
    FD_AT = 0x0800,          /* two frame descriptors, 32 bytes from one to the next, linked to each other */
    RBD_AT = 0x0840,         /* receive buffer descriptors, 16 bytes from one to the next, in a ring */
    SENT_AT = 0x1000,        /* what is sent */
    RECEIVED_AT = 0x1600,    /* what the receive buffer descriptors point to */
    LIST_AT = 0x1C00,        /* NOPs, 6 bytes each */
    MARK = 1
};

enum { HEADER = LQ_FRAME_HEADER(LQ_ADDRESS_LENGTH_AFTER_RESET) };

static uint8_t memory[LQ_MEMORY_MAX];
static size_t size;
static uint8_t holding[LQ_HOLDING_SIZE];
static uint8_t outgoing[LQ_OUTGOING_SIZE];
static uint8_t record[LQ_RECORD_SIZE];

#define AREAS memory, size, holding, sizeof holding, outgoing, sizeof outgoing, record, sizeof record

static void put_word(uint32_t at, unsigned word)
{
    memory[at % size] = (uint8_t)word;
    memory[(at + 1) % size] = (uint8_t)(word >> 8);
}

static unsigned get_word(uint32_t at)
{
    return memory[at % size] + 256u * memory[(at + 1) % size];
}

static void put_address(uint32_t at, uint32_t address)
{
    put_word(at, address & 0xFFFF);
    put_word(at + 2, address >> 16);
}

static void must(int so, const char *what)
{
    if (so) return;
    fprintf(stderr, "bench: %s\n", what);
    exit(1);
}

/* ---- counted calls ---- */

static void attention(void)
{
    MARK_BEGIN(MARK);
    uint64_t answer = lq_attention(AREAS);
    MARK_END(MARK);
    must(lq_number(answer) == LQ_ACCEPTED, "an attention was refused");
}

static size_t turn(void)
{
    MARK_BEGIN(MARK);
    uint64_t answer = lq_turn(AREAS, 0);
    MARK_END(MARK);
    must(lq_number(answer) == LQ_ACCEPTED, "a turn was refused");
    return lq_length(answer);
}

static bool by_runs;

/* So many turns: each a call of its own, or runs until they are taken. Answers how many bytes were sent. */
static size_t turns(unsigned count)
{
    size_t sent = 0;
    if (!by_runs) {
        while (count-- > 0) sent += turn();
        return sent;
    }
    while (count > 0) {
        uint16_t budget = (uint16_t)(count > 65535 ? 65535 : count);
        MARK_BEGIN(MARK);
        uint64_t answer = lq_run(AREAS, 0, budget);
        MARK_END(MARK);
        must(lq_number(answer) == LQ_ACCEPTED, "a run was refused");
        must(lq_turns(answer) > 0 && lq_turns(answer) <= budget, "a run took more or fewer turns than it may");
        count -= lq_turns(answer);
        sent += lq_length(answer);
    }
    return sent;
}

/* Answers why the frame was dropped. */
static unsigned arrival(const uint8_t *frame, size_t length)
{
    MARK_BEGIN(MARK);
    uint64_t answer = lq_arrival(AREAS, frame, length, LQ_VERDICT_GOOD);
    MARK_END(MARK);
    must(lq_number(answer) == LQ_ACCEPTED, "an arrival was refused");
    return lq_reason(answer);
}

/* ---- what comes before a row, uncounted ---- */

static void command(unsigned word)
{
    put_word(SCB_AT + LQ_SCB_COMMAND, word);
    must(lq_number(lq_attention(AREAS)) == LQ_ACCEPTED, "an attention was refused");
}

static void initialise(size_t n)
{
    size = n;
    must(lq_number(lq_reset(record, sizeof record)) == LQ_ACCEPTED, "a reset was refused");
    put_word(LQ_SCP_ISCP, ISCP_AT);
    put_word(ISCP_AT + LQ_ISCP_SCB, SCB_AT);
    command(0);
    command(LQ_EVENTS);
}

/* Configure, as far as byte 3: addresses as after reset, headers in buffers. */
static void set_location(void)
{
    put_word(BLOCK_AT + LQ_CB_COMMAND, LQ_CMD_CONFIGURE | LQ_EL);
    put_word(BLOCK_AT + LQ_CB_DATA + LQ_CONFIGURE_COUNT, 4);
    put_word(BLOCK_AT + LQ_CB_DATA + LQ_CONFIGURE_SAVE, (LQ_ADDRESS_LENGTH_AFTER_RESET | LQ_ADDRESS_LOCATION) << 8);
    put_word(SCB_AT + LQ_SCB_CBL, BLOCK_AT);
    command(LQ_CUC(LQ_START));
    must(lq_number(lq_run(AREAS, 0, 2)) == LQ_ACCEPTED, "a run was refused");
    must(get_word(BLOCK_AT) == (LQ_C | LQ_OK), "a Configure is not done");
    command(LQ_EVENTS);
}

static void fill_frame(uint8_t *frame, size_t length, uint8_t to)
{
    memset(frame, to, 6);
    for (size_t i = 6; i < length; i++) frame[i] = (uint8_t)(i * 7);
}

/* ---- rows ---- */

/* A list of NOPs. */
static void nops(unsigned items)
{
    for (unsigned i = 0; i < items; i++) {
        uint32_t at = LIST_AT + 6 * i;
        put_word(at + LQ_CB_COMMAND, LQ_CMD_NOP | (i + 1 == items ? LQ_EL : 0));
        put_word(at + LQ_CB_LINK, at + 6);
    }
    put_word(SCB_AT + LQ_SCB_CBL, LIST_AT);
    command(LQ_CUC(LQ_START));
    turns(2 * items);
    must(get_word(LIST_AT + 6 * (items - 1)) == (LQ_C | LQ_OK), "the last NOP is not done");
}

/* What buffers have of a frame: length bytes in so many of them, side by side, the last so many bytes behind the end of memory. Outside them is
   the header, or nothing. */
struct data {
    unsigned length, buffers, behind, outside;
};

static unsigned each_of(struct data data)
{
    return (data.length + data.buffers - 1) / data.buffers;
}

/* Where the data begin: at their usual place, or so that they pass the end. */
static uint32_t begin_of(struct data data, uint32_t usual)
{
    return data.behind == 0 ? usual : (uint32_t)size - (data.length - data.behind);
}

static bool stands_at(uint32_t at, const uint8_t *bytes, unsigned length)
{
    for (unsigned i = 0; i < length; i++) {
        if (memory[(at + i) % size] != bytes[i]) return false;
    }
    return true;
}

/* The same Transmit again and again. */
static void sends(unsigned items, struct data data)
{
    unsigned each = each_of(data);
    uint32_t begin = begin_of(data, SENT_AT);
    for (unsigned i = 0; i < data.length; i++) memory[(begin + i) % size] = (uint8_t)(i * 7);
    for (unsigned i = 0; i < data.buffers; i++) {
        uint32_t at = TBD_AT + 8 * i;
        unsigned count = i + 1 == data.buffers ? data.length - each * i : each;
        put_word(at + LQ_TBD_COUNT, count | (i + 1 == data.buffers ? LQ_EOF : 0));
        put_word(at + LQ_TBD_NEXT, at + 8);
        put_address(at + LQ_TBD_BUFFER, begin + each * i);
    }
    put_word(BLOCK_AT + LQ_CB_COMMAND, LQ_CMD_TRANSMIT);
    put_word(BLOCK_AT + LQ_CB_LINK, BLOCK_AT);
    put_word(BLOCK_AT + LQ_TRANSMIT_BUFFER, TBD_AT);
    put_word(SCB_AT + LQ_SCB_CBL, BLOCK_AT);
    command(LQ_CUC(LQ_START));
    for (unsigned i = 0; i < items; i++) {
        memset(outgoing, 0, sizeof outgoing);
        size_t sent = turns(2 + data.buffers);
        must(sent == data.outside + data.length, "a frame was not sent");
        must(stands_at(begin, outgoing + data.outside, data.length), "other bytes were sent");
    }
}

/* Frames to everyone, into buffers of a size that takes so many of them. */
static void receives(unsigned items, struct data data)
{
    static uint8_t frame[LQ_FRAME_MAX];
    unsigned each = each_of(data);
    uint32_t begin = begin_of(data, RECEIVED_AT);
    for (unsigned i = 0; i < data.buffers; i++) {
        uint32_t at = RBD_AT + 16 * i;
        put_word(at + LQ_RBD_NEXT, RBD_AT + 16 * ((i + 1) % data.buffers));
        put_address(at + LQ_RBD_BUFFER, begin + each * i);
        put_word(at + LQ_RBD_SIZE, each);
    }
    for (unsigned i = 0; i < 2; i++) {
        put_word(FD_AT + 32 * i + LQ_FD_COMMAND, 0);
        put_word(FD_AT + 32 * i + LQ_FD_LINK, FD_AT + 32 * (1 - i));
        put_word(FD_AT + 32 * i + LQ_FD_BUFFER, RBD_AT);
    }
    put_word(SCB_AT + LQ_SCB_RFA, FD_AT);
    command(LQ_RUC(LQ_START));
    fill_frame(frame, data.outside + data.length, 0xFF);
    for (unsigned i = 0; i < items; i++) {
        frame[HEADER] = (uint8_t)i;
        must(arrival(frame, data.outside + data.length) == LQ_NOT_DROPPED, "a frame was dropped");
        turns(2 + data.buffers);
        must(get_word(FD_AT + 32 * (i % 2)) == (LQ_C | LQ_OK), "a frame was not stored");
        must(stands_at(begin, frame + data.outside, data.length), "other bytes were stored");
    }
}

/* An MC-Setup of 30 groups, 01-00-5E-00-01-01 to -1E, linked to itself, so that it can be done again and again. */
static void start_mc_setup(void)
{
    enum { GROUPS = 30 };
    put_word(BLOCK_AT + LQ_CB_COMMAND, LQ_CMD_MC_SETUP);
    put_word(BLOCK_AT + LQ_CB_LINK, BLOCK_AT);
    put_word(BLOCK_AT + LQ_MC_COUNT, 6 * GROUPS);
    for (unsigned i = 0; i < GROUPS; i++) {
        uint32_t at = BLOCK_AT + LQ_MC_ADDRESSES + 6 * i;
        put_word(at, 0x0001);
        put_word(at + 2, 0x005E);
        put_word(at + 4, 0x0001 | (i + 1) << 8);
    }
    put_word(SCB_AT + LQ_SCB_CBL, BLOCK_AT);
    command(LQ_CUC(LQ_START));
}

static void mc_setups(unsigned items)
{
    start_mc_setup();
    for (unsigned i = 0; i < items; i++) {
        turns(2);
        must(get_word(BLOCK_AT) == (LQ_C | LQ_OK), "an MC-Setup is not done");
    }
}

/* Frames that are dropped: to six times a byte. */
static void dropped(unsigned items, uint8_t to)
{
    static uint8_t frame[64];
    put_word(SCB_AT + LQ_SCB_RFA, FD_AT);
    command(LQ_RUC(LQ_START));
    fill_frame(frame, 60, to);
    for (unsigned i = 0; i < items; i++)
        must(arrival(frame, 60) == LQ_DROPPED_NO_MATCH, "a frame that is not for us was not dropped for that");
    must(lq_number(lq_turn(AREAS, 0)) == LQ_ACCEPTED && get_word(FD_AT) == 0, "a frame that is not for us was held");
}

/* Frames to another station. */
static void not_for_us(unsigned items)
{
    dropped(items, 0x02);
}

/* Frames to a group, 01-01-01-01-01-01, whose bit, 47, is clear while those of 30 others are set. */
static void not_our_group(unsigned items)
{
    start_mc_setup();
    must(lq_number(lq_run(AREAS, 0, 2)) == LQ_ACCEPTED, "a run was refused");
    must(get_word(BLOCK_AT) == (LQ_C | LQ_OK), "an MC-Setup is not done");
    command(LQ_CUC(LQ_ABORT));
    command(LQ_EVENTS);
    dropped(items, 0x01);
}

static void attentions(unsigned items)
{
    for (unsigned i = 0; i < items; i++) attention();
}

static void idle_turns(unsigned items)
{
    for (unsigned i = 0; i < items; i++) turn();
}

static const struct row {
    const char *name;
    void (*run)(unsigned items);
} PLAIN[] = {
    {"nop", nops},
    {"mc30", mc_setups},
    {"other", not_for_us},
    {"group", not_our_group},
    {"attention", attentions},
    {"idle", idle_turns},
};

/* tx46, tx1500/6, rx46, rx46/3, rx1500:750 ..: bytes of data; then buffers if more than one, or how many bytes lie behind the end of memory.
   htx46, hrx1500 ..: the same frames, with their header in the buffers before the data. */
static void framed(const char *row, unsigned items)
{
    char *end;
    bool in_buffers = row[0] == 'h';
    if (in_buffers) row++;
    must(row[0] == 't' || row[0] == 'r', "there is no such row");
    struct data data = {.length = (unsigned)strtoul(row + 2, &end, 10), .buffers = 1, .outside = HEADER};
    if (*end == '/') data.buffers = (unsigned)strtoul(end + 1, NULL, 10);
    if (*end == ':') data.behind = (unsigned)strtoul(end + 1, NULL, 10);
    must(data.length > 0 && data.length <= 1500 && data.buffers > 0 && data.buffers <= 32 && data.behind <= data.length, "there is no such row");
    if (in_buffers) {
        set_location();
        data.length += HEADER;
        data.outside = 0;
    }
    if (row[0] == 't') sends(items, data);
    else receives(items, data);
}

int main(int argc, char **argv)
{
    must(argc == 4, "usage: bench ROW N ITEMS");
    unsigned items = (unsigned)strtoul(argv[3], NULL, 10);
    if (argv[1][0] == '+') {
        by_runs = true;
        argv[1]++;
    }
    initialise(strtoul(argv[2], NULL, 10));
    for (size_t i = 0; i < sizeof PLAIN / sizeof PLAIN[0]; i++) {
        if (strcmp(argv[1], PLAIN[i].name) != 0) continue;
        PLAIN[i].run(items);
        return 0;
    }
    framed(argv[1], items);
    return 0;
}
