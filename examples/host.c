/*
 * An emulator's side of the chip, in small: the board that lends its areas, the line, and a driver as it would run on
 * the emulated processor. It initialises the chip, configures it, sets its address, sends two frames and receives
 * three of five. examples/host.expected is what it prints.
 *
 *     cc -Iinclude examples/host.c target/staticlib/liblentoquist.a -o host && ./host
 */
#include "lentoquist.h"

#include <stdio.h>
#include <stdlib.h>
#include <string.h>

/* ---- the board: memory, and the areas that are kept for the chip between calls ---- */

enum { N = 65536 };

static uint8_t memory[N];
static uint8_t holding[LQ_HOLDING_SIZE];
static uint8_t outgoing[LQ_OUTGOING_SIZE];
static uint8_t record[LQ_RECORD_SIZE];

#define AREAS memory, sizeof memory, holding, sizeof holding, outgoing, sizeof outgoing, record, sizeof record

/* Words are low byte first, whatever this machine does. */
static unsigned get_word(uint32_t at)
{
    return memory[at % N] + 256u * memory[(at + 1) % N];
}

static void put_word(uint32_t at, unsigned word)
{
    memory[at % N] = (uint8_t)(word & 255);
    memory[(at + 1) % N] = (uint8_t)(word >> 8);
}

/* a real address: a word, then the low byte of the next word */
static void put_real(uint32_t at, uint32_t address)
{
    put_word(at, address & 0xFFFF);
    put_word(at + 2, address >> 16);
}

static void put_bytes(uint32_t at, const uint8_t *bytes, size_t n)
{
    for (size_t i = 0; i < n; i++) memory[(at + i) % N] = bytes[i];
}

/* ---- the net: addresses of six bytes, as after reset; headers, and where their parts stand, go by it ---- */

enum { ADDRESS_LENGTH = LQ_ADDRESS_LENGTH_AFTER_RESET };

static void print_address(const uint8_t *address)
{
    for (int i = 0; i < ADDRESS_LENGTH; i++) printf(i == 0 ? "%02X" : "-%02X", address[i]);
}

static void print_frame(const uint8_t *frame, size_t length)
{
    printf("%lu bytes from ", (unsigned long)length);
    print_address(frame + ADDRESS_LENGTH);
    printf(" to ");
    print_address(frame);
}

/* ---- the emulator: calls, and what it does with their answers ---- */

static const char *why_refused(unsigned number)
{
    switch (number) {
    case LQ_REFUSED_MEMORY: return "memory has a wrong length";
    case LQ_REFUSED_RECORD: return "the record has a wrong length";
    case LQ_REFUSED_HOLDING: return "the holding area has a wrong length";
    case LQ_REFUSED_OUTGOING: return "the outgoing area has a wrong length";
    case LQ_REFUSED_OVERLONG: return "the frame is too long";
    case LQ_REFUSED_FOREIGN: return "the record is not a chip's";
    default: return "there is no such refusal";
    }
}

static const char *why_dropped(unsigned reason)
{
    switch (reason) {
    case LQ_DROPPED_TOO_FEW: return "it has no whole header";
    case LQ_DROPPED_NO_MATCH: return "it is not for this station";
    case LQ_DROPPED_IDLE: return "the receive unit is Idle";
    case LQ_DROPPED_SUSPENDED: return "the receive unit is Suspended";
    case LQ_DROPPED_BAD: return "it is bad and not saved";
    default: return "there is no such reason";
    }
}

/* A refusal is a mistake of the emulator; a dropped frame is none, but worth a line to whoever writes the driver. The
   length says that a frame was sent: it is taken from the outgoing area at once. The edge is what an edge-triggered
   interrupt controller wants; the level is in the record. */
static void take(const char *call, uint64_t answer)
{
    if (lq_number(answer) != LQ_ACCEPTED) {
        printf("%s was refused by %u: %s\n", call, lq_number(answer), why_refused(lq_number(answer)));
        exit(1);
    }
    if (lq_reason(answer) != LQ_NOT_DROPPED) printf("chip:   drops it: %s\n", why_dropped(lq_reason(answer)));
    if (lq_length(answer) > 0) {
        printf("line:   sent, ");
        print_frame(outgoing, lq_length(answer));
        printf("\n");
    }
    if (lq_edge(answer))
        printf("chip:   interrupt edge at %s, the line is %s\n", call, lq_interrupt(record) ? "high" : "low");
}

static void attention(void)
{
    take("an attention", lq_attention(AREAS));
}

static void arrival(const uint8_t *frame, size_t length)
{
    printf("line:   arrives, ");
    print_frame(frame, length);
    printf("\n");
    take("an arrival", lq_arrival(AREAS, frame, length, LQ_VERDICT_GOOD));
}

/* A slice of emulated time: so many turns and no more. A list of commands may loop for ever, so "until the chip is
   idle" is no bound. A run stops at a frame that was sent and at an edge, so that neither waits for the slice's end;
   one that stopped at neither and has turns left found no work, and there will be none before the next call. The line
   reports 0: every frame goes out well. */
static void slice(uint16_t turns)
{
    while (turns > 0) {
        uint64_t answer = lq_run(AREAS, 0, turns);
        take("a turn", answer);
        if (lq_turns(answer) < turns && lq_length(answer) == 0 && !lq_edge(answer)) return;
        turns -= (uint16_t)lq_turns(answer);
    }
}

/* ---- the driver: where its structures stand. The SCB base is 0, so offsets are addresses ---- */

enum {
    ISCP = 0x0100,
    SCB = 0x0200,
    CONFIGURE = 0x0300,
    IA_SETUP = 0x0340,
    FIRST_TRANSMIT = 0x0380,
    SECOND_TRANSMIT = 0x03A0,
    TRANSMIT_BUFFERS = 0x0400, /* descriptors, 8 bytes each */
    FRAMES = 0x0500,           /* frame descriptors, 32 bytes from one to the next */
    FRAME_COUNT = 4,
    BUFFERS = 0x0600,          /* receive buffer descriptors, 16 bytes from one to the next */
    BUFFER_COUNT = 8,
    BUFFER_SIZE = 64,
    BUFFER_BYTES = 0x1000,     /* what they point to */
    SENT_BYTES = 0x2000
};

static const uint8_t OWN[6] = {0x02, 0x07, 0x01, 0x00, 0x00, 0x2A};
static const uint8_t PEER[6] = {0x02, 0x07, 0x01, 0x00, 0x00, 0x2B};
static const uint8_t THIRD[6] = {0x02, 0x07, 0x01, 0x00, 0x00, 0x2C};
static const uint8_t EVERYONE[6] = {0xFF, 0xFF, 0xFF, 0xFF, 0xFF, 0xFF};

/* The command word, then channel attention. The chip clears the word when it has obeyed it. */
static void give(unsigned command)
{
    put_word(SCB + LQ_SCB_COMMAND, command);
    attention();
}

static void print_events(unsigned status)
{
    printf("%s%s%s%s", status & LQ_CX ? " CX" : "", status & LQ_FR ? " FR" : "", status & LQ_CNA ? " CNA" : "",
           status & LQ_RNR ? " RNR" : "");
}

/* The interrupt's handler: which events there are, and their acknowledgement. It is entered while the line is high. */
static void handle_interrupt(void)
{
    if (!lq_interrupt(record)) return;
    unsigned status = get_word(SCB + LQ_SCB_STATUS);
    printf("driver: interrupt, status %04Xh:", status);
    print_events(status);
    give(status & LQ_EVENTS);
    printf("; acknowledged, the line is %s\n", lq_interrupt(record) ? "high" : "low");
}

/* ---- initialisation ---- */

static void initialise(void)
{
    put_real(LQ_SCP_ISCP, ISCP);
    memory[ISCP + LQ_ISCP_BUSY] = 1;
    put_word(ISCP + LQ_ISCP_SCB, SCB);
    put_real(ISCP + LQ_ISCP_BASE, 0);
    attention();
    printf("driver: initialised, BUSY is %u\n", memory[ISCP + LQ_ISCP_BUSY]);
    handle_interrupt();
}

/* ---- commands ---- */

static void put_block(uint32_t block, unsigned command, unsigned link)
{
    put_word(block + LQ_CB_STATUS, 0);
    put_word(block + LQ_CB_COMMAND, command);
    put_word(block + LQ_CB_LINK, link);
}

static void start_commands(uint32_t block)
{
    put_word(SCB + LQ_SCB_CBL, block);
    give(LQ_CUC(LQ_START));
}

/* Configure, then IA-Setup, as one list: the last block has EL, and I asks for CX when it is done. */
static void configure(void)
{
    static const uint8_t bytes[12] = {
        [LQ_CONFIGURE_COUNT] = 12, [LQ_CONFIGURE_ADDRESS] = ADDRESS_LENGTH, [LQ_CONFIGURE_MINIMUM] = 64};
    put_block(CONFIGURE, LQ_CMD_CONFIGURE, IA_SETUP);
    put_bytes(CONFIGURE + LQ_CB_DATA, bytes, sizeof bytes);
    put_block(IA_SETUP, LQ_CMD_IA_SETUP | LQ_EL | LQ_I, 0);
    put_bytes(IA_SETUP + LQ_CB_DATA, OWN, sizeof OWN);
    start_commands(CONFIGURE);
    slice(4); /* a begin turn and an end turn each */
    printf("driver: Configure %04Xh, IA-Setup %04Xh\n", get_word(CONFIGURE), get_word(IA_SETUP));
    handle_interrupt();
}

static void put_transmit(uint32_t block, unsigned flags, unsigned link, unsigned buffer)
{
    put_block(block, LQ_CMD_TRANSMIT | flags, link);
    put_word(block + LQ_TRANSMIT_BUFFER, buffer);
    put_bytes(block + LQ_TRANSMIT_DESTINATION, PEER, sizeof PEER);
    put_word(block + LQ_TRANSMIT_TYPE(ADDRESS_LENGTH), 0x0008); /* 08 00 on the line */
}

static void put_transmit_buffer(uint32_t descriptor, unsigned count, unsigned next, uint32_t bytes)
{
    put_word(descriptor + LQ_TBD_COUNT, count);
    put_word(descriptor + LQ_TBD_NEXT, next);
    put_real(descriptor + LQ_TBD_BUFFER, bytes);
}

/* Two frames: 46 bytes of data in one buffer, and 1,000 in two. */
static void send_two(void)
{
    for (unsigned i = 0; i < 1000; i++) memory[SENT_BYTES + i] = (uint8_t)i;
    put_transmit_buffer(TRANSMIT_BUFFERS, LQ_EOF | 46, LQ_NONE, SENT_BYTES);
    put_transmit_buffer(TRANSMIT_BUFFERS + 8, 600, TRANSMIT_BUFFERS + 16, SENT_BYTES);
    put_transmit_buffer(TRANSMIT_BUFFERS + 16, LQ_EOF | 400, LQ_NONE, SENT_BYTES + 600);
    put_transmit(FIRST_TRANSMIT, 0, SECOND_TRANSMIT, TRANSMIT_BUFFERS);
    put_transmit(SECOND_TRANSMIT, LQ_EL | LQ_I, 0, TRANSMIT_BUFFERS + 8);
    start_commands(FIRST_TRANSMIT);
    slice(10);
    printf("driver: Transmits %04Xh and %04Xh\n", get_word(FIRST_TRANSMIT), get_word(SECOND_TRANSMIT));
    handle_interrupt();
}

/* ---- frames ---- */

/* Frame descriptors in a list, the last with EL; buffers too. Only the first frame descriptor says where the first
   free buffer is: the chip passes that on from one frame to the next. */
static void start_receiving(void)
{
    for (uint32_t i = 0; i < FRAME_COUNT; i++) {
        uint32_t descriptor = FRAMES + 32 * i;
        put_word(descriptor + LQ_FD_STATUS, 0);
        put_word(descriptor + LQ_FD_COMMAND, i + 1 == FRAME_COUNT ? LQ_EL : 0);
        put_word(descriptor + LQ_FD_LINK, descriptor + 32);
        put_word(descriptor + LQ_FD_BUFFER, i == 0 ? BUFFERS : LQ_NONE);
    }
    for (uint32_t i = 0; i < BUFFER_COUNT; i++) {
        uint32_t descriptor = BUFFERS + 16 * i;
        put_word(descriptor + LQ_RBD_COUNT, 0);
        put_word(descriptor + LQ_RBD_NEXT, descriptor + 16);
        put_real(descriptor + LQ_RBD_BUFFER, BUFFER_BYTES + BUFFER_SIZE * i);
        put_word(descriptor + LQ_RBD_SIZE, BUFFER_SIZE | (i + 1 == BUFFER_COUNT ? LQ_EL : 0));
    }
    put_word(SCB + LQ_SCB_RFA, FRAMES);
    give(LQ_RUC(LQ_START));
    printf("driver: receiving, RUS is %u\n", LQ_RUS(get_word(SCB + LQ_SCB_STATUS)));
}

/* What a complete frame descriptor has: the header itself, the data in its buffers up to the one with EOF. */
static void print_received(uint32_t descriptor)
{
    uint8_t header[LQ_FRAME_HEADER(ADDRESS_LENGTH)];
    size_t data = 0;
    unsigned used = 0;
    uint32_t buffer = get_word(descriptor + LQ_FD_BUFFER);
    for (size_t i = 0; i < sizeof header; i++) header[i] = memory[descriptor + LQ_FD_DESTINATION + i];
    while (buffer != LQ_NONE) {
        unsigned word = get_word(buffer + LQ_RBD_COUNT);
        data += word & LQ_COUNT;
        used++;
        if (word & LQ_EOF) break;
        buffer = get_word(buffer + LQ_RBD_NEXT);
    }
    printf("driver: received %04Xh, ", get_word(descriptor + LQ_FD_STATUS));
    print_frame(header, sizeof header + data);
    printf(", in %u buffer%s\n", used, used == 1 ? "" : "s");
}

static void come(const uint8_t *destination, size_t length)
{
    uint8_t frame[LQ_FRAME_MAX];
    memcpy(frame, destination, ADDRESS_LENGTH);
    memcpy(frame + ADDRESS_LENGTH, PEER, ADDRESS_LENGTH);
    for (size_t i = 2 * ADDRESS_LENGTH; i < length; i++) frame[i] = (uint8_t)i;
    arrival(frame, length);
}

static void receive(uint32_t descriptor, const uint8_t *destination, size_t length)
{
    come(destination, length);
    slice(8);
    print_received(descriptor);
    handle_interrupt();
}

int main(void)
{
    take("reset", lq_reset(record, sizeof record));
    printf("chip:   reset, the line is %s\n", lq_interrupt(record) ? "high" : "low");
    initialise();
    configure();
    send_two();
    come(OWN, 60); /* too early */
    start_receiving();
    receive(FRAMES, OWN, 60);
    come(THIRD, 60); /* passes by */
    receive(FRAMES + 32, OWN, LQ_FRAME_HEADER(ADDRESS_LENGTH) + 150); /* three buffers of 64 */
    receive(FRAMES + 64, EVERYONE, 64);
    printf("driver: status %04Xh, lost for want of resources %u\n", get_word(SCB + LQ_SCB_STATUS),
           get_word(SCB + LQ_SCB_RSCERRS));
    return 0;
}
