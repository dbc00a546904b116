/*
 * Headers, over all seven address lengths and both locations: what a Transmit puts into the outgoing area, what a
 * received frame leaves in its descriptor and in its buffers, which frames are too short for a header, and that a held
 * frame is stored by the length and location it arrived under. Every byte is said here once more, by hand, and so is
 * that those beside it stay.
 */
#include "setup.h"

_Static_assert(LQ_FRAME_HEADER(6) == 14 && LQ_TRANSMIT_TYPE(6) == 14, "document 01's places");
_Static_assert(LQ_FD_SOURCE(6) == 14 && LQ_FD_TYPE(6) == 20 && LQ_FD_SIZE == 22, "document 01's places");
_Static_assert(LQ_FRAME_HEADER(2) == 6 && LQ_TRANSMIT_TYPE(2) == 10 && LQ_FD_SOURCE(2) == 10 && LQ_FD_TYPE(2) == 12,
               "packed");
_Static_assert(LQ_FRAME_HEADER(0) == 2 && LQ_TRANSMIT_TYPE(0) == 8 && LQ_FD_SOURCE(0) == 8 && LQ_FD_TYPE(0) == 8,
               "nothing but a type");

enum { BLOCK = 0x200, NEXT_BLOCK = 0x240, EARLIER_FD = 0x2C0, FD = 0x300, NEXT_FD = 0x340, TBD = 0x400 };
enum { RBD = 0x700, EARLIER_RBD = 0xB20, EARLIER_BUFFER = 0xC00, BYTES = 0x1000, MARK = 0xEE };

/* "The header has twice the length plus two bytes" */
static const unsigned HEADER[ADDRESS_LENGTHS] = {2, 4, 6, 8, 10, 12, 14};

/* how many of its bytes are not in buffers */
static unsigned outside(struct addressing way)
{
    return way.in_buffers ? 0 : HEADER[way.length];
}

/* ---- sending ---- */

static const uint8_t OWN[6] = {0x02, 0x61, 0x72, 0x83, 0x94, 0xA5};

/* what stands in a Transmit's block from +8 on, and in its buffers: a byte's value shows where it was taken from */
enum { FROM_BLOCK = 0xB0, BLOCK_BYTES = 16 };

static uint8_t from_buffer(unsigned i)
{
    return (uint8_t)(i * 7 + 3);
}

/* The frame that so many data bytes make: destination, own address and type, packed, in front of them, or nothing. */
static unsigned sent_frame(struct addressing way, unsigned data, uint8_t *frame)
{
    unsigned n = 0;
    if (!way.in_buffers) {
        for (unsigned i = 0; i < way.length; i++) frame[n++] = (uint8_t)(FROM_BLOCK + i);
        for (unsigned i = 0; i < way.length; i++) frame[n++] = OWN[i];
        for (unsigned i = 0; i < 2; i++) frame[n++] = (uint8_t)(FROM_BLOCK + way.length + i);
    }
    for (unsigned i = 0; i < data; i++) frame[n++] = from_buffer(i);
    return n;
}

/* The outgoing area has so many bytes of the frame, and behind them what it had before. */
static void check_outgoing(const struct chip *chip, const uint8_t *frame, unsigned n)
{
    const uint8_t *outgoing = chip->lent.outgoing.bytes;
    check_bytes("what is sent", outgoing, frame, n);
    for (unsigned i = n; i < LQ_OUTGOING_SIZE; i++) CHECK(outgoing[i] == MARK, "byte %u behind them was written", i);
}

/* A chip with an own address and the length and location, its outgoing area marked. */
static struct chip sending_chip(struct addressing way)
{
    struct chip chip = ready_chip(LQ_MEMORY_MIN);
    put_bytes(&chip, BLOCK + LQ_CB_DATA, OWN, 6);
    run_command(&chip, LQ_CMD_IA_SETUP);
    configure(&chip, way, 0);
    for (unsigned i = 0; i < LQ_OUTGOING_SIZE; i += 2) put_outgoing(&chip, i, MARK * 0x0101);
    for (uint32_t i = 0; i < LQ_FRAME_MAX + 1; i++) put_byte(&chip, BYTES + i, from_buffer(i));
    return chip;
}

/* how a Transmit has its data: so many buffers, one behind the other, each of so many bytes while there are any and the
   last of what is left; of none, FFFFh */
struct chain {
    unsigned data, buffers, each;
};

static void put_sending(struct chip *chip, unsigned flags, unsigned link, struct chain c)
{
    put_block(chip, BLOCK, LQ_CMD_TRANSMIT | flags, link);
    put_word(chip, BLOCK + LQ_TRANSMIT_BUFFER, c.buffers == 0 ? LQ_NONE : TBD);
    for (uint32_t i = 0; i < BLOCK_BYTES; i++) put_byte(chip, BLOCK + LQ_TRANSMIT_DESTINATION + i, FROM_BLOCK + i);
    for (unsigned b = 0, from = 0; b < c.buffers; b++) {
        bool last = b + 1 == c.buffers;
        unsigned count = last || c.data - from < c.each ? c.data - from : c.each;
        put_tbd(chip, TBD + 8 * b, count | (last ? LQ_EOF : 0u), last ? LQ_NONE : TBD + 8 * (b + 1), BYTES + from);
        from += count;
    }
}

/* "The header goes to the outgoing area at begin, data behind it": turn by turn, so many bytes in so many buffers */
static void check_sent(struct addressing way, unsigned data, unsigned buffers)
{
    uint8_t frame[LQ_FRAME_MAX];
    struct chip chip = sending_chip(way);
    unsigned each = buffers == 0 ? 0 : (data + buffers - 1) / buffers;
    begin_case("a frame sent");
    unsigned length = sent_frame(way, data, frame);
    put_sending(&chip, LQ_EL, 0, (struct chain){data, buffers, each});
    start_cu(&chip, BLOCK);
    check_answer(turn(&chip), LQ_ACCEPTED, 0, false);
    check_outgoing(&chip, frame, outside(way));
    for (unsigned b = 1; b <= buffers; b++) {
        check_answer(turn(&chip), LQ_ACCEPTED, 0, false);
        check_outgoing(&chip, frame, outside(way) + (b == buffers || each * b > data ? data : each * b));
    }
    check_answer(turn(&chip), LQ_ACCEPTED, length, true);
    check_word(&chip, BLOCK, LQ_C | LQ_OK);
    check_outgoing(&chip, frame, length);
    chip_free(&chip);
}

static void sent(struct addressing way)
{
    static const unsigned lengths[] = {1, 2, 46, 1500};
    check_sent(way, 0, 0);
    for (size_t i = 0; i < COUNT_OF(lengths); i++) {
        check_sent(way, lengths[i], 1);
        check_sent(way, lengths[i], 3);
        check_sent(way, lengths[i], 64);
    }
}

/* As many bytes as there is room for behind the header are sent; one more, and the buffer that has it is not copied. */
static void check_limit(struct addressing way, unsigned buffers)
{
    uint8_t frame[LQ_FRAME_MAX + 1];
    unsigned most = LQ_FRAME_MAX - outside(way);
    unsigned each = buffers == 1 ? most + 1 : most - 1; /* of two, the second has one byte, or two */
    for (unsigned data = most; data <= most + 1; data++) {
        struct chip chip = sending_chip(way);
        bool fits = data == most;
        begin_case("the longest frame, and one more byte");
        sent_frame(way, data, frame);
        put_sending(&chip, LQ_EL, 0, (struct chain){data, buffers, each});
        start_cu(&chip, BLOCK);
        turns(&chip, 1 + buffers);
        check_outgoing(&chip, frame, fits ? LQ_FRAME_MAX : buffers == 1 ? outside(way) : outside(way) + each);
        check_answer(turn(&chip), LQ_ACCEPTED, fits ? LQ_FRAME_MAX : 0, true);
        check_word(&chip, BLOCK, fits ? LQ_C | LQ_OK : LQ_C | LQ_UNSENT);
        chip_free(&chip);
    }
}

/* ---- a frame of no bytes: location 1, and no buffers, or buffers that hold none ---- */

/* Its status is as the line reports, its length 0, and no byte of the outgoing area is touched. */
static void check_no_bytes(unsigned length, unsigned buffers, unsigned report)
{
    struct chip chip = sending_chip((struct addressing){(uint8_t)length, true});
    bool ok = (report & LQ_REPORT_FAILURES) == 0;
    begin_case("a frame of no bytes");
    put_sending(&chip, LQ_EL, 0, (struct chain){.buffers = buffers});
    start_cu(&chip, BLOCK);
    turns(&chip, 1 + buffers);
    check_word(&chip, BLOCK, LQ_B);
    check_answer(call(&chip, TURN_CALL((uint16_t)report)), LQ_ACCEPTED, 0, true);
    check_word(&chip, BLOCK, LQ_C | (report & LQ_REPORT_BITS) | (ok ? LQ_OK : 0u));
    check_outgoing(&chip, NULL, 0);
    chip_free(&chip);
}

/* A run goes on behind it to the next command's end, here a NOP with I, and stops at a frame that has a header. */
static void check_run(struct addressing way, unsigned buffers)
{
    struct chip chip = sending_chip(way);
    begin_case("a run over a frame of no data");
    put_sending(&chip, 0, NEXT_BLOCK, (struct chain){.buffers = buffers});
    put_block(&chip, NEXT_BLOCK, LQ_CMD_NOP | LQ_EL | LQ_I, 0);
    start_cu(&chip, BLOCK);
    struct answer answer = call(&chip, RUN_CALL(0, 100));
    check_answer(answer, LQ_ACCEPTED, outside(way), way.in_buffers);
    unsigned expected = 2 + buffers + (way.in_buffers ? 2 : 0);
    CHECK(answer.turns == expected, "the run took %u turns, expected %u", answer.turns, expected);
    check_word(&chip, BLOCK, LQ_C | LQ_OK);
    check_word(&chip, NEXT_BLOCK, way.in_buffers ? LQ_C | LQ_OK : 0);
    chip_free(&chip);
}

/* An empty buffer without EOF and with no other behind it is none that ends the frame. */
static void check_no_end(unsigned length)
{
    struct chip chip = sending_chip((struct addressing){(uint8_t)length, true});
    begin_case("a frame of no bytes without an end");
    put_sending(&chip, LQ_EL, 0, (struct chain){.buffers = 1});
    put_tbd(&chip, TBD, 0, LQ_NONE, BYTES);
    start_cu(&chip, BLOCK);
    turns(&chip, 2);
    check_answer(turn(&chip), LQ_ACCEPTED, 0, true);
    check_word(&chip, BLOCK, LQ_C | LQ_UNSENT);
    chip_free(&chip);
}

static void no_bytes(unsigned length)
{
    static const unsigned buffers[] = {0, 1, 5, 64}, reports[] = {0, 0x0003, 0x0020, 0x0100, 0x0200, 0x0400, 0xFFFF};
    for (size_t b = 0; b < COUNT_OF(buffers); b++) {
        for (size_t r = 0; r < COUNT_OF(reports); r++) check_no_bytes(length, buffers[b], reports[r]);
        check_run((struct addressing){(uint8_t)length, true}, buffers[b]);
        check_run((struct addressing){(uint8_t)length, false}, buffers[b]);
    }
    check_no_end(length);
}

/* ---- receiving ---- */

/* A frame of so many bytes to everyone; with addresses of no bytes it is for nobody, and promiscuous() receives it. */
static void fill_frame(struct addressing way, unsigned length, uint8_t *frame)
{
    for (unsigned i = 0; i < length; i++) frame[i] = i < way.length ? 0xFF : (uint8_t)(i * 7 + 1);
}

static unsigned promiscuous(struct addressing way)
{
    return way.length == 0 ? LQ_PROMISCUOUS : 0;
}

/* A frame descriptor, marked where a header may go and behind it. */
static void put_marked_fd(struct chip *chip, uint32_t place, unsigned link, unsigned buffer)
{
    put_fd(chip, place, 0, link, buffer);
    for (uint32_t i = LQ_FD_DESTINATION; i < LQ_FD_SIZE + 8; i++) put_byte(chip, place + i, MARK);
}

/* The frame's first so many bytes stand in its descriptor, and behind them what it had before. */
static void check_fd(const struct chip *chip, const uint8_t *frame, unsigned n)
{
    for (unsigned i = 0; i < LQ_FD_SIZE + 8 - LQ_FD_DESTINATION; i++) {
        unsigned found = byte_of(chip, FD + LQ_FD_DESTINATION + i), expected = i < n ? frame[i] : MARK;
        CHECK(found == expected, "byte +%u of the descriptor is %02Xh, expected %02Xh", 8 + i, found, expected);
    }
}

/* So many buffers of a size, side by side, the last one linked to what is no descriptor yet. */
static void put_buffers(struct chip *chip, unsigned n, unsigned size)
{
    for (unsigned b = 0; b < n; b++) put_rbd(chip, RBD + 16 * b, RBD + 16 * (b + 1), BYTES + size * b, size);
}

/* The data stand in the buffers, one behind the other, and each descriptor has its word. */
static void check_buffers(const struct chip *chip, const uint8_t *data, unsigned length, unsigned n, unsigned size)
{
    unsigned used = length == 0 ? 0 : (length + size - 1) / size;
    for (unsigned b = 0; b < n; b++) {
        unsigned count = b + 1 < used ? size : length - size * b;
        check_word(chip, RBD + 16 * b, b >= used ? 0 : LQ_F | count | (b + 1 == used ? LQ_EOF : 0u));
    }
    for (unsigned i = 0; i < length; i++) {
        unsigned found = byte_of(chip, BYTES + i);
        CHECK(found == data[i], "byte %u of the data is %02Xh, expected %02Xh", i, found, data[i]);
    }
    CHECK(byte_of(chip, BYTES + length) == 0, "a byte behind the data was written");
}

/* A frame of so many bytes into buffers of a size: its turns, descriptor and buffers, and what the next frame gets. */
static void check_stored(struct addressing way, unsigned length, unsigned size)
{
    uint8_t frame[LQ_FRAME_MAX];
    struct chip chip = ready_chip(LQ_MEMORY_MIN);
    unsigned head = outside(way), data = length - head, used = (data + size - 1) / size;
    begin_case("a frame received");
    configure(&chip, way, promiscuous(way));
    put_marked_fd(&chip, FD, NEXT_FD, RBD);
    put_buffers(&chip, used + 1, size);
    start_ru(&chip, FD);
    fill_frame(way, length, frame);
    check_reason(call(&chip, ARRIVAL_CALL(frame, length, LQ_VERDICT_GOOD)), LQ_NOT_DROPPED);
    for (unsigned i = 0; i < 1 + used; i++) check_answer(turn(&chip), LQ_ACCEPTED, 0, false);
    check_word(&chip, FD, LQ_B);
    check_fd(&chip, frame, 0);
    check_answer(turn(&chip), LQ_ACCEPTED, 0, true);
    check_word(&chip, FD, LQ_C | LQ_OK);
    check_word(&chip, FD + LQ_FD_BUFFER, data == 0 ? LQ_NONE : RBD);
    check_word(&chip, NEXT_FD + LQ_FD_BUFFER, RBD + 16 * used);
    check_fd(&chip, frame, head);
    check_buffers(&chip, frame + head, data, used + 1, size);
    chip_free(&chip);
}

static void received(struct addressing way)
{
    unsigned header = HEADER[way.length];
    const unsigned lengths[] = {header, header + 1, header + 2, 60, 1500, LQ_FRAME_MAX};
    for (size_t i = 0; i < COUNT_OF(lengths); i++) {
        check_stored(way, lengths[i], LQ_FRAME_MAX);
        check_stored(way, lengths[i], (lengths[i] + 2) / 3);
        check_stored(way, lengths[i], (lengths[i] + 63) / 64);
    }
}

/* Less than a header is too few, with location 1 too, promiscuous or not, in Idle and in Ready; a header is enough. */
static void check_too_few(struct addressing way, unsigned filter)
{
    uint8_t frame[LQ_FRAME_MAX];
    struct chip chip = ready_chip(LQ_MEMORY_MIN);
    unsigned header = HEADER[way.length];
    begin_case("less than a header");
    configure(&chip, way, filter);
    put_marked_fd(&chip, FD, NEXT_FD, RBD);
    put_buffers(&chip, 1, LQ_FRAME_MAX);
    fill_frame(way, header, frame);
    for (unsigned length = 0; length < header; length++)
        check_reason(call(&chip, ARRIVAL_CALL(frame, length, LQ_VERDICT_GOOD)), LQ_DROPPED_TOO_FEW);
    check_reason(call(&chip, ARRIVAL_CALL(frame, header, LQ_VERDICT_GOOD)), LQ_DROPPED_IDLE);
    start_ru(&chip, FD);
    for (unsigned length = 0; length < header; length++)
        check_reason(call(&chip, ARRIVAL_CALL(frame, length, LQ_VERDICT_GOOD)), LQ_DROPPED_TOO_FEW);
    check_answer(turn(&chip), LQ_ACCEPTED, 0, false);
    check_word(&chip, FD, 0);
    check_reason(call(&chip, ARRIVAL_CALL(frame, header, LQ_VERDICT_GOOD)), LQ_NOT_DROPPED);
    turn(&chip);
    check_word(&chip, FD, LQ_B);
    chip_free(&chip);
}

/* "Short (bytes plus 4 below the minimum)", whatever the header: of 59 and 60 bytes with a minimum of 64, saved. */
static void check_short(struct addressing way)
{
    for (unsigned length = 59; length <= 60; length++) {
        uint8_t frame[60];
        struct chip chip = ready_chip(LQ_MEMORY_MIN);
        begin_case("short by its bytes");
        put_addressing(&chip, way, LQ_SAVE_BAD, promiscuous(way), 64);
        run_command(&chip, LQ_CMD_CONFIGURE);
        put_marked_fd(&chip, FD, NEXT_FD, RBD);
        put_buffers(&chip, 1, 60);
        start_ru(&chip, FD);
        fill_frame(way, length, frame);
        call(&chip, ARRIVAL_CALL(frame, length, LQ_VERDICT_GOOD));
        turns(&chip, 3);
        check_word(&chip, FD, length == 59 ? LQ_C | LQ_FD_SHORT : LQ_C | LQ_OK);
        check_fd(&chip, frame, outside(way));
        chip_free(&chip);
    }
}

/* No buffer at all: a frame that is a header alone needs none with location 0; with location 1 it lacks one. */
static void check_lacks(struct addressing way, unsigned more, unsigned save)
{
    uint8_t frame[LQ_FRAME_MAX];
    struct chip chip = ready_chip(LQ_MEMORY_MIN);
    unsigned length = HEADER[way.length] + more;
    bool lacks = way.in_buffers || more > 0, stored = !lacks || save;
    begin_case("a frame without buffers");
    put_addressing(&chip, way, save, promiscuous(way), 0);
    run_command(&chip, LQ_CMD_CONFIGURE);
    put_marked_fd(&chip, FD, NEXT_FD, LQ_NONE);
    start_ru(&chip, FD);
    fill_frame(way, length, frame);
    call(&chip, ARRIVAL_CALL(frame, length, LQ_VERDICT_GOOD));
    check_answer(turn(&chip), LQ_ACCEPTED, 0, false);
    check_answer(turn(&chip), LQ_ACCEPTED, 0, true);
    check_word(&chip, FD, !lacks ? LQ_C | LQ_OK : save ? LQ_C | LQ_FD_OUT_OF_BUFFERS : 0);
    check_word(&chip, SCB, (stored ? LQ_FR : 0u) | (lacks ? LQ_RNR | LQ_RUS_NO_RESOURCES << 4 : LQ_RUS_READY << 4));
    check_word(&chip, SCB + LQ_SCB_RSCERRS, lacks);
    check_fd(&chip, frame, stored ? outside(way) : 0);
    chip_free(&chip);
}

static void around_the_header(struct addressing way)
{
    check_too_few(way, LQ_PROMISCUOUS);
    if (way.length > 0) check_too_few(way, 0);
    check_short(way);
    for (unsigned more = 0; more < 2; more++) {
        check_lacks(way, more, 0);
        check_lacks(way, more, LQ_SAVE_BAD);
    }
}

/* ---- a held frame across a Configure ---- */

/* when the Configure ends: before the frame's begin turn, after it, after its first buffer turn */
enum moment { WHILE_HELD, AFTER_BEGIN, AFTER_BUFFER, MOMENTS };

struct across {
    struct addressing before, after;
    enum moment moment;
    unsigned more; /* bytes behind the header */
    bool lacking;  /* there is one buffer of one byte, and no other */
};

/* Frames to everyone are held, and bad ones; an earlier frame is at its end, so that the command unit can be first. */
static struct chip chip_before(const struct across *across)
{
    uint8_t frame[60];
    struct chip chip = ready_chip(LQ_MEMORY_MIN);
    put_addressing(&chip, across->before, LQ_SAVE_BAD, promiscuous(across->before), 0);
    run_command(&chip, LQ_CMD_CONFIGURE);
    put_fd(&chip, EARLIER_FD, 0, FD, EARLIER_RBD);
    put_rbd(&chip, EARLIER_RBD, RBD, EARLIER_BUFFER, sizeof frame);
    put_marked_fd(&chip, FD, NEXT_FD, 0);
    put_rbd(&chip, RBD, RBD + 16, BYTES, across->lacking ? LQ_EL | 1u : 1);
    put_rbd(&chip, RBD + 16, RBD + 32, BYTES + 1, LQ_FRAME_MAX);
    start_ru(&chip, EARLIER_FD);
    fill_frame(across->before, sizeof frame, frame);
    call(&chip, ARRIVAL_CALL(frame, sizeof frame, LQ_VERDICT_GOOD));
    turns(&chip, 2);
    return chip;
}

/* The frame comes and a Configure is done, in the order of the moment. What it sets is not for this frame: length and
   location, that bad frames are dropped, and a minimum that makes it short. */
static void come_and_configure(struct chip *chip, const struct across *across, const uint8_t *frame, unsigned length)
{
    struct call arrival = ARRIVAL_CALL(frame, length, LQ_VERDICT_GOOD);
    put_addressing(chip, across->after, 0, LQ_PROMISCUOUS, 255);
    put_block(chip, BLOCK, LQ_CMD_CONFIGURE | LQ_EL, 0);
    if (across->moment == WHILE_HELD) {
        start_cu(chip, BLOCK);
        turns(chip, 2); /* the Configure's begin, the earlier frame's end */
        check_reason(call(chip, arrival), LQ_NOT_DROPPED);
        turn(chip);
    } else {
        turn(chip);
        check_reason(call(chip, arrival), LQ_NOT_DROPPED);
        if (across->moment == AFTER_BUFFER) turn(chip);
        start_cu(chip, BLOCK);
        turns(chip, 3); /* the Configure's begin, the frame's turn, the Configure's end */
    }
    check_word(chip, EARLIER_FD, LQ_C | LQ_OK);
    check_word(chip, BLOCK, LQ_C | LQ_OK);
    check_word(chip, FD, across->moment == WHILE_HELD ? 0 : LQ_B);
}

/* The next frame is judged by what the Configure said: one byte less than a header by it, and one that is short. */
static void check_after(struct chip *chip, struct addressing after)
{
    uint8_t frame[LQ_FRAME_MAX];
    unsigned header = HEADER[after.length];
    fill_frame(after, header, frame);
    check_reason(call(chip, ARRIVAL_CALL(frame, header - 1, LQ_VERDICT_GOOD)), LQ_DROPPED_TOO_FEW);
    check_reason(call(chip, ARRIVAL_CALL(frame, header, LQ_VERDICT_GOOD)), LQ_DROPPED_BAD);
}

/* "A held frame is stored by the length and location it arrived under, whatever Configure has said since." */
static void check_across(const struct across *across)
{
    uint8_t frame[LQ_FRAME_MAX];
    unsigned length = HEADER[across->before.length] + across->more;
    unsigned head = outside(across->before), data = length - head;
    bool lacks = across->lacking && data > 1;
    if (across->moment == AFTER_BUFFER && data == 0) return; /* it has no buffer turn */
    begin_case("a held frame across a Configure");
    struct chip chip = chip_before(across);
    fill_frame(across->before, length, frame);
    come_and_configure(&chip, across, frame, length);
    turns_until_complete(&chip, FD);
    check_word(&chip, FD, lacks ? LQ_C | LQ_FD_OUT_OF_BUFFERS : LQ_C | LQ_OK);
    check_word(&chip, FD + LQ_FD_BUFFER, data == 0 ? LQ_NONE : RBD);
    check_fd(&chip, frame, head);
    check_word(&chip, RBD, data == 0 ? 0 : LQ_F | 1u | (data == 1 ? LQ_EOF : 0u));
    check_word(&chip, RBD + 16, data > 1 && !lacks ? LQ_F | LQ_EOF | (data - 1) : 0);
    unsigned stored = lacks ? 1 : data;
    for (unsigned i = 0; i <= stored; i++)
        CHECK(byte_of(&chip, BYTES + i) == (i < stored ? frame[head + i] : 0), "byte %u of the data is another", i);
    check_after(&chip, across->after);
    chip_free(&chip);
}

static void held_across(struct addressing before, struct addressing after)
{
    static const unsigned more[] = {0, 1, 2, 46};
    for (unsigned moment = 0; moment < MOMENTS; moment++)
        for (size_t i = 0; i < COUNT_OF(more); i++) {
            check_across(&(struct across){before, after, (enum moment)moment, more[i], false});
            check_across(&(struct across){before, after, (enum moment)moment, more[i], true});
        }
}

/* ---- what sets length and location, and what does not ---- */

/* The chip has this length and location: a Transmit of one data byte has a header by them, or none. */
static void check_way(struct chip *chip, struct addressing way)
{
    put_block(chip, BLOCK, LQ_CMD_TRANSMIT | LQ_EL, 0);
    put_word(chip, BLOCK + LQ_TRANSMIT_BUFFER, TBD);
    put_tbd(chip, TBD, 1 | LQ_EOF, LQ_NONE, BYTES);
    start_cu(chip, BLOCK);
    turns(chip, 2);
    check_answer(turn(chip), LQ_ACCEPTED, outside(way) + 1, true);
    uint8_t frame[HEADER_AFTER_RESET];
    for (unsigned i = 0; i < sizeof frame; i++) frame[i] = 0xFF; /* to everyone, whatever the length */
    check_reason(call(chip, ARRIVAL_CALL(frame, HEADER[way.length] - 1, LQ_VERDICT_GOOD)), LQ_DROPPED_TOO_FEW);
    struct answer whole = call(chip, ARRIVAL_CALL(frame, HEADER[way.length], LQ_VERDICT_GOOD));
    check_reason(whole, way.length == 0 ? LQ_DROPPED_NO_MATCH : LQ_DROPPED_IDLE);
}

/* A Configure that asks for a length of 7 or for loopback is rejected, and changes neither length nor location. */
static void check_rejected(struct addressing way)
{
    static const unsigned rejected[] = {0x07, 0x0F, 0x40, 0x46, 0x4E, 0x80, 0x82, 0x8A, 0xC6, 0xCF};
    for (size_t i = 0; i < COUNT_OF(rejected); i++) {
        struct chip chip = ready_chip(LQ_MEMORY_MIN);
        begin_case("a rejected Configure keeps length and location");
        configure(&chip, way, 0);
        put_byte(&chip, BLOCK + LQ_CB_DATA + LQ_CONFIGURE_ADDRESS, rejected[i]);
        unsigned found = run_command(&chip, LQ_CMD_CONFIGURE);
        CHECK(found == LQ_C, "byte 3 of %02Xh gives %04Xh", rejected[i], found);
        check_way(&chip, way);
        chip_free(&chip);
    }
}

/* Byte 3 is taken by every count; bits 4 and 5 of it are the preamble's. */
static void check_counts(struct addressing way)
{
    for (unsigned count = 0; count < 32; count++) {
        struct chip chip = ready_chip(LQ_MEMORY_MIN);
        begin_case("length and location by every count");
        put_addressing(&chip, way, 0, 0, 64);
        put_byte(&chip, BLOCK + LQ_CB_DATA + LQ_CONFIGURE_COUNT, count);
        put_byte(&chip, BLOCK + LQ_CB_DATA + LQ_CONFIGURE_ADDRESS,
                 way.length | (way.in_buffers ? LQ_ADDRESS_LOCATION : 0u) | (count & 3) << 4);
        run_command(&chip, LQ_CMD_CONFIGURE);
        check_way(&chip, way);
        chip_free(&chip);
    }
}

/* Reset, and an attention that resets, lead back to a length of 6 and location 0. */
static void check_resets(struct addressing way)
{
    const struct addressing after_reset = {LQ_ADDRESS_LENGTH_AFTER_RESET, false};
    for (unsigned by_attention = 0; by_attention < 2; by_attention++) {
        struct chip chip = ready_chip(LQ_MEMORY_MIN);
        begin_case("reset forgets length and location");
        configure(&chip, way, LQ_PROMISCUOUS);
        if (by_attention) attend(&chip, LQ_RESET);
        else call(&chip, RESET_CALL);
        attend(&chip, 0);
        check_way(&chip, after_reset);
        chip_free(&chip);
    }
}

/* Until a Configure ends, the length before it holds for frames that come. */
static void check_until_end(struct addressing before, struct addressing after)
{
    uint8_t frame[LQ_FRAME_MAX];
    struct chip chip = ready_chip(LQ_MEMORY_MIN);
    begin_case("a Configure acts at its end");
    configure(&chip, before, LQ_PROMISCUOUS);
    put_addressing(&chip, after, 0, 0, 0);
    put_block(&chip, BLOCK, LQ_CMD_CONFIGURE | LQ_EL, 0);
    start_cu(&chip, BLOCK);
    turn(&chip);
    fill_frame(before, HEADER[before.length], frame);
    struct answer less = call(&chip, ARRIVAL_CALL(frame, HEADER[before.length] - 1, LQ_VERDICT_GOOD));
    check_reason(less, LQ_DROPPED_TOO_FEW);
    check_reason(call(&chip, ARRIVAL_CALL(frame, HEADER[before.length], LQ_VERDICT_GOOD)), LQ_DROPPED_IDLE);
    turn(&chip);
    check_way(&chip, after);
    chip_free(&chip);
}

void headers(void)
{
    for (unsigned i = 0; i < ADDRESSINGS; i++) {
        struct addressing way = addressing_of(i);
        sent(way);
        check_limit(way, 1);
        check_limit(way, 2);
        received(way);
        around_the_header(way);
        check_rejected(way);
        check_counts(way);
        check_resets(way);
        for (unsigned k = 0; k < ADDRESSINGS; k++) {
            held_across(way, addressing_of(k));
            check_until_end(way, addressing_of(k));
        }
    }
    for (unsigned length = 0; length < ADDRESS_LENGTHS; length++) no_bytes(length);
}
