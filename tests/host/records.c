/*
 * Which records are taken: the layout and ranges of docs/record.md, from both sides of each bound. It changes with
 * docs/record.md.
 */
#include "setup.h"

/* a byte of the record, and what it is made */
struct edit {
    uint8_t at, byte;
};

struct record_case {
    const char *name;
    unsigned number;
    const struct edit *edits;
};

#define EDITS(...) ((const struct edit[]){__VA_ARGS__, {0, 0}})
#define TAKEN(name_, ...) {name_, LQ_ACCEPTED, EDITS(__VA_ARGS__)}
#define FOREIGN(name_, ...) {name_, LQ_REFUSED_FOREIGN, EDITS(__VA_ARGS__)}

/* bytes 6 and 7: the units' phases; byte 6 has two flags besides, and those of an initialised record are named with the
   first of them */
enum { INITIALISED = 0x10, SERVED_LAST = 0x20 };
enum { CU = 6, CU_IS_SUSPENDED = 0x11, WAITING = 0x12, ACTING = 0x13, SENDING = 0x14, ENDING = 0x15, FAILING = 0x16 };
enum { RU = 7, RU_IS_SUSPENDED = 1, NO_RESOURCES = 2, READY = 3, HELD = 4, FILLING = 5, CLOSING = 6, LACKING = 7 };

/* what the commands set up: the last sixteen bytes */
enum { SETTINGS = 240, MINIMUM = 241, OWN = 242, FILTER = 248 };
enum { SAVE_BAD = 1, PROMISCUOUS = 2 }; /* bits of the settings */

/* Address length and location, in the settings and in a held frame's byte 27: by how many bytes the length is short of
   six, and a bit. So zeros are a length of six and location 0, as in records from before there was a choice. */
enum { FRAME = 27 };
#define SET(length, location)     ((6 - (length)) << 3 | (location) << 6)
#define ARRIVED(length, location) ((6 - (length)) << 2 | (location) << 5)
enum { NO_LENGTH = 7 }; /* no length is by so many bytes short of six */

/* ---- of the record before the first attention: it is the only one ---- */

static const struct record_case FRESH[] = {
    FOREIGN("fresh, an event", {5, 0x80}),
    FOREIGN("fresh, served last", {CU, SERVED_LAST}),
    FOREIGN("fresh, Suspended", {CU, CU_IS_SUSPENDED - INITIALISED}),
    FOREIGN("fresh, Ready", {RU, READY}),
    FOREIGN("fresh, an SCB offset", {8, 1}),
    FOREIGN("fresh, a base", {10, 1}),
    FOREIGN("fresh, save-bad", {SETTINGS, 1}),
    FOREIGN("fresh, another address length", {SETTINGS, SET(5, 0)}),
    FOREIGN("fresh, address location 1", {SETTINGS, SET(6, 1)}),
    FOREIGN("fresh, another minimum", {MINIMUM, 63}),
    FOREIGN("fresh, another own address", {OWN, 0xFE}),
    FOREIGN("fresh, another own address in its last byte", {OWN + 5, 0x7F}),
    FOREIGN("fresh, bit 0 of the filter", {FILTER, 1}),
    FOREIGN("fresh, bit 63 of the filter", {FILTER + 7, 0x80}),
    TAKEN("initialised at base 0, offset 0", {CU, INITIALISED}),
};

/* ---- of an initialised one, both units Idle ---- */

#define FRAME_OF(phase, flags, verdict, length) \
    {RU, phase}, {26, flags}, {27, verdict}, {28, (length) & 255}, {29, (length) >> 8}

static const struct record_case READY_CHIP[] = {
    TAKEN("all events", {5, 0xF0}),
    FOREIGN("a low bit of the events", {5, 0x81}),
    TAKEN("served last", {CU, INITIALISED | SERVED_LAST}),
    FOREIGN("a third flag", {CU, INITIALISED | 0x40}),
    FOREIGN("a fourth flag", {CU, INITIALISED | 0x80}),
    FOREIGN("a fourth bit of the CU's phase", {CU, INITIALISED | 8}),
    FOREIGN("no such CU phase", {CU, INITIALISED | 7}),
    FOREIGN("no such RU phase", {RU, 8}),
    FOREIGN("a byte before the settings", {SETTINGS - 1, 1}),
    TAKEN("all settings", {SETTINGS, 7}, {MINIMUM, 255}),
    TAKEN("all settings, a length of 0, location 1", {SETTINGS, 7 | SET(0, 1)}),
    FOREIGN("no such address length", {SETTINGS, NO_LENGTH << 3}),
    FOREIGN("no such address length, location 1", {SETTINGS, NO_LENGTH << 3 | SET(6, 1)}),
    FOREIGN("an eighth bit of the settings", {SETTINGS, 0x80}),
    TAKEN("any own address", {OWN, 1}, {OWN + 5, 0}),
    TAKEN("any filter", {FILTER, 2}, {FILTER + 7, 9}),
    TAKEN("a full filter", {FILTER, 255}, {FILTER + 1, 255}, {FILTER + 2, 255}, {FILTER + 3, 255}, {FILTER + 4, 255},
          {FILTER + 5, 255}, {FILTER + 6, 255}, {FILTER + 7, 255}),

    FOREIGN("Idle with a block", {16, 1}),
    TAKEN("Suspended with a block", {CU, CU_IS_SUSPENDED}, {16, 1}, {17, 0xFF}),
    FOREIGN("Suspended with a flag", {CU, CU_IS_SUSPENDED}, {18, 1}),
    TAKEN("not begun", {CU, WAITING}, {16, 1}),
    FOREIGN("not begun, a SUSPEND waits", {CU, WAITING}, {18, 8}),
    TAKEN("Acting, all flags", {CU, ACTING}, {18, 15}, {19, 7}),
    FOREIGN("Acting, a fifth flag", {CU, ACTING}, {18, 16}),
    FOREIGN("Acting with Transmit", {CU, ACTING}, {19, 4}),
    FOREIGN("Acting with no command", {CU, ACTING}, {19, 8}),
    FOREIGN("Acting with bytes", {CU, ACTING}, {20, 14}),
    TAKEN("Sending, 14 bytes, 63 used", {CU, SENDING}, {19, 63}, {20, 14}),
    TAKEN("Sending, 2,048 bytes", {CU, SENDING}, {21, 8}, {22, 0xFE}, {23, 0xFF}),
    FOREIGN("Sending, 64 used", {CU, SENDING}, {19, 64}, {20, 14}),
    FOREIGN("Sending, 13 bytes", {CU, SENDING}, {20, 13}),
    FOREIGN("Sending, 2,049 bytes", {CU, SENDING}, {20, 1}, {21, 8}),
    FOREIGN("Sending, next FFFFh", {CU, SENDING}, {20, 14}, {22, 0xFF}, {23, 0xFF}),
    TAKEN("Ending, 14 bytes", {CU, ENDING}, {20, 14}),
    FOREIGN("Ending, 13 bytes", {CU, ENDING}, {20, 13}),
    FOREIGN("Ending, 2,049 bytes", {CU, ENDING}, {20, 1}, {21, 8}),
    FOREIGN("Ending, with a count", {CU, ENDING}, {19, 1}, {20, 14}),
    FOREIGN("Ending, with a next descriptor", {CU, ENDING}, {20, 14}, {22, 1}),
    TAKEN("Failing", {CU, FAILING}, {18, 15}),
    FOREIGN("Failing, with bytes", {CU, FAILING}, {20, 14}),

    FOREIGN("RU Idle with a descriptor", {24, 1}),
    FOREIGN("No Resources with a descriptor", {RU, NO_RESOURCES}, {24, 1}),
    TAKEN("No Resources", {RU, NO_RESOURCES}),
    TAKEN("RU Suspended with a descriptor", {RU, RU_IS_SUSPENDED}, {24, 1}),
    TAKEN("Ready with a descriptor", {RU, READY}, {24, 1}),
    FOREIGN("Ready with a frame's address length", {RU, READY}, {FRAME, ARRIVED(5, 0)}),
    FOREIGN("Ready with a frame's location", {RU, READY}, {FRAME, ARRIVED(6, 1)}),
    FOREIGN("RU Idle with a frame's address length", {FRAME, ARRIVED(5, 0)}),
    FOREIGN("Ready, a SUSPEND waits, no frame", {RU, READY}, {26, 1}),
    FOREIGN("a held frame outside Ready", {RU, RU_IS_SUSPENDED}, {28, 60}),
    FOREIGN("a held frame in Idle", {28, 60}),
    FOREIGN("a held frame in No Resources", {RU, NO_RESOURCES}, {28, 60}),
    TAKEN("Held, 14 bytes", FRAME_OF(HELD, 0, 0, 14)),
    TAKEN("Held, 2,048 bytes", FRAME_OF(HELD, 7, 2, 2048)),
    FOREIGN("Held, 13 bytes", FRAME_OF(HELD, 0, 0, 13)),
    FOREIGN("Held, 2,049 bytes", FRAME_OF(HELD, 0, 0, 2049)),
    FOREIGN("Held, no such verdict", FRAME_OF(HELD, 4, 3, 60)),
    FOREIGN("Held, no such address length", FRAME_OF(HELD, 0, NO_LENGTH << 2, 60)),
    FOREIGN("Held, no such address length, location 1", FRAME_OF(HELD, 0, NO_LENGTH << 2 | ARRIVED(6, 1), 60)),
    FOREIGN("Held, a seventh bit behind the verdict", FRAME_OF(HELD, 0, 0x40, 60)),
    FOREIGN("Held, an eighth bit behind the verdict", FRAME_OF(HELD, 0, 0x80, 60)),
    FOREIGN("Filling, no such address length", FRAME_OF(FILLING, 0, NO_LENGTH << 2, 60), {32, 14}),
    FOREIGN("Closing, no such address length", FRAME_OF(CLOSING, 0, NO_LENGTH << 2, 60)),
    FOREIGN("Lacking, no such address length", FRAME_OF(LACKING, 0, NO_LENGTH << 2, 60)),
    FOREIGN("Held, bad and not saved", FRAME_OF(HELD, 0, 1, 60)),
    FOREIGN("Held, short and not saved", FRAME_OF(HELD, 2, 0, 60)),
    FOREIGN("Held, with EL of a descriptor", FRAME_OF(HELD, 16, 0, 60)),
    FOREIGN("Held, with a next descriptor", FRAME_OF(HELD, 0, 0, 60), {30, 1}),
    TAKEN("Filling, 14 done, 63 used", FRAME_OF(FILLING, 25, 0, 60), {32, 14}, {34, 63}),
    TAKEN("Filling, one left", FRAME_OF(FILLING, 0, 0, 60), {32, 59}),
    FOREIGN("Filling, none left", FRAME_OF(FILLING, 0, 0, 60), {32, 60}),
    FOREIGN("Filling, 13 done", FRAME_OF(FILLING, 0, 0, 60), {32, 13}),
    FOREIGN("Filling, 64 used", FRAME_OF(FILLING, 0, 0, 60), {32, 14}, {34, 64}),
    FOREIGN("Filling, next FFFFh", FRAME_OF(FILLING, 0, 0, 60), {30, 0xFF}, {31, 0xFF}, {32, 14}),
    FOREIGN("Filling, last buffer's EL", FRAME_OF(FILLING, 32, 0, 60), {32, 14}),
    TAKEN("Closing, next free FFFFh", FRAME_OF(CLOSING, 57, 0, 60), {30, 0xFF}, {31, 0xFF}),
    TAKEN("Closing, no data", FRAME_OF(CLOSING, 0, 0, 14)),
    FOREIGN("Closing, no data, last buffer's EL", FRAME_OF(CLOSING, 32, 0, 14)),
    FOREIGN("Closing, with bytes done", FRAME_OF(CLOSING, 0, 0, 60), {32, 14}),
    FOREIGN("Closing, a seventh flag", FRAME_OF(CLOSING, 64, 0, 60)),
    TAKEN("Lacking", FRAME_OF(LACKING, 25, 0, 15)),
    FOREIGN("Lacking, no data", FRAME_OF(LACKING, 0, 0, 14)),
    FOREIGN("Lacking, with a next descriptor", FRAME_OF(LACKING, 0, 0, 60), {30, 1}),

    TAKEN("Sending no byte yet by location 1, a frame held under 0", {SETTINGS, SET(6, 1)}, {CU, SENDING},
          FRAME_OF(HELD, 0, 0, 60)),
    FOREIGN("Sending no byte yet by location 0, a frame held under 1", {CU, SENDING},
            FRAME_OF(HELD, 0, ARRIVED(6, 1), 60)),
    TAKEN("Ending with a header of length 0, a frame held under 6", {SETTINGS, SET(0, 0)}, {CU, ENDING}, {20, 2},
          FRAME_OF(HELD, 0, 0, 60)),
    FOREIGN("Ending with a header of length 0 by length 6, a frame held under 0", {CU, ENDING}, {20, 2},
            FRAME_OF(HELD, 0, ARRIVED(0, 0), 60)),
};

/* What a call leaves of a record that was taken is taken again, to the end of what was begun. */
static void check_goes_on(const struct chip *chip)
{
    for (unsigned i = 0; i < 132; i++) {
        unsigned number = lq_number(call_archive(&chip->lent, TURN_CALL(0)));
        CHECK(number == LQ_ACCEPTED, "a record that a call left is refused by %u", number);
    }
}

static void run_record_case(const struct record_case *given, struct chip chip)
{
    uint8_t before[LQ_RECORD_SIZE];
    begin_case(given->name);
    for (const struct edit *e = given->edits; e->at != 0; e++) chip.lent.record.bytes[e->at] = e->byte;
    memcpy(before, chip.lent.record.bytes, LQ_RECORD_SIZE);
    unsigned number = lq_number(call_archive(&chip.lent, TURN_CALL(0)));
    CHECK(number == given->number, "the number is %u, expected %u", number, given->number);
    if (number != LQ_ACCEPTED) check_bytes("the record", chip.lent.record.bytes, before, LQ_RECORD_SIZE);
    else check_goes_on(&chip);
    chip_free(&chip);
}

/* ---- ranges that go by an address length and location ---- */

/* An initialised record with these edits is taken, or it is foreign and stays as it is. */
static void check_record(const char *name, bool taken, const struct edit *edits)
{
    struct record_case given = {name, taken ? LQ_ACCEPTED : LQ_REFUSED_FOREIGN, edits};
    run_record_case(&given, ready_chip(LQ_MEMORY_MIN));
}

static unsigned set_by(struct addressing way)
{
    return SET(way.length, way.in_buffers);
}

/* what is not in buffers: a header, or with location 1 nothing */
static unsigned outside(struct addressing way)
{
    return way.in_buffers ? 0 : LQ_FRAME_HEADER(way.length);
}

/* A Transmit has at least its header in the outgoing area, by the settings, and at most 2,048 bytes. */
static void sending_ranges(struct addressing way)
{
    unsigned least = outside(way);
    const struct {
        unsigned bytes;
        bool taken;
    } rows[] = {{least, true}, {LQ_FRAME_MAX, true}, {LQ_FRAME_MAX + 1, false}, {least - 1, false}};
    for (size_t i = 0; i < COUNT_OF(rows) && (least > 0 || i < 3); i++) {
        uint8_t low = rows[i].bytes & 255, high = (uint8_t)(rows[i].bytes >> 8);
        check_record("Sending, by the settings", rows[i].taken,
                     EDITS({SETTINGS, set_by(way)}, {CU, SENDING}, {20, low}, {21, high}));
        check_record("Ending, by the settings", rows[i].taken,
                     EDITS({SETTINGS, set_by(way)}, {CU, ENDING}, {20, low}, {21, high}));
    }
}

/* a frame that arrived under a length and location, `way`, while the settings are the same or others, `set` */
#define FRAME_UNDER(phase, flags, length_) \
    {SETTINGS, set_by(set)}, FRAME_OF(phase, flags, ARRIVED(way.length, way.in_buffers), length_)

static void held_ranges(struct addressing way, struct addressing set)
{
    unsigned header = LQ_FRAME_HEADER(way.length);
    check_record("Held, a header", true, EDITS(FRAME_UNDER(HELD, 0, header)));
    check_record("Held, less than a header", false, EDITS(FRAME_UNDER(HELD, 0, header - 1)));
    check_record("Held, 2,048 bytes", true, EDITS(FRAME_UNDER(HELD, 0, LQ_FRAME_MAX)));
    check_record("Held, 2,049 bytes", false, EDITS(FRAME_UNDER(HELD, 0, LQ_FRAME_MAX + 1)));
    check_record("Lacking, a header", way.in_buffers, EDITS(FRAME_UNDER(LACKING, 0, header)));
    check_record("Lacking, a byte more", true, EDITS(FRAME_UNDER(LACKING, 0, header + 1)));
    check_record("Lacking, less than a header", false, EDITS(FRAME_UNDER(LACKING, 0, header - 1)));
    check_record("Closing, a header", true, EDITS(FRAME_UNDER(CLOSING, 0, header)));
    check_record("Closing, less than a header", false, EDITS(FRAME_UNDER(CLOSING, 0, header - 1)));
    check_record("Closing, a header, the last buffer's EL", way.in_buffers, EDITS(FRAME_UNDER(CLOSING, 32, header)));
    check_record("Closing, a byte more, the last buffer's EL", true, EDITS(FRAME_UNDER(CLOSING, 32, header + 1)));
}

/* Filling: bytes are done from the first one that goes to a buffer on, and one at least is left. */
static void filling_ranges(struct addressing way, struct addressing set)
{
    unsigned header = LQ_FRAME_HEADER(way.length), least = outside(way);
    for (unsigned length = header; length < header + 3; length++) {
        check_record("Filling, none done", least < length, EDITS(FRAME_UNDER(FILLING, 0, length), {32, least}));
        check_record("Filling, one left", least < length, EDITS(FRAME_UNDER(FILLING, 0, length), {32, length - 1}));
        check_record("Filling, none left", false, EDITS(FRAME_UNDER(FILLING, 0, length), {32, length}));
        if (least == 0) continue;
        check_record("Filling, less than a header done", false,
                     EDITS(FRAME_UNDER(FILLING, 0, length), {32, least - 1}));
    }
    check_record("Filling, less than a header", false, EDITS(FRAME_UNDER(FILLING, 0, header - 1), {32, least}));
}

static void ranges(struct addressing way)
{
    const struct addressing sets[] = {way, {6, false}, {6, true}, {3, false}, {0, true}};
    check_record("any length and location", true, EDITS({SETTINGS, set_by(way)}));
    sending_ranges(way);
    for (size_t i = 0; i < COUNT_OF(sets); i++) {
        held_ranges(way, sets[i]);
        filling_ranges(way, sets[i]);
    }
}

/* ---- what calls write there ---- */

/* The settings have what Configure said last, a held frame what it was when it arrived. */
static void written(struct addressing before, struct addressing after)
{
    enum { FD = 0x300, RBD = 0x400 };
    struct chip chip = ready_chip(LQ_MEMORY_MIN);
    const uint8_t *record = chip.lent.record.bytes;
    begin_case("length and location in the record");
    put_fd(&chip, FD, 0, FD, RBD);
    put_rbd(&chip, RBD, RBD, 0x1000, 1); /* a byte at a time, so that the frame is held for long */
    put_addressing(&chip, before, LQ_SAVE_BAD, LQ_PROMISCUOUS, 0);
    run_command(&chip, LQ_CMD_CONFIGURE);
    CHECK(record[SETTINGS] == (SAVE_BAD | PROMISCUOUS | set_by(before)), "the settings are %02Xh", record[SETTINGS]);
    start_ru(&chip, FD);
    arrive(&chip, EVERYONE, 60, LQ_VERDICT_MISALIGNED);
    unsigned arrived = LQ_VERDICT_MISALIGNED | ARRIVED(before.length, before.in_buffers);
    CHECK(record[FRAME] == arrived, "byte 27 is %02Xh, expected %02Xh", record[FRAME], arrived);
    configure(&chip, after, 0);
    CHECK(record[SETTINGS] == set_by(after), "the settings are %02Xh", record[SETTINGS]);
    CHECK(record[RU] == FILLING && record[FRAME] == arrived, "after a Configure byte 27 is %02Xh", record[FRAME]);
    attend(&chip, LQ_RUC(LQ_ABORT));
    CHECK(record[FRAME] == 0, "byte 27 is %02Xh with no frame held", record[FRAME]);
    chip_free(&chip);
}

/* one encoding: what was set before leaves no trace */
static void set_back(struct addressing way)
{
    const struct addressing after_reset = {LQ_ADDRESS_LENGTH_AFTER_RESET, false};
    struct chip plain = ready_chip(LQ_MEMORY_MIN), changed = ready_chip(LQ_MEMORY_MIN);
    begin_case("a length and location that were set back");
    configure(&plain, after_reset, 0), configure(&changed, way, 0);
    configure(&plain, after_reset, 0), configure(&changed, after_reset, 0);
    check_bytes("the record", changed.lent.record.bytes, plain.lent.record.bytes, LQ_RECORD_SIZE);
    chip_free(&plain);
    chip_free(&changed);
}

/* ---- a record that was kept from before lengths and locations could be set ---- */

/* A record from then, at work, and the state that it meant: a Transmit with a header of 14 bytes and 96 of data in the
   outgoing area, a frame of 60 bytes of which 34 are done, 14 of them its header. */
static struct chip kept_chip(void)
{
    static const uint8_t kept[40] = {
        0x42, 0x47, 0x54, 0x01, 0x00, 0x40, 0x34, 0x05, 0x00, 0x01, 0x45, 0x23, 0x01, 0x00, 0x00, 0x00,
        0x00, 0x02, 0x05, 0x02, 0x6E, 0x00, 0x40, 0x03, 0x00, 0x04, 0x0D, 0x01, 0x3C, 0x00, 0x20, 0x05,
        0x22, 0x00, 0x01, 0x00, 0x00, 0x00, 0x00, 0x00};
    static const uint8_t set_up[16] = {
        0x01, 0x40, 0x02, 0x07, 0x01, 0x00, 0x00, 0x2A, 0x00, 0x00, 0x00, 0x00, 0x00, 0x00, 0x10, 0x00};
    struct chip chip = chip_of(65536);
    memcpy(chip.lent.record.bytes, kept, sizeof kept);
    memcpy(chip.lent.record.bytes + SETTINGS, set_up, sizeof set_up);
    chip.model = (struct model){
        .initialised = true, .base = 0x012345, .scb = 0x0100, .events = LQ_FR, .served = UNIT_RU,
        .settings = {.save_bad = true, .minimum = 64, .addressing = {.length = 6}},
        .own = {0x02, 0x07, 0x01, 0x00, 0x00, 0x2A}, .filter = (uint64_t)1 << 52,
        .cu = {.state = CU_ACTIVE, .block = 0x0200, .phase = COMMAND_BUFFERS, .el = true, .i = true,
               .cmd = LQ_CMD_TRANSMIT, .next = 0x0340, .used = 2, .filled = 110},
        .ru = {.state = RU_READY, .descriptor = 0x0400, .phase = FRAME_BUFFERS, .waiting = true, .s = true,
               .verdict = VERDICT_CRC, .save_bad = true, .under = {.length = 6}, .length = 60, .next = 0x0520,
               .used = 1, .done = 34},
    };
    for (unsigned i = 0; i < 120; i += 2) { /* byte k is k */
        put_holding(&chip, i, 0x0100 * (i + 1) + i);
        put_outgoing(&chip, i, 0x0100 * (i + 1) + i);
    }
    return chip;
}

/* Its settings are those of six bytes: a header has 14, with the own address in it, and 13 are too few. */
static void check_six_bytes(struct chip *chip, uint32_t base)
{
    enum { BLOCK = 0x0200, SCB_OFFSET = 0x0100 };
    static const uint8_t to_own[14] = {0x02, 0x07, 0x01, 0x00, 0x00, 0x2A};
    put_transmit(chip, base + BLOCK, LQ_EL, 0, LQ_NONE);
    put_word(chip, base + SCB_OFFSET + LQ_SCB_CBL, BLOCK);
    put_word(chip, base + SCB_OFFSET + LQ_SCB_COMMAND, LQ_CUC(LQ_START));
    call(chip, ATTENTION_CALL);
    turn(chip);
    check_answer(turn(chip), LQ_ACCEPTED, sizeof to_own, true);
    check_bytes("the own address", chip->lent.outgoing.bytes + 6, to_own, 6);
    check_reason(call(chip, ARRIVAL_CALL(to_own, sizeof to_own - 1, LQ_VERDICT_GOOD)), LQ_DROPPED_TOO_FEW);
    check_reason(call(chip, ARRIVAL_CALL(to_own, sizeof to_own, LQ_VERDICT_GOOD)), LQ_DROPPED_SUSPENDED);
}

/* It goes on as it would have: the rest of the Transmit, the rest of the frame, the first 14 bytes as its header. */
static void kept_from_before(void)
{
    enum { BASE = 0x012345, TBD = BASE + 0x0340, FD = BASE + 0x0400, RBD = BASE + 0x0520 };
    struct chip chip = kept_chip();
    begin_case("a record kept from before");
    put_tbd(&chip, TBD, LQ_EOF | 10, LQ_NONE, 0x8000);
    put_rbd(&chip, RBD, 0x1234, 0x8100, 100);
    turns(&chip, 2);
    check_word(&chip, RBD, LQ_EOF | LQ_F | 26);
    CHECK(byte_of(&chip, 0x8100) == 34 && byte_of(&chip, 0x8100 + 25) == 59, "other bytes are in the buffer");
    check_answer(turn(&chip), LQ_ACCEPTED, 120, true);
    check_answer(turn(&chip), LQ_ACCEPTED, 0, true);
    check_word(&chip, FD, LQ_C | LQ_FD_CRC);
    for (unsigned i = 0; i < 16; i++)
        CHECK(byte_of(&chip, FD + LQ_FD_DESTINATION + i) == (i < 14 ? i : 0), "byte +%u of the descriptor", 8 + i);
    check_six_bytes(&chip, BASE);
    chip_free(&chip);
}

/* A fresh record is what it was before: zeros, but for letters and version, the minimum, the own address. */
static void fresh_as_before(void)
{
    uint8_t fresh[LQ_RECORD_SIZE] = {0x42, 0x47, 0x54, 0x01, [MINIMUM] = 64};
    struct chip chip = chip_of(LQ_MEMORY_MIN);
    begin_case("a fresh record as before");
    memset(fresh + OWN, 0xFF, 6);
    check_bytes("the fresh record", chip.lent.record.bytes, fresh, LQ_RECORD_SIZE);
    chip_free(&chip);
}

void records(void)
{
    for (size_t i = 0; i < COUNT_OF(FRESH); i++) run_record_case(&FRESH[i], chip_of(LQ_MEMORY_MIN));
    for (size_t i = 0; i < COUNT_OF(READY_CHIP); i++) run_record_case(&READY_CHIP[i], ready_chip(LQ_MEMORY_MIN));
    for (unsigned i = 0; i < ADDRESSINGS; i++) {
        ranges(addressing_of(i));
        set_back(addressing_of(i));
        for (unsigned k = 0; k < ADDRESSINGS; k++) written(addressing_of(i), addressing_of(k));
    }
    kept_from_before();
    fresh_as_before();
}
