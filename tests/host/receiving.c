/* Arrival and storing: every frame's fate by state, length, verdict, address and settings; buffers of every size. */
#include "setup.h"

enum { BLOCK = 0x200, FD = 0x300, NEXT_FD = 0x320, RBD = 0x400, BUFFERS = 0x1000 };

/* ---- arrival: what becomes of a frame ---- */

enum situation { IN_IDLE, IN_SUSPENDED, IN_NO_RESOURCES, IN_READY, WHILE_HELD };

struct line {
    enum situation situation;
    size_t length;
    uint32_t verdict;
    unsigned destination; /* index in DESTINATIONS */
    bool save_bad, promiscuous, broadcast_disabled;
};

/* everyone, the own address, a listed group, a group whose bit is clear, someone else, a listed address that is no
   group; and two groups that are not listed: one with the listed group's bit, 52, one with that of the listed address
   that is no group, 36 */
static const uint8_t DESTINATIONS[8][6] = {
    {255, 255, 255, 255, 255, 255}, {2, 7, 1, 0, 0, 42}, {1, 0, 94, 0, 0, 1}, {1, 0, 94, 0, 0, 2},
    {2, 7, 1, 0, 0, 43},            {4, 0, 94, 0, 0, 1}, {1, 0, 0, 0, 0, 46}, {1, 0, 0, 0, 0, 33}};

static void put_settings(struct chip *chip, const struct line *line)
{
    put_bytes(chip, BLOCK + 6, DESTINATIONS[1], 6);
    run_command(chip, LQ_CMD_IA_SETUP);
    put_word(chip, BLOCK + LQ_MC_COUNT, 12);
    put_bytes(chip, BLOCK + LQ_MC_ADDRESSES, DESTINATIONS[2], 6);
    put_bytes(chip, BLOCK + LQ_MC_ADDRESSES + 6, DESTINATIONS[5], 6);
    run_command(chip, LQ_CMD_MC_SETUP);
    put_byte(chip, BLOCK + 6, 11);
    put_byte(chip, BLOCK + 8, line->save_bad ? LQ_SAVE_BAD : 0);
    put_byte(chip, BLOCK + 9, LQ_ADDRESS_LENGTH_AFTER_RESET);
    put_byte(chip, BLOCK + 14,
             (line->promiscuous ? LQ_PROMISCUOUS : 0u) | (line->broadcast_disabled ? LQ_BROADCAST_DISABLED : 0u));
    put_byte(chip, BLOCK + 16, 64);
    run_command(chip, LQ_CMD_CONFIGURE);
}

static void bring_to(struct chip *chip, enum situation situation)
{
    put_fd(chip, FD, situation == IN_NO_RESOURCES ? LQ_EL : 0, NEXT_FD, RBD);
    put_rbd(chip, RBD, RBD, BUFFERS, 0x800);
    if (situation == IN_IDLE) return;
    start_ru(chip, FD);
    if (situation == IN_SUSPENDED) attend(chip, LQ_EVENTS | LQ_RUC(LQ_SUSPEND));
    if (situation == IN_NO_RESOURCES || situation == WHILE_HELD) arrive(chip, DESTINATIONS[1], 100, 0);
    if (situation == IN_NO_RESOURCES) turns(chip, 3);
    put_word(chip, FD, 0);
}

static bool matches(const struct line *line)
{
    if (line->promiscuous) return true;
    if (line->destination == 0) return !line->broadcast_disabled;
    return line->destination == 1 || line->destination == 2 || line->destination >= 6;
}

struct fate {
    unsigned crc, aln, rsc, ovrn;
    bool held;
    unsigned reason;
};

static struct fate fate_of(const struct line *line)
{
    bool is_short = line->length < 60;
    bool bad = is_short || line->verdict != 0;
    bool held = line->situation == IN_READY && (!bad || line->save_bad);
    if (line->length < 14) return (struct fate){.reason = LQ_DROPPED_TOO_FEW};
    if (!matches(line)) return (struct fate){.reason = LQ_DROPPED_NO_MATCH};
    if (line->situation == IN_IDLE) return (struct fate){.reason = LQ_DROPPED_IDLE};
    if (line->situation == IN_SUSPENDED) return (struct fate){.reason = LQ_DROPPED_SUSPENDED};
    if (line->situation == WHILE_HELD) return (struct fate){.ovrn = 1};
    return (struct fate){
        .crc = !is_short && line->verdict == 1,
        .aln = !is_short && line->verdict > 1,
        .rsc = !bad && line->situation == IN_NO_RESOURCES,
        .held = held,
        .reason = bad && !held ? LQ_DROPPED_BAD : LQ_NOT_DROPPED,
    };
}

static void check_fate(const struct line *line)
{
    struct chip chip = ready_chip(LQ_MEMORY_MIN);
    struct fate fate = fate_of(line);
    begin_case("an arriving frame's fate");
    put_settings(&chip, line);
    bring_to(&chip, line->situation);
    for (uint32_t i = 0; i < 8; i += 2) put_word(&chip, SCB + LQ_SCB_CRCERRS + i, 0xFFFF);
    struct answer found = arrive(&chip, DESTINATIONS[line->destination], line->length, line->verdict);
    check_answer(found, LQ_ACCEPTED, 0, false);
    check_reason(found, fate.reason);
    check_word(&chip, SCB + LQ_SCB_CRCERRS, (0xFFFF + fate.crc) & 0xFFFF);
    check_word(&chip, SCB + LQ_SCB_ALNERRS, (0xFFFF + fate.aln) & 0xFFFF);
    check_word(&chip, SCB + LQ_SCB_RSCERRS, (0xFFFF + fate.rsc) & 0xFFFF);
    check_word(&chip, SCB + LQ_SCB_OVRNERRS, (0xFFFF + fate.ovrn) & 0xFFFF);
    turn(&chip);
    check_word(&chip, FD, fate.held || line->situation == WHILE_HELD ? LQ_B : 0);
    turns(&chip, 2);
    chip_free(&chip);
}

static void fates_by_settings(struct line line)
{
    for (unsigned bits = 0; bits < 8; bits++) {
        line.save_bad = bits & 1;
        line.promiscuous = bits & 2;
        line.broadcast_disabled = bits & 4;
        check_fate(&line);
    }
}

static void fates(void)
{
    static const size_t lengths[] = {0, 13, 14, 59, 60, LQ_FRAME_MAX};
    static const uint32_t verdicts[] = {0, 1, 2, 7, 0xFFFFFFFF};
    for (unsigned s = IN_IDLE; s <= WHILE_HELD; s++)
        for (size_t l = 0; l < COUNT_OF(lengths); l++)
            for (size_t v = 0; v < COUNT_OF(verdicts); v++)
                for (unsigned d = 0; d < COUNT_OF(DESTINATIONS); d++)
                    fates_by_settings((struct line){(enum situation)s, lengths[l], verdicts[v], d, 0, 0, 0});
}

/* ---- storing: buffers of one size, the last of them marked by EL or by FFFFh ---- */

enum last { LAST_EL, LAST_NONE };

static void put_buffers(struct chip *chip, unsigned n, unsigned size, enum last last)
{
    for (unsigned i = 0; i < n; i++) {
        bool is_last = i + 1 == n;
        unsigned next = is_last && last == LAST_NONE ? LQ_NONE : RBD + 10 * (i + 1);
        put_rbd(chip, RBD + 10 * i, next, BUFFERS + size * i, size | (is_last && last == LAST_EL ? LQ_EL : 0u));
    }
}

/* A frame of some data bytes into n buffers: the words of the buffer descriptors, the turns, the status. */
static void check_stored(unsigned data, unsigned n, unsigned size, enum last last)
{
    struct chip chip = ready_chip(LQ_MEMORY_MIN);
    unsigned needed = data == 0 ? 0 : (data + size - 1) / size;
    unsigned used = needed < n ? needed : n;
    bool out = needed > n;
    bool last_el = used == n && n > 0 && last == LAST_EL && data > 0;
    begin_case("a frame into buffers");
    put_word(&chip, BLOCK + 6, 0x000B), put_word(&chip, BLOCK + 8, 0x0600);
    run_command(&chip, LQ_CMD_CONFIGURE); /* minimum 0 */
    put_fd(&chip, FD, 0, NEXT_FD, n == 0 ? LQ_NONE : RBD);
    put_buffers(&chip, n, size, last);
    start_ru(&chip, FD);
    arrive(&chip, EVERYONE, 14 + data, 0);
    turns(&chip, 1 + used);
    check_word(&chip, FD, LQ_B);
    check_answer(turn(&chip), LQ_ACCEPTED, 0, true);
    for (unsigned i = 0; i < n; i++) {
        unsigned count = i + 1 < needed ? size : data - size * i;
        unsigned word = i >= used ? 0 : LQ_F | count | (i + 1 == needed ? LQ_EOF : 0u);
        check_word(&chip, RBD + 10 * i, word);
    }
    unsigned state = out || last_el ? LQ_RNR | LQ_RUS_NO_RESOURCES << 4 : LQ_RUS_READY << 4;
    check_word(&chip, FD, out ? 0 : LQ_C | LQ_OK);
    check_word(&chip, SCB, (out ? 0u : LQ_FR) | state);
    check_word(&chip, SCB + LQ_SCB_RSCERRS, out);
    turns(&chip, 1);
    chip_free(&chip);
}

static void buffers(void)
{
    static const unsigned sizes[] = {1, 2, 7, 20, 46, 64, 2034};
    for (unsigned data = 0; data <= 48; data++)
        for (size_t s = 0; s < COUNT_OF(sizes); s++)
            for (unsigned n = 0; n < 5; n++) {
                check_stored(data, n, sizes[s], LAST_EL);
                check_stored(data, n, sizes[s], LAST_NONE);
            }
    check_stored(64, 64, 1, LAST_EL);
    check_stored(64, 64, 1, LAST_NONE);
    check_stored(65, 64, 1, LAST_EL);
    check_stored(2034, 1, 2034, LAST_EL);
    check_stored(2034, 64, 32, LAST_NONE);
    check_stored(2034, 63, 32, LAST_NONE);
}

/* ---- the end of a frame: descriptor's EL and S, EL of the buffer, a waiting SUSPEND ---- */

static void ends(void)
{
    for (unsigned bits = 0; bits < 16; bits++) {
        struct chip chip = ready_chip(LQ_MEMORY_MIN);
        bool el = bits & 1, s = bits & 2, buffer_el = bits & 4, waiting = bits & 8;
        begin_case("the end of a frame");
        put_fd(&chip, FD, (el ? LQ_EL : 0u) | (s ? LQ_S : 0u) | 0x3FFF, NEXT_FD, RBD);
        put_rbd(&chip, RBD, 0x1234, BUFFERS, 100 | (buffer_el ? LQ_EL : 0u));
        start_ru(&chip, FD);
        arrive(&chip, EVERYONE, 60, 0);
        if (waiting) attend(&chip, LQ_RUC(LQ_SUSPEND));
        turns(&chip, 3);
        bool none = el || buffer_el;
        unsigned rus = none ? LQ_RUS_NO_RESOURCES : s || waiting ? LQ_RUS_SUSPENDED : LQ_RUS_READY;
        check_word(&chip, SCB, LQ_FR | (rus == LQ_RUS_READY ? 0u : LQ_RNR) | rus << 4);
        check_word(&chip, NEXT_FD + LQ_FD_BUFFER, none ? 0 : 0x1234);
        chip_free(&chip);
    }
}

/* ---- statuses of saved frames: all bits that apply ---- */

static void statuses(void)
{
    for (unsigned verdict = 0; verdict < 3; verdict++) {
        for (unsigned bits = 0; bits < 4; bits++) {
            struct chip chip = ready_chip(LQ_MEMORY_MIN);
            bool is_short = bits & 1, out = bits & 2;
            struct line line = {.save_bad = true};
            begin_case("the status of a saved frame");
            put_settings(&chip, &line);
            put_fd(&chip, FD, 0, NEXT_FD, out ? LQ_NONE : RBD);
            put_rbd(&chip, RBD, RBD, BUFFERS, 100);
            start_ru(&chip, FD);
            arrive(&chip, EVERYONE, is_short ? 59 : 60, verdict);
            turns_until_complete(&chip, FD);
            unsigned errors = (verdict == 1 ? LQ_FD_CRC : verdict == 2 ? LQ_FD_ALIGNMENT : 0u)
                            | (out ? LQ_FD_OUT_OF_BUFFERS : 0u) | (is_short ? LQ_FD_SHORT : 0u);
            check_word(&chip, FD, LQ_C | errors | (errors == 0 ? LQ_OK : 0u));
            check_word(&chip, SCB + LQ_SCB_RSCERRS, out && !is_short && verdict == 0);
            chip_free(&chip);
        }
    }
}

/* ---- "Only a held frame enters the holding area. Holding and outgoing bytes that a frame doesn't reach stay." ---- */

static void check_marked(const uint8_t *area, size_t from, size_t to)
{
    for (size_t i = from; i < to; i++)
        CHECK(area[i] == 0xEE, "byte %lu is %02Xh, expected EEh", (unsigned long)i, area[i]);
}

static void bytes_stay(void)
{
    struct chip chip = ready_chip(LQ_MEMORY_MIN);
    begin_case("holding and outgoing bytes that stay");
    for (size_t i = 0; i < LQ_HOLDING_SIZE; i += 2) put_holding(&chip, i, 0xEEEE), put_outgoing(&chip, i, 0xEEEE);
    arrive(&chip, EVERYONE, 60, 0); /* the unit is Idle */
    check_marked(chip.lent.holding.bytes, 0, LQ_HOLDING_SIZE);
    start_ru(&chip, FD);
    arrive(&chip, EVERYONE, 60, 1); /* bad, not saved */
    check_marked(chip.lent.holding.bytes, 0, LQ_HOLDING_SIZE);
    arrive(&chip, EVERYONE, 60, 0);
    CHECK(chip.lent.holding.bytes[0] == 0xFF, "the frame is not in the holding area");
    check_marked(chip.lent.holding.bytes, 60, LQ_HOLDING_SIZE);
    arrive(&chip, EVERYONE, 100, 0); /* an overrun */
    turns(&chip, 1);
    attend(&chip, LQ_RUC(LQ_ABORT));
    put_transmit(&chip, BLOCK, LQ_EL, 0, LQ_NONE);
    run_command(&chip, LQ_CMD_TRANSMIT);
    attend(&chip, LQ_RESET);
    call(&chip, RESET_CALL);
    CHECK(chip.lent.holding.bytes[0] == 0xFF, "the holding area was cleared");
    check_marked(chip.lent.holding.bytes, 60, LQ_HOLDING_SIZE);
    check_marked(chip.lent.outgoing.bytes, 14, LQ_OUTGOING_SIZE);
    chip_free(&chip);
}

void receiving(void)
{
    bytes_stay();
    fates();
    buffers();
    ends();
    statuses();
}
