/*
 * Why an arriving frame is dropped: the reason by the unit's state and by what the frame is, from every way into that
 * state; what moves beside it; which of several is given; and that no other answer says one.
 */
#include "board.h"
#include "setup.h"

enum { BLOCK = 0x200, FD = 0x300, NEXT_FD = 0x320, RBD = 0x400, BUFFERS = 0x1000 };

/* the shortest frame that is not short: with its FCS it has the minimum that reset leaves */
enum { WHOLE = 60 };

/* ---- the rule: a row for each state, a column for what the frame is, in the order in which it is asked ---- */

enum state { IDLE, SUSPENDED, READY, NO_RESOURCES, HOLDING, STATES };

/* fewer than 14 bytes; others that are not for us; of those that are: bad, bad with save-bad set, good */
enum sort { HEADLESS, NOT_OURS, BAD, BAD_SAVING, OURS, SORTS };

static const unsigned REASONS[STATES][SORTS] = {
    [IDLE] = {LQ_DROPPED_TOO_FEW, LQ_DROPPED_NO_MATCH, LQ_DROPPED_IDLE, LQ_DROPPED_IDLE, LQ_DROPPED_IDLE},
    [SUSPENDED] = {LQ_DROPPED_TOO_FEW, LQ_DROPPED_NO_MATCH, LQ_DROPPED_SUSPENDED, LQ_DROPPED_SUSPENDED,
                   LQ_DROPPED_SUSPENDED},
    [READY] = {LQ_DROPPED_TOO_FEW, LQ_DROPPED_NO_MATCH, LQ_DROPPED_BAD, LQ_NOT_DROPPED, LQ_NOT_DROPPED},
    [NO_RESOURCES] = {LQ_DROPPED_TOO_FEW, LQ_DROPPED_NO_MATCH, LQ_DROPPED_BAD, LQ_DROPPED_BAD, LQ_NOT_DROPPED},
    [HOLDING] = {LQ_DROPPED_TOO_FEW, LQ_DROPPED_NO_MATCH, LQ_NOT_DROPPED, LQ_NOT_DROPPED, LQ_NOT_DROPPED},
};

/* ---- the ways into every state: S START, P SUSPEND, R RESUME, A ABORT; F a good frame comes; t a turn ---- */

struct situation {
    const char *name;
    const char *way;          /* from an initialised chip whose unit was never started */
    unsigned command, buffer; /* of the frame descriptor */
    enum state state;
};

static const struct situation SITUATIONS[] = {
    {"never started", "", 0, RBD, IDLE},
    {"aborted", "SA", 0, RBD, IDLE},
    {"aborted from Suspended", "SPA", 0, RBD, IDLE},
    {"aborted with a frame held", "SFA", 0, RBD, IDLE},
    {"aborted with a frame begun", "SFtA", 0, RBD, IDLE},
    {"aborted from No Resources", "SFtttA", LQ_EL, RBD, IDLE},
    {"suspended at once", "SP", 0, RBD, SUSPENDED},
    {"suspended by S", "SFttt", LQ_S, RBD, SUSPENDED},
    {"suspended by a SUSPEND that waited", "SFPttt", 0, RBD, SUSPENDED},
    {"started", "S", 0, RBD, READY},
    {"started from Suspended", "SPS", 0, RBD, READY},
    {"started from No Resources", "SFtttS", LQ_EL, RBD, READY},
    {"resumed", "SPR", 0, RBD, READY},
    {"ready again after a frame", "SFttt", 0, RBD, READY},
    {"no resources by EL", "SFttt", LQ_EL, RBD, NO_RESOURCES},
    {"no resources for want of buffers", "SFtt", 0, LQ_NONE, NO_RESOURCES},
    {"a frame held", "SF", 0, RBD, HOLDING},
    {"a frame held, a SUSPEND waits", "SFP", 0, RBD, HOLDING},
    {"a frame begun", "SFt", 0, RBD, HOLDING},
    {"a frame before its end", "SFtt", 0, RBD, HOLDING},
    {"a frame out of buffers", "SFt", 0, LQ_NONE, HOLDING},
};

/* ---- who a frame is for ---- */

static const uint8_t OWN[6] = {2, 7, 1, 0, 0, 42}, GROUP[6] = {1, 0, 94, 0, 0, 1};

struct address {
    const char *name;
    uint8_t to[6];
    unsigned filter; /* bits of LQ_CONFIGURE_FILTER */
    bool ours;
};

static const struct address ADDRESSES[] = {
    {"the own address", {2, 7, 1, 0, 0, 42}, 0, true},
    {"everyone", {255, 255, 255, 255, 255, 255}, 0, true},
    {"everyone, broadcast disabled", {255, 255, 255, 255, 255, 255}, LQ_BROADCAST_DISABLED, false},
    {"everyone, broadcast disabled, promiscuous", {255, 255, 255, 255, 255, 255},
     LQ_BROADCAST_DISABLED | LQ_PROMISCUOUS, true},
    {"a listed group", {1, 0, 94, 0, 0, 1}, LQ_BROADCAST_DISABLED, true},
    {"a group that is not listed", {1, 0, 94, 0, 0, 2}, 0, false},
    {"another station", {2, 7, 1, 0, 0, 43}, 0, false},
    {"another station, promiscuous", {2, 7, 1, 0, 0, 43}, LQ_PROMISCUOUS, true},
};

/* ---- an arrival, and the answer that is expected ---- */

static const size_t LENGTHS[] = {0, 13, HEADER_AFTER_RESET, WHOLE - 1, WHOLE, LQ_FRAME_MAX};
static const uint32_t VERDICTS[] = {0, 1, 2, 7, 0xFFFFFFFF};

struct line {
    const struct situation *in;
    const struct address *to;
    bool saving;
    size_t length;
    uint32_t verdict;
};

static struct call arrival_of(const struct address *to, size_t length, uint32_t verdict)
{
    static uint8_t frame[LQ_FRAME_MAX + 1];
    for (size_t i = 0; i < length; i++) frame[i] = i < 6 ? to->to[i] : (uint8_t)(i * 5 + 3);
    return ARRIVAL_CALL(frame, length, verdict);
}

static enum sort sort_of(const struct line *line)
{
    if (line->length < HEADER_AFTER_RESET) return HEADLESS;
    if (!line->to->ours) return NOT_OURS;
    if (line->length >= WHOLE && line->verdict == LQ_VERDICT_GOOD) return OURS;
    return line->saving ? BAD_SAVING : BAD;
}

/* The place in the SCB of the counter that grows, 0 if none does: a drop has one only if its verdict has. */
static unsigned counter_of(const struct line *line)
{
    enum state state = line->in->state;
    enum sort sort = sort_of(line);
    if (sort == HEADLESS || sort == NOT_OURS || state == IDLE || state == SUSPENDED) return 0;
    if (state == HOLDING) return LQ_SCB_OVRNERRS;
    if (sort == OURS) return state == NO_RESOURCES ? LQ_SCB_RSCERRS : 0;
    if (line->length < WHOLE) return 0;
    return line->verdict == LQ_VERDICT_CRC ? LQ_SCB_CRCERRS : LQ_SCB_ALNERRS;
}

/* ---- the sweep ---- */

static void put_settings(struct chip *chip, unsigned filter, bool saving)
{
    put_bytes(chip, BLOCK + LQ_CB_DATA, OWN, 6);
    run_command(chip, LQ_CMD_IA_SETUP);
    put_bytes(chip, BLOCK + LQ_MC_ADDRESSES, GROUP, 6);
    run_mc_setup(chip, BLOCK, 6);
    put_byte(chip, BLOCK + LQ_CB_DATA + LQ_CONFIGURE_COUNT, 9);
    put_byte(chip, BLOCK + LQ_CB_DATA + LQ_CONFIGURE_SAVE, saving ? LQ_SAVE_BAD : 0);
    put_byte(chip, BLOCK + LQ_CB_DATA + LQ_CONFIGURE_ADDRESS, LQ_ADDRESS_LENGTH_AFTER_RESET);
    put_byte(chip, BLOCK + LQ_CB_DATA + LQ_CONFIGURE_FILTER, filter);
    run_command(chip, LQ_CMD_CONFIGURE);
}

static void walk(struct chip *chip, const char *way)
{
    for (; *way != 0; way++) {
        switch (*way) {
        case 'S': start_ru(chip, FD); break;
        case 'P': attend(chip, LQ_RUC(LQ_SUSPEND)); break;
        case 'R': attend(chip, LQ_RUC(LQ_RESUME)); break;
        case 'A': attend(chip, LQ_RUC(LQ_ABORT)); break;
        case 'F': check_reason(arrive(chip, OWN, 100, LQ_VERDICT_GOOD), LQ_NOT_DROPPED); break;
        default: turn(chip); break;
        }
    }
}

/* A chip in a situation, every counter FFFFh. */
static struct chip chip_in(const struct situation *in, unsigned filter, bool saving)
{
    static const unsigned rus[STATES] = {
        LQ_RUS_IDLE, LQ_RUS_SUSPENDED, LQ_RUS_READY, LQ_RUS_NO_RESOURCES, LQ_RUS_READY};
    struct chip chip = ready_chip(LQ_MEMORY_MIN);
    put_settings(&chip, filter, saving);
    put_fd(&chip, FD, in->command, NEXT_FD, in->buffer);
    put_rbd(&chip, RBD, RBD, BUFFERS, 200);
    walk(&chip, in->way);
    CHECK(LQ_RUS(status(&chip)) == rus[in->state], "the unit is not there, the status is %04Xh", status(&chip));
    for (uint32_t at = LQ_SCB_CRCERRS; at < LQ_SCB_SIZE; at += 2) put_word(&chip, SCB + at, 0xFFFF);
    return chip;
}

/* The areas and the model are all that there is of a chip. */
static struct chip copy_of(const struct chip *chip)
{
    struct chip copy = chip_of(chip->lent.memory.length);
    memcpy(copy.lent.memory.bytes, chip->lent.memory.bytes, chip->lent.memory.length);
    memcpy(copy.lent.holding.bytes, chip->lent.holding.bytes, LQ_HOLDING_SIZE);
    memcpy(copy.lent.outgoing.bytes, chip->lent.outgoing.bytes, LQ_OUTGOING_SIZE);
    memcpy(copy.lent.record.bytes, chip->lent.record.bytes, LQ_RECORD_SIZE);
    memcpy(copy.modelled.memory.bytes, chip->modelled.memory.bytes, chip->lent.memory.length);
    memcpy(copy.modelled.holding.bytes, chip->modelled.holding.bytes, LQ_HOLDING_SIZE);
    memcpy(copy.modelled.outgoing.bytes, chip->modelled.outgoing.bytes, LQ_OUTGOING_SIZE);
    copy.model = chip->model;
    return copy;
}

/* Of memory at most the counter has moved. The record and the holding area have if the frame is held, and else not. */
static void check_moved(struct chip *chip, const struct chip *before, unsigned counter, bool held)
{
    if (counter != 0) {
        check_word(chip, SCB + counter, 0);
        put_word(chip, SCB + counter, 0xFFFF);
    }
    check_bytes("memory", chip->lent.memory.bytes, before->lent.memory.bytes, before->lent.memory.length);
    check_bytes("the outgoing area", chip->lent.outgoing.bytes, before->lent.outgoing.bytes, LQ_OUTGOING_SIZE);
    if (held) {
        CHECK(memcmp(chip->lent.record.bytes, before->lent.record.bytes, LQ_RECORD_SIZE) != 0, "no frame is held");
        return;
    }
    check_bytes("the record", chip->lent.record.bytes, before->lent.record.bytes, LQ_RECORD_SIZE);
    check_bytes("the holding area", chip->lent.holding.bytes, before->lent.holding.bytes, LQ_HOLDING_SIZE);
}

static void check_arrival(const struct line *line, const struct chip *before)
{
    struct chip chip = copy_of(before);
    unsigned reason = REASONS[line->in->state][sort_of(line)];
    begin_case(line->in->name);
    struct answer found = call(&chip, arrival_of(line->to, line->length, line->verdict));
    check_answer(found, LQ_ACCEPTED, 0, false);
    CHECK(found.reason == reason, "%lu bytes to %s, verdict %lu, save-bad %d: the reason is %u, expected %u",
          (unsigned long)line->length, line->to->name, (unsigned long)line->verdict, line->saving, found.reason,
          reason);
    check_moved(&chip, before, counter_of(line), line->in->state == READY && reason == LQ_NOT_DROPPED);
    check_reason(turn(&chip), LQ_NOT_DROPPED);
    chip_free(&chip);
}

/* An arrival that is refused says no reason, whichever it would have had: 1, 4, and 3 of an overlong frame. */
static void check_refused(const struct address *to, size_t length, struct chip *chip)
{
    struct areas other = chip->lent;
    other.memory = area_of("memory", LQ_MEMORY_MIN + 1);
    uint64_t answer = call_archive(&other, arrival_of(to, length, LQ_VERDICT_CRC));
    CHECK(answer == LQ_REFUSED_MEMORY, "with such a memory the number is %u", lq_number(answer));
    area_free(&other.memory);
    answer = call_archive(&chip->lent, arrival_of(to, LQ_FRAME_MAX + 1, LQ_VERDICT_CRC));
    CHECK(answer == LQ_REFUSED_OVERLONG, "of an overlong frame the number is %u", lq_number(answer));
    chip->lent.record.bytes[LQ_RECORD_VERSION_AT]++;
    answer = call_archive(&chip->lent, arrival_of(to, length, LQ_VERDICT_CRC));
    CHECK(answer == LQ_REFUSED_FOREIGN, "with such a record the number is %u", lq_number(answer));
    chip->lent.record.bytes[LQ_RECORD_VERSION_AT]--;
}

static void arrivals_in(const struct situation *in, const struct address *to, bool saving)
{
    begin_case(in->name);
    struct chip chip = chip_in(in, to->filter, saving);
    for (size_t l = 0; l < COUNT_OF(LENGTHS); l++) {
        for (size_t v = 0; v < COUNT_OF(VERDICTS); v++) {
            struct line line = {in, to, saving, LENGTHS[l], VERDICTS[v]};
            check_arrival(&line, &chip);
        }
        check_refused(to, LENGTHS[l], &chip);
    }
    turns(&chip, 4);
    chip_free(&chip);
}

static void sweep(void)
{
    for (size_t s = 0; s < COUNT_OF(SITUATIONS); s++)
        for (size_t a = 0; a < COUNT_OF(ADDRESSES); a++) {
            arrivals_in(&SITUATIONS[s], &ADDRESSES[a], false);
            arrivals_in(&SITUATIONS[s], &ADDRESSES[a], true);
        }
}

/* ---- a chip that is not initialised: Idle, with the settings of reset and no SCB, so nothing moves at all ---- */

static void check_fresh(const char *name, struct chip fresh)
{
    for (size_t a = 0; a < COUNT_OF(ADDRESSES); a++)
        for (size_t l = 0; l < COUNT_OF(LENGTHS); l++)
            for (size_t v = 0; v < COUNT_OF(VERDICTS); v++) {
                struct chip chip = copy_of(&fresh);
                bool everyone = memcmp(ADDRESSES[a].to, EVERYONE, 6) == 0;
                unsigned reason = LENGTHS[l] < HEADER_AFTER_RESET ? LQ_DROPPED_TOO_FEW
                                : !everyone                    ? LQ_DROPPED_NO_MATCH
                                                               : LQ_DROPPED_IDLE;
                begin_case(name);
                check_reason(call(&chip, arrival_of(&ADDRESSES[a], LENGTHS[l], VERDICTS[v])), reason);
                check_moved(&chip, &fresh, 0, false);
                chip_free(&chip);
            }
    chip_free(&fresh);
}

static void fresh_chips(void)
{
    struct chip fresh = chip_of(LQ_MEMORY_MIN);
    put_scp(&fresh, ISCP, 0, SCB);
    check_fresh("before the first attention", fresh);
    struct chip attended = chip_in(&SITUATIONS[COUNT_OF(SITUATIONS) - 1], LQ_PROMISCUOUS, true);
    check_answer(attend(&attended, LQ_RESET), LQ_ACCEPTED, 0, false);
    check_fresh("after a resetting attention", attended);
    struct chip reset = chip_in(&SITUATIONS[COUNT_OF(SITUATIONS) - 1], LQ_PROMISCUOUS, true);
    check_answer(call(&reset, RESET_CALL), LQ_ACCEPTED, 0, false);
    check_fresh("after reset", reset);
}

/* ---- a reason is said once: no answer after it has one, of whatever call ---- */

static void check_said_once(const struct chip *before, const struct address *to, size_t length)
{
    const struct call after[] = {ATTENTION_CALL, TURN_CALL(0xFFFF), RUN_CALL(0, 0), RUN_CALL(0, 3), RESET_CALL};
    for (size_t i = 0; i < COUNT_OF(after); i++) {
        struct chip chip = copy_of(before);
        begin_case("no reason in the answer after a dropped frame's");
        call(&chip, arrival_of(to, length, LQ_VERDICT_CRC));
        check_reason(call(&chip, after[i]), LQ_NOT_DROPPED);
        chip_free(&chip);
    }
}

static void said_once(void)
{
    for (size_t s = 0; s < COUNT_OF(SITUATIONS); s++) {
        struct chip chip = chip_in(&SITUATIONS[s], 0, false);
        for (size_t a = 0; a < COUNT_OF(ADDRESSES); a++) {
            check_said_once(&chip, &ADDRESSES[a], HEADER_AFTER_RESET - 1);
            check_said_once(&chip, &ADDRESSES[a], WHOLE);
        }
        chip_free(&chip);
    }
}

/* ---- told in one go ---- */

static const struct worked_case cases[] = {
    /* every reason once, as a host may meet them; those of verdicts with their counters; and the frames between them
       that have none, held and lost */
    CASE("every reason", WORDS({0x62, 0x8000}, DESCRIPTORS, BUFFER_AT(0xA0, 0xAA, 0xC0, 46), BOARD),
         DROPPED(LQ_DROPPED_IDLE, BROADCAST(46), GOOD, NOTHING),
         INITIALISED,
         DROPPED(LQ_DROPPED_IDLE, BROADCAST(46), CRC, WORDS(COUNTERS(0, 0, 0, 0))),
         RECEIVING,
         DROPPED(LQ_DROPPED_TOO_FEW, ONES(13), GOOD, WORDS(COUNTERS(0, 0, 0, 0))),
         DROPPED(LQ_DROPPED_NO_MATCH, TO(2, 3, 4, 5, 6, 8), CRC, WORDS(COUNTERS(0, 0, 0, 0))),
         DROPPED(LQ_DROPPED_BAD, BROADCAST(45), GOOD, WORDS(COUNTERS(0, 0, 0, 0))),
         DROPPED(LQ_DROPPED_BAD, BROADCAST(46), CRC, WORDS(COUNTERS(1, 0, 0, 0))),
         DROPPED(LQ_DROPPED_BAD, BROADCAST(46), MISALIGNED, WORDS(COUNTERS(1, 1, 0, 0))),
         RAISING(0x0030, WORDS({0x30, 0x1010})),
         DROPPED(LQ_DROPPED_SUSPENDED, BROADCAST(46), GOOD, WORDS(COUNTERS(1, 1, 0, 0))),
         DROPPED(LQ_DROPPED_SUSPENDED, BROADCAST(45), CRC, WORDS(COUNTERS(1, 1, 0, 0))),
         ATTENDED(0xF020, WORDS({0x30, 0x0040})),
         DROPPED(LQ_DROPPED_NO_MATCH, TO(2, 3, 4, 5, 6, 8), GOOD, WORDS(COUNTERS(1, 1, 0, 0))),
         CAME(BROADCAST(46), GOOD, WORDS(COUNTERS(1, 1, 0, 0))),
         CAME(BROADCAST(46), CRC, WORDS(COUNTERS(1, 1, 0, 1))),
         DROPPED(LQ_DROPPED_NO_MATCH, TO(2, 3, 4, 5, 6, 8), GOOD, WORDS(COUNTERS(1, 1, 0, 1))),
         TURNED_TIMES(2, NOTHING),
         SETTLING(WORDS({0x60, 0xA000}, {0x30, 0x5020})),
         CAME(BROADCAST(46), GOOD, WORDS(COUNTERS(1, 1, 1, 1))),
         DROPPED(LQ_DROPPED_BAD, BROADCAST(46), CRC, WORDS(COUNTERS(2, 1, 1, 1))),
         DROPPED(LQ_DROPPED_BAD, BROADCAST(45), CRC, WORDS(COUNTERS(2, 1, 1, 1))),
         ATTENDED(0xF040, WORDS({0x30, 0x0000})),
         DROPPED(LQ_DROPPED_IDLE, BROADCAST(46), GOOD, WORDS(COUNTERS(2, 1, 1, 1)))),
};

void reasons(void)
{
    run_cases(cases, COUNT_OF(cases));
    fresh_chips();
    sweep();
    said_once();
}
