/*
 * The control table: every code of CUC and RUC together, in every state and phase of both units, with and without a
 * waiting SUSPEND. What must come of it is said here once more, by document 01's table; the model is beside it as
 * always. Afterwards some turns and a frame show where the units went. Aborts at every phase are among these.
 */
#include "board.h"
#include "setup.h"

enum { FIRST = 0x1C0, SECOND = 0x1E0, BLOCK = 0x200, NEXT_BLOCK = 0x240, CBL_BLOCK = 0x260, TBD = 0x280 };
enum { FD = 0x300, NEXT_FD = 0x320, RFA_FD = 0x340, RBD = 0x380 };

/* ---- the states, by what leads to them ---- */

struct cu_case {
    const char *name;
    unsigned command;  /* of the block */
    unsigned buffer;   /* +6 of a Transmit */
    unsigned turns;    /* that the block has had */
    unsigned code;     /* given after them */
    unsigned state;    /* what the SCB shows then */
    bool begun;
};

static const struct cu_case CU_CASES[] = {
    {"Idle", 0, 0, 0, LQ_ABORT, LQ_CUS_IDLE, false},
    {"Suspended", 0, 0, 0, LQ_SUSPEND, LQ_CUS_SUSPENDED, false},
    {"Active, not begun", 0, 0, 0, 0, LQ_CUS_ACTIVE, false},
    {"NOP begun", LQ_CMD_NOP, 0, 1, 0, LQ_CUS_ACTIVE, true},
    {"NOP begun, SUSPEND waits", LQ_CMD_NOP, 0, 1, LQ_SUSPEND, LQ_CUS_ACTIVE, true},
    {"IA-Setup begun", LQ_CMD_IA_SETUP | LQ_I, 0, 1, 0, LQ_CUS_ACTIVE, true},
    {"Configure begun", LQ_CMD_CONFIGURE | LQ_EL, 0, 1, 0, LQ_CUS_ACTIVE, true},
    {"MC-Setup begun", LQ_CMD_MC_SETUP | LQ_S, 0, 1, 0, LQ_CUS_ACTIVE, true},
    {"TDR begun", LQ_CMD_TDR | LQ_I, 0, 1, 0, LQ_CUS_ACTIVE, true},
    {"Dump begun", LQ_CMD_DUMP, 0, 1, 0, LQ_CUS_ACTIVE, true},
    {"Diagnose begun", LQ_CMD_DIAGNOSE, 0, 1, 0, LQ_CUS_ACTIVE, true},
    {"Transmit begun", LQ_CMD_TRANSMIT | LQ_I, TBD, 1, 0, LQ_CUS_ACTIVE, true},
    {"Transmit in its buffers", LQ_CMD_TRANSMIT | LQ_I, TBD, 2, 0, LQ_CUS_ACTIVE, true},
    {"Transmit in its buffers, SUSPEND waits", LQ_CMD_TRANSMIT, TBD, 2, LQ_SUSPEND, LQ_CUS_ACTIVE, true},
    {"Transmit before its end", LQ_CMD_TRANSMIT | LQ_EL, TBD, 3, 0, LQ_CUS_ACTIVE, true},
    {"Transmit of no buffers before its end", LQ_CMD_TRANSMIT, LQ_NONE, 1, LQ_SUSPEND, LQ_CUS_ACTIVE, true},
    {"Transmit that failed before its end", LQ_CMD_TRANSMIT | LQ_S, TBD + 32, 2, 0, LQ_CUS_ACTIVE, true},
};

struct ru_case {
    const char *name;
    unsigned command; /* of the frame descriptor */
    unsigned buffer;  /* its +6 */
    bool frame;       /* one arrives */
    unsigned turns;   /* that it has had */
    unsigned code;
    unsigned state;
    bool begun;
};

static const struct ru_case RU_CASES[] = {
    {"Idle", 0, 0, false, 0, LQ_ABORT, LQ_RUS_IDLE, false},
    {"Suspended", 0, 0, false, 0, LQ_SUSPEND, LQ_RUS_SUSPENDED, false},
    {"No Resources", 0, LQ_NONE, true, 2, 0, LQ_RUS_NO_RESOURCES, false},
    {"Ready", 0, RBD, false, 0, 0, LQ_RUS_READY, false},
    {"held", 0, RBD, true, 0, 0, LQ_RUS_READY, false},
    {"held, SUSPEND waits", 0, RBD, true, 0, LQ_SUSPEND, LQ_RUS_READY, false},
    {"begun", LQ_S, RBD, true, 1, 0, LQ_RUS_READY, true},
    {"in its buffers", 0, RBD, true, 2, 0, LQ_RUS_READY, true},
    {"in its buffers, SUSPEND waits", 0, RBD, true, 2, LQ_SUSPEND, LQ_RUS_READY, true},
    {"before its end", LQ_EL, RBD, true, 3, 0, LQ_RUS_READY, true},
    {"before its end, SUSPEND waits", 0, RBD, true, 3, LQ_SUSPEND, LQ_RUS_READY, true},
    {"out of buffers before its end", 0, LQ_NONE, true, 1, LQ_SUSPEND, LQ_RUS_READY, true},
};

static void put_structures(struct chip *chip, const struct cu_case *cu, const struct ru_case *ru)
{
    put_block(chip, FIRST, LQ_CMD_NOP, SECOND);
    put_block(chip, SECOND, LQ_CMD_NOP, BLOCK);
    put_transmit(chip, BLOCK, cu->command, NEXT_BLOCK, cu->buffer);
    put_word(chip, BLOCK + LQ_CB_COMMAND, cu->command);
    put_block(chip, NEXT_BLOCK, LQ_CMD_TDR | LQ_I, NEXT_BLOCK);
    put_block(chip, CBL_BLOCK, LQ_CMD_NOP | LQ_S, NEXT_BLOCK);
    put_tbd(chip, TBD, 20, TBD + 16, 0x1000);
    put_tbd(chip, TBD + 16, 20 | LQ_EOF, LQ_NONE, 0x1000);
    put_tbd(chip, TBD + 32, 20, LQ_NONE, 0x1000);
    put_fd(chip, FD, ru->command, NEXT_FD, ru->buffer);
    put_fd(chip, NEXT_FD, 0, NEXT_FD, RBD);
    put_fd(chip, RFA_FD, LQ_EL, NEXT_FD, RBD);
    put_rbd(chip, RBD, RBD + 16, 0x1100, 30);
    put_rbd(chip, RBD + 16, RBD, 0x1200, 100);
}

/* The block is behind two NOPs. They give the command unit turns to spend while the frame has its own: the units are
   served by turns, the receive unit first, as the command unit was served last. */
static struct chip chip_in(const struct cu_case *cu, const struct ru_case *ru)
{
    unsigned together = ru->turns == 0 ? 0 : 2 * ru->turns - 1;
    unsigned alone = 4 + cu->turns - together / 2;
    struct chip chip = ready_chip(LQ_MEMORY_MIN);
    put_structures(&chip, cu, ru);
    start_ru(&chip, FD);
    start_cu(&chip, FIRST);
    turns(&chip, alone);
    if (ru->frame) arrive(&chip, EVERYONE, 64, 0);
    turns(&chip, together);
    attend(&chip, LQ_CUC(cu->code) | LQ_RUC(ru->code));
    CHECK(LQ_CUS(status(&chip)) == cu->state, "the command unit is not in its state, %s", cu->name);
    CHECK(LQ_RUS(status(&chip)) == ru->state, "the receive unit is not in its state, %s", ru->name);
    CHECK((word_of(&chip, BLOCK) == LQ_B) == cu->begun, "the block is not as it should be, %s", cu->name);
    CHECK((word_of(&chip, FD) == LQ_B) == ru->begun, "the frame descriptor is not as it should be, %s", ru->name);
    return chip;
}

/* ---- what must come of a code ---- */

static unsigned cu_after(const struct cu_case *cu, unsigned code)
{
    switch (code) {
    case LQ_START: return LQ_CUS_ACTIVE;
    case LQ_RESUME: return cu->state == LQ_CUS_SUSPENDED ? LQ_CUS_ACTIVE : cu->state;
    case LQ_SUSPEND: return cu->state == LQ_CUS_ACTIVE && !cu->begun ? LQ_CUS_SUSPENDED : cu->state;
    case LQ_ABORT: return LQ_CUS_IDLE;
    default: return cu->state;
    }
}

static bool is_held(const struct ru_case *ru)
{
    return ru->frame && ru->state == LQ_RUS_READY;
}

static unsigned ru_after(const struct ru_case *ru, unsigned code)
{
    switch (code) {
    case LQ_START: return LQ_RUS_READY;
    case LQ_RESUME: return ru->state == LQ_RUS_SUSPENDED ? LQ_RUS_READY : ru->state;
    case LQ_SUSPEND: return ru->state == LQ_RUS_READY && !is_held(ru) ? LQ_RUS_SUSPENDED : ru->state;
    case LQ_ABORT: return LQ_RUS_IDLE;
    default: return ru->state;
    }
}

/* "Leaving Active raises CNA, leaving Ready raises RNR" */
static unsigned events_of(const struct cu_case *cu, unsigned cus, const struct ru_case *ru, unsigned rus)
{
    unsigned cna = cu->state == LQ_CUS_ACTIVE && cus != LQ_CUS_ACTIVE ? LQ_CNA : 0;
    unsigned rnr = ru->state == LQ_RUS_READY && rus != LQ_RUS_READY ? LQ_RNR : 0;
    return cna | rnr;
}

/* the attention with both codes and every event acknowledged, and what shows at once */
static void obey(struct chip *chip, const struct cu_case *cu, const struct ru_case *ru, unsigned cuc, unsigned ruc)
{
    unsigned cus = cu_after(cu, cuc), rus = ru_after(ru, ruc);
    unsigned events = events_of(cu, cus, ru, rus);
    unsigned block = word_of(chip, BLOCK), descriptor = word_of(chip, FD);
    put_word(chip, SCB + LQ_SCB_CBL, CBL_BLOCK);
    put_word(chip, SCB + LQ_SCB_RFA, RFA_FD);
    struct answer answer = attend(chip, LQ_EVENTS | LQ_CUC(cuc) | LQ_RUC(ruc));
    check_answer(answer, LQ_ACCEPTED, 0, events != 0);
    check_word(chip, SCB + LQ_SCB_STATUS, events | cus << 8 | rus << 4);
    check_word(chip, SCB + LQ_SCB_COMMAND, 0);
    check_word(chip, BLOCK, cuc == LQ_ABORT && cu->begun ? LQ_C | LQ_A : block);
    check_word(chip, FD, ruc == LQ_ABORT && ru->begun ? 0 : descriptor);
}

static void codes_in(const struct cu_case *cu, const struct ru_case *ru)
{
    for (unsigned codes = 0; codes < 64; codes++) {
        begin_case(cu->name);
        struct chip chip = chip_in(cu, ru);
        obey(&chip, cu, ru, codes / 8, codes % 8);
        turns(&chip, 3);
        arrive(&chip, EVERYONE, 64, 0);
        turns(&chip, 9);
        chip_free(&chip);
    }
}

/* ---- worked cases: an attention's edge is any event that it leaves set, each alone; what forgets a SUSPEND ---- */

static const struct worked_case cases[] = {
    CASE("an attention that leaves CX", WORDS({0x42, 0x2000}, {0x44, 0x50}, BOARD),
         INITIALISED,
         COMMANDING,
         TURNED(NOTHING),
         SETTLING(WORDS({0x30, 0x8200})),
         RAISING(0x0000, WORDS({0x30, 0x8200})),
         RAISING(0x7000, WORDS({0x30, 0x8200})),
         STEP(WORDS({0x32, 0x8000}), ATTENTION, QUIET, WORDS({0x30, 0x0200}), LOW)),

    CASE("an attention that leaves FR", WORDS(DESCRIPTORS, BUFFER_AT(0xA0, 0xAA, 0xC0, 46), BOARD),
         INITIALISED,
         RECEIVING,
         CAME(BROADCAST(46), GOOD, NOTHING),
         TURNED_TIMES(2, NOTHING),
         SETTLING(WORDS({0x30, 0x4040})),
         RAISING(0x0000, WORDS({0x30, 0x4040})),
         RAISING(0xB000, WORDS({0x30, 0x4040})),
         STEP(WORDS({0x32, 0x4000}), ATTENTION, QUIET, WORDS({0x30, 0x0040}), LOW)),

    CASE("an attention that leaves CNA", WORDS(BOARD),
         INITIALISED,
         RAISING(0x8000, WORDS({0x30, 0x2000})),
         RAISING(0xD000, WORDS({0x30, 0x2000})),
         STEP(WORDS({0x32, 0x2000}), ATTENTION, QUIET, WORDS({0x30, 0}), LOW)),

    CASE("an attention that leaves RNR", WORDS(BOARD),
         INITIALISED,
         RECEIVING,
         RAISING(0x0030, WORDS({0x30, 0x1010})),
         RAISING(0xE000, WORDS({0x30, 0x1010})),
         STEP(WORDS({0x32, 0x1000}), ATTENTION, QUIET, WORDS({0x30, 0x0010}), LOW)),

    CASE("No Resources forgets a waiting SUSPEND",
         WORDS({0x62, 0x8000}, DESCRIPTORS, BUFFER_AT(0xA0, 0xA0, 0xC0, 46), BOARD),
         INITIALISED,
         RECEIVING,
         CAME(BROADCAST(46), GOOD, NOTHING),
         ATTENDED(0x0030, WORDS({0x30, 0x0040})),
         TURNED_TIMES(2, NOTHING),
         SETTLING(WORDS({0x30, 0x5020})),
         STEP(WORDS({0x32, 0xF010}, {0x62, 0}), ATTENTION, QUIET, WORDS({0x30, 0x0040}), LOW),
         CAME(BROADCAST(46), GOOD, NOTHING),
         TURNED_TIMES(2, NOTHING),
         SETTLING(WORDS({0x30, 0x4040}))),

    CASE("aborts forget waiting SUSPENDs", WORDS({0x44, 0x40}, DESCRIPTORS, BUFFER_AT(0xA0, 0xA0, 0xC0, 46), BOARD),
         INITIALISED,
         WORKING,
         CAME(BROADCAST(46), GOOD, NOTHING),
         TURNED_TIMES(2, NOTHING),
         ATTENDED(0x0330, WORDS({0x30, 0x0240})),
         RAISING(0x0440, WORDS({0x30, 0x3000}, {0x40, 0x9000}, {0x60, 0})),
         WORKING,
         CAME(BROADCAST(46), GOOD, NOTHING),
         TURNED_TIMES(4, WORDS({0x30, 0x0240})),
         SETTLING(WORDS({0x40, 0xA000}, {0x60, 0xA000}, {0x30, 0x4240}))),
};

void control(void)
{
    run_cases(cases, COUNT_OF(cases));
    for (size_t c = 0; c < COUNT_OF(CU_CASES); c++)
        for (size_t r = 0; r < COUNT_OF(RU_CASES); r++) codes_in(&CU_CASES[c], &RU_CASES[r]);
}
