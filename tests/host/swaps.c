/* Document 01, "Readings that swap the columns": for each of them a case that the swap would fail. */
#include "board.h"

/* with a base of 10h the SCB is at 40h, and offset 90h is address A0h; the buffer is at C0h */
#define BASED STEP(NOTHING, ATTENTION, EDGE, WORDS({0x40, 0xA000}), HIGH)

#define FIVE {0x38, 5}, {0x3A, 5}, {0x3C, 5}, {0x3E, 5}

static const struct worked_case cases[] = {
    /* ---- Adding the base to a buffer's real address ---- */

    /* received bytes go to C0h: with the base added they would begin at D0h */
    CASE("base not added receiving",
         WORDS({0x74, 0x70}, {0x76, 0x90}, BUFFER_AT(0xA0, 0x9A, 0xC0, 46), BOARD_AT(0x10)),
         BASED,
         STEP(WORDS({0x42, 0xF010}, {0x46, 0x60}), ATTENTION, QUIET, WORDS({0x40, 0x0040}), LOW),
         CAME(BROADCAST(46), GOOD, NOTHING),
         TURNED(WORDS({0x70, 0x4000})),
         TURNED(WORDS({0xA0, 0xC02E}, {0xC0, 0x0201}, {0xD0, 0x1211}, {0xEC, 0x2E2D}, {0xEE, 0})),
         STEP(NOTHING, TURN(0), EDGE, WORDS({0x70, 0xA000}, {0x40, 0x4040}), HIGH)),

    /* bytes that are sent come from C0h: with the base added they would be those at D0h */
    CASE("base not added sending",
         WORDS({0x52, 0x8004}, {0x56, 0x90}, {0xA0, 0x8004}, {0xA4, 0xC0}, {0xC0, 0x2211}, {0xC2, 0x4433},
               {0xD0, 0x6655}, {0xD2, 0x8877}, BOARD_AT(0x10)),
         BASED,
         STEP(WORDS({0x42, 0xF100}, {0x44, 0x40}), ATTENTION, QUIET, WORDS({0x40, 0x0200}), LOW),
         TURNED(WORDS({0x50, 0x4000})),
         TURNED(NOTHING),
         ENDS(0, 18, WORDS({0x50, 0xA000}, {0x40, 0x2000}), WORDS({14, 0x2211}, {16, 0x4433}))),

    /* ---- Counting frames lost while Idle ---- */

    CASE("idle counts nothing", WORDS(FIVE, BOARD),
         INITIALISED,
         DROPPED(LQ_DROPPED_IDLE, BROADCAST(46), GOOD, WORDS(FIVE)),
         DROPPED(LQ_DROPPED_IDLE, BROADCAST(46), CRC, WORDS(FIVE)),
         DROPPED(LQ_DROPPED_IDLE, BROADCAST(46), MISALIGNED, WORDS(FIVE))),

    /* ---- Taking a link at begin ---- */

    /* the host changes a command's link after its begin: the new one is next */
    CASE("link at end of command", WORDS({0x44, 0x50}, {0x52, 0x8000}, {0x5A, 0x8000}, BOARD),
         INITIALISED,
         COMMANDING,
         TURNED(WORDS({0x40, 0x4000})),
         STEP(WORDS({0x44, 0x58}), TURN(0), QUIET, WORDS({0x40, 0xA000}), LOW),
         TURNED(WORDS({0x58, 0x4000}, {0x50, 0}))),

    /* and so for a frame descriptor: the next free offset goes to the new one */
    CASE("link at end of frame", WORDS(DESCRIPTORS, BUFFER_AT(0xA0, 0xAA, 0xC0, 46), BOARD),
         INITIALISED,
         RECEIVING,
         CAME(BROADCAST(46), GOOD, NOTHING),
         TURNED(WORDS({0x60, 0x4000})),
         TURNED(WORDS({0xA0, 0xC02E})),
         STEP(WORDS({0x64, 0x90}), TURN(0), EDGE, WORDS({0x60, 0xA000}, {0x86, 0}, {0x96, 0xAA}), HIGH)),

    /* ---- Clearing a counter at START ---- */

    CASE("start clears nothing", WORDS(FIVE, BOARD),
         INITIALISED,
         STEP(WORDS({0x32, 0xF110}, {0x34, 0x40}, {0x36, 0x60}), ATTENTION, QUIET, WORDS({0x30, 0x0240}, FIVE),
              LOW)),

    CASE("link of ones", WORDS({0x42, 0x2000}, {0x44, 0xFFFF}, {0x01, 0xA000}, BOARD),
         INITIALISED,
         COMMANDING,
         TURNED(WORDS({0x40, 0x4000})),
         STEP(NOTHING, TURN(0), EDGE, WORDS({0x40, 0xA000}, {0x30, 0x8200}), HIGH),
         TURNED(WORDS({0x1FFF, 0x4000}, {0x00, 0x0040})),
         STEP(NOTHING, TURN(0), EDGE, WORDS({0x1FFF, 0xA000}, {0x30, 0xA000}), HIGH)),

    CASE("units alternate",
         WORDS({0x44, 0x40}, DESCRIPTORS, BUFFER_AT(0xA0, 0xAA, 0xC0, 40), BUFFER_AT(0xAA, 0xB4, 0xF0, 40), BOARD),
         INITIALISED,
         STEP(WORDS({0x32, 0xF110}, {0x34, 0x40}, {0x36, 0x60}), ATTENTION, QUIET, WORDS({0x30, 0x0240}), LOW),
         CAME(BROADCAST(46), GOOD, NOTHING),
         TURNED(WORDS({0x60, 0x4000}, {0x40, 0})),
         TURNED(WORDS({0x60, 0x4000}, {0x40, 0x4000}, {0xA0, 0})),
         TURNED(WORDS({0xA0, 0x4028}, {0x40, 0x4000})),
         TURNED(WORDS({0xA0, 0x4028}, {0x40, 0xA000}, {0xAA, 0})),
         TURNED(WORDS({0xAA, 0xC006}, {0x40, 0xA000})),
         TURNED(WORDS({0x60, 0x4000}, {0x40, 0x4000})),
         STEP(NOTHING, TURN(0), EDGE, WORDS({0x60, 0xA000}, {0x40, 0x4000}, {0x30, 0x4240}), HIGH),
         STEP(NOTHING, TURN(0), QUIET, WORDS({0x40, 0xA000}), HIGH)),
};

void swaps(void)
{
    run_cases(cases, COUNT_OF(cases));
}
