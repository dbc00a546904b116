/* P1 to P8 of document 01, "Cases at the edges". Its unmarked cases there are in commands.c. */
#include "board.h"

/* a Transmit with EL of four data bytes, 11h 22h 33h 44h, at C0h */
#define SENDING \
    {0x42, 0x8004}, {0x46, 0xA0}, {0x48, 0x0201}, {0x4E, 0x0900}, {0xA0, 0x8004}, {0xA2, 0xFFFF}, {0xA4, 0xC0}, \
    {0xC0, 0x2211}, {0xC2, 0x4433}

/* (P7) report 0003h: A003h, and the frame's length; 0020h: 8020h, nothing sent */
#define P7(report, length, status) \
    CASE("P7", WORDS(SENDING, BOARD), \
         INITIALISED, \
         COMMANDING, \
         TURNED(WORDS({0x40, 0x4000})), \
         TURNED(WORDS({0x40, 0x4000}, {0xA0, 0x8004})), \
         ENDS(report, length, WORDS({0x40, status}, {0x30, 0x2000}), WORDS({0, 0x0201}, {6, 0xFFFF}, \
              {12, 0x0900}, {14, 0x2211}, {16, 0x4433}, {18, 0})))

static const struct worked_case cases[] = {
    /* (P1) after initialisation A000h: BUSY is cleared, the command too */
    CASE("P1", WORDS({0x32, 0xFFFF}, BOARD),
         STEP(NOTHING, ATTENTION, EDGE, WORDS({0x30, 0xA000}, {0x32, 0}, {0x20, 0}), HIGH)),

    /* (P2) then A100h, one NOP with A000h as command: 0200h, after two turns A000h in SCB and block */
    CASE("P2", WORDS({0x42, 0xA000}, BOARD),
         INITIALISED,
         STEP(WORDS({0x32, 0xA100}, {0x34, 0x40}), ATTENTION, QUIET, WORDS({0x30, 0x0200}, {0x32, 0}, {0x40, 0}),
              LOW),
         TURNED(WORDS({0x40, 0x4000}, {0x30, 0x0200})),
         STEP(NOTHING, TURN(0), EDGE, WORDS({0x40, 0xA000}, {0x30, 0xA000}), HIGH)),

    /* (P3) 46 data bytes into sizes 20, 20, 20: 4014h, 4014h, C006h, five turns. The descriptor is 4000h after
       the fourth, complete after the fifth */
    CASE("P3",
         WORDS(DESCRIPTORS, BUFFER_AT(0xA0, 0xAA, 0xC0, 20), BUFFER_AT(0xAA, 0xB4, 0xD4, 20),
               BUFFER_AT(0xB4, 0x1234, 0xE8, 20), BOARD),
         INITIALISED,
         RECEIVING,
         CAME(BROADCAST(46), GOOD, WORDS({0x30, 0x0040}, {0x60, 0})),
         TURNED(WORDS({0x60, 0x4000}, {0xA0, 0})),
         TURNED(WORDS({0x60, 0x4000}, {0xA0, 0x4014}, {0xAA, 0}, {0xC0, 0x0201}, {0xD2, 0x1413}, {0xD4, 0})),
         TURNED(WORDS({0x60, 0x4000}, {0xAA, 0x4014}, {0xB4, 0}, {0xD4, 0x1615})),
         TURNED(WORDS({0x60, 0x4000}, {0xB4, 0xC006}, {0xE8, 0x2A29}, {0xEC, 0x2E2D}, {0xEE, 0}, {0x30, 0x0040})),
         STEP(NOTHING, TURN(0), EDGE, WORDS({0x60, 0xA000}, {0x66, 0xA0}, {0x68, 0xFFFF}, {0x6E, 0x0302},
              {0x74, 0x0008}, {0x86, 0x1234}, {0x30, 0x4040}), HIGH)),

    /* (P4) into 46: C02Eh, no second buffer */
    CASE("P4",
         WORDS(DESCRIPTORS, BUFFER_AT(0xA0, 0xAA, 0xC0, 46), {0xAA, 0x1234}, BUFFER_AT(0xAA, 0xB4, 0xF0, 46),
               BOARD),
         INITIALISED,
         RECEIVING,
         CAME(BROADCAST(46), GOOD, NOTHING),
         TURNED(WORDS({0x60, 0x4000})),
         TURNED(WORDS({0x60, 0x4000}, {0xA0, 0xC02E}, {0xEC, 0x2E2D}, {0xAA, 0x1234})),
         STEP(NOTHING, TURN(0), EDGE, WORDS({0x60, 0xA000}, {0x86, 0xAA}, {0xAA, 0x1234}, {0xAC, 0xB4},
              {0xAE, 0xF0}, {0xB2, 46}, {0xF0, 0}, {0x30, 0x4040}), HIGH)),

    /* (P5) 59 bytes short, 60 not: with save-bad set by Configure 8080h and A000h, neither with a counter */
    CASE("P5 saved",
         WORDS({0x42, 0x8002}, {0x46, 0x0804}, {0x48, 0x0680}, DESCRIPTORS, BUFFER_AT(0xA0, 0xAA, 0xC0, 46),
               BUFFER_AT(0xAA, 0xB4, 0xF0, 46), BOARD),
         INITIALISED,
         COMMANDING,
         TURNED(WORDS({0x40, 0x4000})),
         STEP(NOTHING, TURN(0), EDGE, WORDS({0x40, 0xA000}, {0x30, 0x2000}), HIGH),
         RECEIVING,
         CAME(BROADCAST(45), GOOD, WORDS({0x38, 0}, {0x3A, 0}, {0x3C, 0}, {0x3E, 0})),
         TURNED(WORDS({0x60, 0x4000})),
         TURNED(WORDS({0xA0, 0xC02D})),
         STEP(NOTHING, TURN(0), EDGE, WORDS({0x60, 0x8080}, {0x86, 0xAA}, {0x30, 0x4040}, {0x38, 0}, {0x3A, 0},
              {0x3C, 0}, {0x3E, 0}), HIGH),
         CAME(BROADCAST(46), GOOD, NOTHING),
         TURNED(WORDS({0x80, 0x4000})),
         TURNED(WORDS({0xAA, 0xC02E})),
         STEP(NOTHING, TURN(0), EDGE, WORDS({0x80, 0xA000}, {0x30, 0x4040}), HIGH)),

    /* (P5) and not set: 59 bytes leave the descriptor alone, and no turn finds work; 60 are stored */
    CASE("P5 dropped", WORDS(DESCRIPTORS, BUFFER_AT(0xA0, 0xAA, 0xC0, 46), BOARD),
         INITIALISED,
         RECEIVING,
         DROPPED(LQ_DROPPED_BAD, BROADCAST(45), GOOD, WORDS({0x60, 0}, {0x38, 0}, {0x3A, 0}, {0x3C, 0}, {0x3E, 0})),
         TURNED(WORDS({0x60, 0}, {0xA0, 0}, {0x30, 0x0040})),
         CAME(BROADCAST(46), GOOD, NOTHING),
         TURNED(WORDS({0x60, 0x4000})),
         TURNED(WORDS({0xA0, 0xC02E})),
         STEP(NOTHING, TURN(0), EDGE, WORDS({0x60, 0xA000}, {0x30, 0x4040}), HIGH)),

    /* (P6) counter FFFFh to 0000h: CRCERRS, ALNERRS, OVRNERRS, RSCERRS, each alone */
    CASE("P6",
         WORDS({0x38, 0xFFFF}, {0x3A, 0xFFFF}, {0x3C, 0xFFFF}, {0x3E, 0xFFFF}, {0x62, 0x8000}, DESCRIPTORS,
               BUFFER_AT(0xA0, 0xAA, 0xC0, 46), BOARD),
         INITIALISED,
         RECEIVING,
         DROPPED(LQ_DROPPED_BAD, BROADCAST(46), CRC,
                 WORDS({0x38, 0}, {0x3A, 0xFFFF}, {0x3C, 0xFFFF}, {0x3E, 0xFFFF})),
         DROPPED(LQ_DROPPED_BAD, BROADCAST(46), MISALIGNED,
                 WORDS({0x38, 0}, {0x3A, 0}, {0x3C, 0xFFFF}, {0x3E, 0xFFFF})),
         CAME(BROADCAST(46), GOOD, WORDS({0x38, 0}, {0x3A, 0}, {0x3C, 0xFFFF}, {0x3E, 0xFFFF})),
         CAME(BROADCAST(46), GOOD, WORDS({0x38, 0}, {0x3A, 0}, {0x3C, 0xFFFF}, {0x3E, 0})),
         TURNED(NOTHING),
         TURNED(NOTHING),
         STEP(NOTHING, TURN(0), EDGE, WORDS({0x30, 0x5020}), HIGH),
         CAME(BROADCAST(46), GOOD, WORDS({0x38, 0}, {0x3A, 0}, {0x3C, 0}, {0x3E, 0}))),
    P7(0x0003, 18, 0xA003),
    P7(0x0020, 0, 0x8020),

    /* (P8) descriptor with EL, all acknowledged before: SCB 5020h */
    CASE("P8", WORDS({0x62, 0x8000}, DESCRIPTORS, BUFFER_AT(0xA0, 0xAA, 0xC0, 46), BOARD),
         INITIALISED,
         RECEIVING,
         CAME(BROADCAST(46), GOOD, NOTHING),
         TURNED(WORDS({0x60, 0x4000})),
         TURNED(WORDS({0xA0, 0xC02E})),
         STEP(NOTHING, TURN(0), EDGE, WORDS({0x60, 0xA000}, {0x86, 0}, {0x30, 0x5020}, {0x3C, 0}), HIGH)),
};

void papers(void)
{
    run_cases(cases, COUNT_OF(cases));
}
