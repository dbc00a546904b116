/* Points of document 01 that could be read two ways: each case tells the reading that was taken
   (docs/DECISIONS.md) from the other. */
#include "board.h"

/* a Transmit with no buffer: two turns, the header alone. Report FFFFh: 86EFh, nothing sent; 0100h: A000h,
   sent */
#define BARE_TRANSMIT(report, length, status) \
    CASE("bare transmit", WORDS({0x42, 0x8004}, {0x46, 0xFFFF}, BOARD), \
         INITIALISED, \
         COMMANDING, \
         TURNED(NOTHING), \
         ENDS(report, length, WORDS({0x40, status}, {0x30, 0x2000}), NOTHING))

/* out of buffers, saved: bit 9 and FR, and RSCERRS too; of a CRC-bad frame bit 11 as well, and CRCERRS at
   its arrival alone */
#define LACKING_SAVED(verdict, status, crcerrs, rscerrs) \
    CASE("lacking saved", WORDS(SAVING, DESCRIPTORS, BUFFER_AT(0xA0, 0xAA, 0xC0, 0x8014), BOARD), \
         CONFIGURED, \
         RECEIVING, \
         CAME(BROADCAST(46), verdict, WORDS({0x38, crcerrs}, {0x3C, 0})), \
         TURNED(NOTHING), \
         TURNED(WORDS({0xA0, 0x4014})), \
         SETTLING(WORDS({0x60, status}, {0x68, 0xFFFF}, {0x30, 0x5020}, {0x38, crcerrs}, {0x3C, rscerrs})))

/* no data: two turns, FFFFh at +6, and the offset read at begin goes on. In a ring of one it stands there
   again at the end */
#define NO_DATA(link, ...) \
    CASE("no data", WORDS({0x42, 0x8002}, {0x46, 0x000C}, {0x48, 0x0600}, {0x64, link}, {0x66, 0xA0}, BOARD), \
         CONFIGURED, \
         RECEIVING, \
         CAME(BROADCAST(0), GOOD, NOTHING), \
         TURNED(NOTHING), \
         SETTLING(WORDS({0x60, 0xA000}, {0x30, 0x4040}, __VA_ARGS__)))

/* a remainder is no address: of the second address, 03-02-00-00-00-00, the last byte is counted or not */
#define REMAINDER(count, descriptor, why) \
    CASE("remainder", WORDS({0x42, 0x8003}, {0x46, count}, {0x4E, 0x0203}, DESCRIPTORS, BOARD), \
         CONFIGURED, \
         RECEIVING, \
         DROPPED(why, TO(3, 2, 0, 0, 0, 0), GOOD, NOTHING), \
         TURNED(WORDS({0x60, descriptor})))

static const struct worked_case cases[] = {
    /* all reads, then BUSY, status, command: with the SCB at 1Fh its status covers BUSY */
    CASE("order at first", WORDS({8188, 0x20}, {0x20, 1}, {0x22, 0x1F}),
         STEP(NOTHING, ATTENTION, EDGE, WORDS({0x1F, 0xA000}, {0x21, 0}), HIGH)),

    /* it obeys neither acknowledgement nor RESET, and BUSY is not tested */
    CASE("obeys nothing", WORDS({0x32, 0x8190}, BOARD, {0x20, 0xAB00}),
         STEP(NOTHING, ATTENTION, EDGE, WORDS({0x30, 0xA000}, {0x32, 0}, {0x20, 0xAB00}), HIGH),
         TURNED(WORDS({0x30, 0xA000}))),

    /* before it a frame is dropped, no counter moves, and a turn finds no work. The unit is Idle, which is told after
       length and match */
    CASE("nothing before", WORDS(BOARD),
         DROPPED(LQ_DROPPED_TOO_FEW, TWOS(13), GOOD, NOTHING),
         DROPPED(LQ_DROPPED_NO_MATCH, ONES_AFTER(2, 59), GOOD, NOTHING),
         DROPPED(LQ_DROPPED_IDLE, BROADCAST(46), GOOD, WORDS({0x0C, 0}, {0x3C, 0})),
         TURNED(WORDS({0x30, 0})),
         INITIALISED),

    /* edge: any event left set */
    CASE("edges", WORDS(BOARD),
         INITIALISED,
         RAISING(0x0000, WORDS({0x30, 0xA000})),
         ATTENDED(0xF000, WORDS({0x30, 0})),
         ATTENDED(0x0000, WORDS({0x30, 0}))),

    /* the status is kept in the record: what the host writes over it is not read */
    CASE("status is kept", WORDS(BOARD),
         INITIALISED,
         STEP(WORDS({0x30, 0}, {0x32, 0}), ATTENTION, EDGE, WORDS({0x30, 0xA000}), HIGH)),

    /* CUC before RUC: 9000h, written over the RFA offset, is where the receive unit starts */
    CASE("command unit first", WORDS(BOARD),
         INITIALISED,
         STEP(WORDS({0x32, 0xF100}, {0x34, 0x36}), ATTENTION, QUIET, WORDS({0x30, 0x0200}), LOW),
         TURNED(WORDS({0x36, 0x4000})),
         RAISING(0x0410, WORDS({0x36, 0x9000}, {0x30, 0x2040})),
         CAME(BROADCAST(46), GOOD, NOTHING),
         TURNED(WORDS({0x1000, 0x4000}))),

    /* acknowledgement before the codes: an event acknowledged and raised at once is set */
    CASE("acknowledged first", WORDS(BOARD),
         INITIALISED,
         COMMANDING,
         TURNED(WORDS({0x40, 0x4000})),
         RAISING(0x2400, WORDS({0x40, 0x9000}, {0x30, 0x2000}))),

    /* a resetting attention writes command 0 and nothing else, reports no edge, and the next attention is a
       first one */
    CASE("resetting", WORDS(BOARD),
         INITIALISED,
         COMMANDING,
         TURNED(WORDS({0x40, 0x4000})),
         STEP(WORDS({0x32, 0xF490}, {0x20, 1}), ATTENTION, QUIET, WORDS({0x30, 0x0200}, {0x32, 0}, {0x40, 0x4000}),
              LOW),
         TURNED(WORDS({0x40, 0x4000})),
         STEP(NOTHING, ATTENTION, EDGE, WORDS({0x30, 0xA000}, {0x20, 0}), HIGH)),

    /* a RESUME while a SUSPEND waits does nothing */
    CASE("resume while waiting", WORDS({0x44, 0x50}, BOARD),
         INITIALISED,
         COMMANDING,
         TURNED(WORDS({0x40, 0x4000})),
         ATTENDED(0x0300, WORDS({0x30, 0x0200})),
         ATTENDED(0x0200, WORDS({0x30, 0x0200})),
         SETTLING(WORDS({0x40, 0xA000}, {0x30, 0x2100}))),

    /* between commands SUSPEND acts at once, and RESUME begins the same block */
    CASE("suspend at once", WORDS(BOARD),
         INITIALISED,
         COMMANDING,
         RAISING(0x0300, WORDS({0x30, 0x2100}, {0x40, 0})),
         TURNED(WORDS({0x40, 0})),
         RAISING(0x0200, WORDS({0x30, 0x2200})),
         TURNED(WORDS({0x40, 0x4000}))),

    /* START while Active does nothing: the new CBL offset is not taken */
    CASE("start while active", WORDS({0x44, 0x50}, BOARD),
         INITIALISED,
         COMMANDING,
         STEP(WORDS({0x32, 0x0100}, {0x34, 0x58}), ATTENTION, QUIET, WORDS({0x30, 0x0200}), LOW),
         TURNED(WORDS({0x40, 0x4000}, {0x58, 0}))),

    /* leaving Active by EL forgets a waiting SUSPEND: a new list is not suspended by it */
    CASE("suspend forgotten", WORDS({0x42, 0x8000}, {0x54, 0x58}, BOARD),
         INITIALISED,
         COMMANDING,
         TURNED(NOTHING),
         ATTENDED(0x0300, WORDS({0x30, 0x0200})),
         SETTLING(WORDS({0x30, 0x2000})),
         STEP(WORDS({0x32, 0xF100}, {0x34, 0x50}), ATTENTION, QUIET, WORDS({0x30, 0x0200}), LOW),
         TURNED(NOTHING),
         TURNED(WORDS({0x50, 0xA000}, {0x30, 0x0200}))),

    /* the receive unit: at once with no frame held */
    CASE("suspend ready", WORDS(BOARD),
         INITIALISED,
         RECEIVING,
         RAISING(0x0030, WORDS({0x30, 0x1010}))),

    /* and at the end of a held one, begun or not; the next free offset is passed on all the same */
    CASE("suspend held", WORDS(DESCRIPTORS, BUFFER_AT(0xA0, 0xAA, 0xC0, 46), BOARD),
         INITIALISED,
         RECEIVING,
         CAME(BROADCAST(46), GOOD, NOTHING),
         ATTENDED(0x0030, WORDS({0x30, 0x0040})),
         TURNED(NOTHING),
         TURNED(NOTHING),
         SETTLING(WORDS({0x60, 0xA000}, {0x86, 0xAA}, {0x30, 0x5010})),
         DROPPED(LQ_DROPPED_SUSPENDED, BROADCAST(46), GOOD, WORDS({0x38, 0}, {0x3A, 0}, {0x3C, 0}, {0x3E, 0})),
         TURNED(WORDS({0x80, 0}))),

    /* RU abort: a begun frame's descriptor gets 0000h, no counter moves; a frame that is only held leaves no
       trace */
    CASE("abort begun", WORDS(DESCRIPTORS, BUFFER_AT(0xA0, 0xAA, 0xC0, 46), BOARD),
         INITIALISED,
         RECEIVING,
         CAME(BROADCAST(46), GOOD, NOTHING),
         TURNED(WORDS({0x60, 0x4000})),
         TURNED(WORDS({0xA0, 0xC02E})),
         RAISING(0x0040, WORDS({0x60, 0}, {0xA0, 0xC02E}, {0x30, 0x1000}, {0x3C, 0})),
         TURNED(WORDS({0x60, 0}))),

    CASE("abort held", WORDS({0x60, 0x1234}, DESCRIPTORS, BOARD),
         INITIALISED,
         RECEIVING,
         CAME(BROADCAST(46), GOOD, NOTHING),
         RAISING(0x0040, WORDS({0x60, 0x1234}, {0x30, 0x1000}, {0x3C, 0}))),

    /* a command without I, EL, S writes no SCB status at its end */
    CASE("no status", WORDS(BOARD),
         INITIALISED,
         COMMANDING,
         TURNED(NOTHING),
         STEP(WORDS({0x30, 0x1234}), TURN(0), QUIET, WORDS({0x40, 0xA000}, {0x30, 0x1234}), LOW)),

    /* EL without I raises CNA and not CX; EL wins over S */
    CASE("end of list", WORDS({0x42, 0xC000}, BOARD),
         INITIALISED,
         COMMANDING,
         TURNED(NOTHING),
         SETTLING(WORDS({0x30, 0x2000}))),

    /* the link is read before the SCB status is written: the block at 2Ch has the status word for its link */
    CASE("link before status", WORDS({0x2E, 0x2000}, BOARD),
         INITIALISED,
         STEP(WORDS({0x32, 0xF100}, {0x34, 0x2C}), ATTENTION, QUIET, NOTHING, LOW),
         TURNED(WORDS({0x2C, 0x4000})),
         SETTLING(WORDS({0x2C, 0xA000}, {0x30, 0x8200})),
         TURNED(WORDS({0x200, 0x4000}))),

    /* what is remembered at begin, and what is read at the end: the old command word, the new parameters */
    CASE("parameters at end", WORDS({0x42, 0x8001}, BOARD),
         INITIALISED,
         COMMANDING,
         TURNED(NOTHING),
         STEP(WORDS({0x42, 0x0000}, {0x46, 0x0004}), TURN(0), EDGE, WORDS({0x40, 0xA000}, {0x30, 0x2000}), HIGH),
         RECEIVING,
         CAME(TO(4, 0, 0, 0, 0, 0), GOOD, NOTHING),
         TURNED(WORDS({0x60, 0x4000}))),

    /* count 10 takes byte 8, here broadcast disabled; a length of 7 is rejected and changes nothing of it */
    CASE("configure keeps",
         WORDS({0x42, 0x0002}, {0x44, 0x80}, {0x46, 0x000A}, {0x48, 0x0680}, {0x4E, 0x0002}, {0x82, 0x8002},
               {0x86, 0x000C}, {0x88, 0x0700}, {0x90, 0x00FF}, {0x8E, 0x0001}, DESCRIPTORS, BOARD),
         INITIALISED,
         COMMANDING,
         TURNED(NOTHING),
         TURNED(WORDS({0x40, 0xA000})),
         TURNED(NOTHING),
         SETTLING(WORDS({0x80, 0x8000}, {0x30, 0x2000})),
         RECEIVING,
         DROPPED(LQ_DROPPED_NO_MATCH, BROADCAST(46), GOOD, NOTHING),
         TURNED(WORDS({0x60, 0}))),

    /* an own address of all FFh does not help where broadcast is disabled */
    CASE("own of ones",
         WORDS({0x42, 0x8002}, {0x46, 0x000C}, {0x48, 0x0600}, {0x4E, 0x0002}, {0x50, 0x0040}, BOARD),
         CONFIGURED,
         RECEIVING,
         DROPPED(LQ_DROPPED_NO_MATCH, BROADCAST(46), GOOD, NOTHING),
         TURNED(WORDS({0x60, 0}))),

    /* MC-Setup: a listed group is received; one whose bit is clear is not, nor an address with the low bit clear,
       though it is listed */
    CASE("listed", WORDS({0x42, 0x8003}, {0x46, 17}, {0x48, 0x0203}, {0x4E, 0x0204}, DESCRIPTORS, BOARD),
         CONFIGURED,
         RECEIVING,
         DROPPED(LQ_DROPPED_NO_MATCH, TO(4, 2, 0, 0, 0, 0), GOOD, NOTHING),
         DROPPED(LQ_DROPPED_NO_MATCH, TO(3, 3, 0, 0, 0, 0), GOOD, NOTHING),
         TURNED(WORDS({0x60, 0})),
         CAME(TO(3, 2, 0, 0, 0, 0), GOOD, NOTHING),
         TURNED(WORDS({0x60, 0x4000}))),

    /* the filter is no list: 01-0B-00-00-00-00 is not listed and passes by the bit of 03-02-00-00-00-00, which is */
    CASE("shared bit", WORDS({0x42, 0x8003}, {0x46, 6}, {0x48, 0x0203}, DESCRIPTORS, BOARD),
         CONFIGURED,
         RECEIVING_ONE_OF(TO(3, 3, 0, 0, 0, 0), TO(1, 0x0B, 0, 0, 0, 0))),

    /* every listed address sets its bit, 04-02-00-00-00-00 too, whose low bit is clear: 01-1A-00-00-00-00 shares it and
       passes */
    CASE("no group listed", WORDS({0x42, 0x8003}, {0x46, 6}, {0x48, 0x0204}, DESCRIPTORS, BOARD),
         CONFIGURED,
         RECEIVING,
         DROPPED(LQ_DROPPED_NO_MATCH, TO(4, 2, 0, 0, 0, 0), GOOD, NOTHING),
         DROPPED(LQ_DROPPED_NO_MATCH, TO(3, 2, 0, 0, 0, 0), GOOD, NOTHING),
         TURNED(WORDS({0x60, 0})),
         CAME(TO(1, 0x1A, 0, 0, 0, 0), GOOD, NOTHING),
         TURNED(WORDS({0x60, 0x4000}))),
    REMAINDER(11, 0, LQ_DROPPED_NO_MATCH),
    REMAINDER(12, 0x4000, LQ_NOT_DROPPED),

    /* the count and the addresses are read at the end turn */
    CASE("listed at end", WORDS({0x42, 0x8003}, {0x46, 6}, {0x48, 0x0303}, DESCRIPTORS, BOARD),
         INITIALISED,
         COMMANDING,
         TURNED(NOTHING),
         STEP(WORDS({0x46, 12}, {0x48, 0}, {0x4E, 0x0203}), TURN(0), EDGE, WORDS({0x40, 0xA000}, {0x30, 0x2000}), HIGH),
         RECEIVING_ONE_OF(TO(3, 3, 0, 0, 0, 0), TO(3, 2, 0, 0, 0, 0))),

    /* TDR, Dump and Diagnose, one behind the other */
    CASE("three more", WORDS({0x42, 0x0005}, {0x44, 0x50}, {0x52, 0x0006}, {0x54, 0x58}, {0x5A, 0x8007}, BOARD),
         INITIALISED,
         COMMANDING,
         TURNED(WORDS({0x46, 0})),
         TURNED(WORDS({0x40, 0xA000}, {0x46, 0x8000})),
         TURNED(NOTHING),
         TURNED(WORDS({0x50, 0x8000})),
         TURNED(NOTHING),
         SETTLING(WORDS({0x58, 0xA000}, {0x30, 0x2000}))),
    BARE_TRANSMIT(0xFFFF, 0, 0x86EF),
    BARE_TRANSMIT(0x0100, 14, 0xA000),

    /* FFFFh before EOF: 8100h whatever the report, though the data was copied */
    CASE("lost end",
         WORDS({0x42, 0x8004}, {0x46, 0xA0}, {0xA0, 2}, {0xA2, 0xFFFF}, {0xA4, 0xC0}, {0xC0, 0x2211}, BOARD),
         INITIALISED,
         COMMANDING,
         TURNED(NOTHING),
         TURNED(NOTHING),
         ENDS(0xFFFF, 0, WORDS({0x40, 0x8100}, {0x30, 0x2000}), WORDS({14, 0x2211}))),

    /* 64 descriptors without EOF, here one that is linked to itself: 8100h at the 66th turn */
    CASE("endless chain", WORDS({0x42, 0x8004}, {0x46, 0xA0}, {0xA2, 0xA0}, BOARD),
         INITIALISED,
         COMMANDING,
         TURNED_TIMES(65, WORDS({0x40, 0x4000})),
         ENDS(0, 0, WORDS({0x40, 0x8100}, {0x30, 0x2000}), NOTHING)),

    /* the descriptor is read whole before its buffer is filled, and its word is written after: the buffer lies
       over the descriptor */
    CASE("over itself", WORDS(DESCRIPTORS, BUFFER_AT(0xA0, 0xC0, 0xA0, 20), BUFFER_AT(0xC0, 0xCA, 0xD0, 40), BOARD),
         INITIALISED,
         RECEIVING,
         CAME(BROADCAST(46), GOOD, NOTHING),
         TURNED(NOTHING),
         TURNED(WORDS({0xA0, 0x4014}, {0xA2, 0x0403}, {0xB2, 0x1413})),
         TURNED(WORDS({0xC0, 0xC01A}))),

    /* size 0: 4000h, a turn of its own, and what stood in the word is gone */
    CASE("size none",
         WORDS({0xA0, 0xFFFF}, DESCRIPTORS, BUFFER_AT(0xA0, 0xAA, 0xC0, 0), BUFFER_AT(0xAA, 0xB4, 0xC0, 46), BOARD),
         INITIALISED,
         RECEIVING,
         CAME(BROADCAST(46), GOOD, NOTHING),
         TURNED(NOTHING),
         TURNED(WORDS({0xA0, 0x4000}, {0xC0, 0})),
         TURNED(WORDS({0xAA, 0xC02E}))),

    /* data that ends in a buffer with EL is stored well, and No Resources follows */
    CASE("last buffer", WORDS(DESCRIPTORS, BUFFER_AT(0xA0, 0xAA, 0xC0, 0x802E), BOARD),
         INITIALISED,
         RECEIVING,
         CAME(BROADCAST(46), GOOD, NOTHING),
         TURNED(NOTHING),
         TURNED(WORDS({0xA0, 0xC02E})),
         SETTLING(WORDS({0x60, 0xA000}, {0x86, 0}, {0x30, 0x5020}, {0x3C, 0}))),

    /* out of buffers, not saved: 0000h, no FR, RSCERRS, No Resources; the buffers used have no EOF */
    CASE("lacking", WORDS(DESCRIPTORS, BUFFER_AT(0xA0, 0xAA, 0xC0, 20), BUFFER_AT(0xAA, 0xFFFF, 0xD4, 20), BOARD),
         INITIALISED,
         RECEIVING,
         CAME(BROADCAST(46), GOOD, NOTHING),
         TURNED(NOTHING),
         TURNED(NOTHING),
         TURNED(WORDS({0xAA, 0x4014}, {0x60, 0x4000})),
         SETTLING(WORDS({0x60, 0}, {0x68, 0}, {0xA0, 0x4014}, {0xAA, 0x4014}, {0x30, 0x1020}, {0x3C, 1}))),
    LACKING_SAVED(GOOD, 0x8200, 0, 1),
    LACKING_SAVED(CRC, 0x8A00, 1, 0),

    /* short and misaligned, saved: both bits, no counter */
    CASE("short saved", WORDS(SAVING, DESCRIPTORS, BUFFER_AT(0xA0, 0xAA, 0xC0, 46), BOARD),
         CONFIGURED,
         RECEIVING,
         CAME(BROADCAST(45), MISALIGNED, WORDS({0x38, 0}, {0x3A, 0})),
         TURNED(NOTHING),
         TURNED(NOTHING),
         SETTLING(WORDS({0x60, 0x8480}, {0x30, 0x4040}, {0x38, 0}, {0x3A, 0}, {0x3C, 0}))),
    NO_DATA(0x80, {0x66, 0xFFFF}, {0x86, 0xA0}),
    NO_DATA(0x60, {0x66, 0xA0}),

    /* RSCERRS follows the descriptor's writes: the frame descriptor stands on it */
    CASE("counter last", WORDS({0x42, 0xFFFF}, BOARD),
         INITIALISED,
         STEP(WORDS({0x32, 0xF010}, {0x36, 0x3C}), ATTENTION, QUIET, NOTHING, LOW),
         CAME(BROADCAST(46), GOOD, NOTHING),
         TURNED(WORDS({0x3C, 0x4000})),
         SETTLING(WORDS({0x3C, 1}, {0x30, 0x1020}))),

    /* the SCB status is the last write: the frame descriptor stands on it */
    CASE("status last", WORDS({0x34, 0x80}, {0x36, 0xFFFF}, BOARD),
         INITIALISED,
         STEP(WORDS({0x32, 0xF010}, {0x36, 0x30}), ATTENTION, QUIET, NOTHING, LOW),
         STEP(WORDS({0x36, 0xFFFF}), ARRIVE(BROADCAST(46), GOOD), QUIET, NOTHING, LOW),
         TURNED(WORDS({0x30, 0x4000})),
         SETTLING(WORDS({0x30, 0x1020}, {0x3C, 1}))),
};

void readings(void)
{
    run_cases(cases, COUNT_OF(cases));
}
