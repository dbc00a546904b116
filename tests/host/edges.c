/* Further cases at the edges of document 01's rules and of document 02's Wish 4, each of which a chip that gets the
   rule wrong would fail. */
#include "board.h"

/* the host alters the holding area before a turn */
#define TOUCHING(held_, words_) {TURN(0), QUIET, .held = held_, .words = words_, .level = LOW}

/* bits 11 and 3-0 of the command word say nothing, and neither do codes 5 to 7 */
#define SAYS_NOTHING(command) \
    CASE("says nothing", WORDS(BOARD), \
         INITIALISED, \
         WORKING, \
         ATTENDED(command, WORDS({0x30, 0x0240}, {0x32, 0})))

/* the abort's 9000h comes before the status and the closing 0000h: the block stands on either */
#define ABORT_THEN_STATUS(block) \
    CASE("abort then status", WORDS(BOARD), \
         INITIALISED, \
         STEP(WORDS({0x32, 0xF100}, {0x34, block}), ATTENTION, QUIET, NOTHING, LOW), \
         TURNED(WORDS({block, 0x4000})), \
         RAISING(0x0400, WORDS({0x30, 0x2000}, {0x32, 0})))

/* judged once, by the settings at arrival: a Configure that comes before the end changes neither short nor
   saved */
#define SETTINGS_AT_ARRIVAL(first, second, status, scb) \
    CASE("settings at arrival", \
         WORDS({0x42, 0x8002}, {0x46, 0x0804}, {0x48, first}, {0x82, 0x8002}, {0x86, 0x000C}, {0x88, second}, \
               {0x90, 0x00FF}, {0x64, 0x80}, {0x66, 0xA0}, BUFFER_AT(0xA0, 0xAA, 0xC0, 0x8014), BOARD), \
         CONFIGURED, \
         RECEIVING, \
         CAME(BROADCAST(46), GOOD, NOTHING), \
         STEP(WORDS({0x32, 0x0100}, {0x34, 0x80}), ATTENTION, QUIET, WORDS({0x30, 0x0240}), LOW), \
         TURNED(WORDS({0x60, 0x4000})), \
         TURNED(WORDS({0x80, 0x4000})), \
         TURNED(WORDS({0xA0, 0x4014})), \
         SETTLING(WORDS({0x80, 0xA000}, {0x30, 0x2040})), \
         SETTLING(WORDS({0x60, status}, {0x30, scb}, COUNTERS(0, 0, 1, 0))))

/* an MC-Setup of one address, in three words, and a Configure with that byte 8; both are done */
#define LISTED_AND_SET(first, second, third, byte) \
    WORDS({0x42, 0x0003}, {0x44, 0x80}, {0x46, 6}, {0x48, first}, {0x4A, second}, {0x4C, third}, \
          {0x82, 0x8002}, {0x86, 0x0009}, {0x88, 0x0600}, {0x8E, byte}, DESCRIPTORS, BOARD)

#define BOTH_DONE \
    INITIALISED, \
    COMMANDING, \
    TURNED(NOTHING), \
    TURNED(WORDS({0x40, 0xA000})), \
    TURNED(NOTHING), \
    SETTLING(WORDS({0x80, 0xA000}))

/* all FFh in the list does not help where broadcast is disabled; promiscuous does */
#define LISTED_ONES(byte, descriptor, why) \
    CASE("listed ones", \
         LISTED_AND_SET(0xFFFF, 0xFFFF, 0xFFFF, byte), \
         BOTH_DONE, \
         RECEIVING, \
         DROPPED(why, BROADCAST(46), GOOD, NOTHING), \
         TURNED(WORDS({0x60, descriptor})))

/* all FFh passes by no bit, not even by its own, 59, which AB-00-00-02-00-00 shares: with broadcast disabled that group
   passes and all FFh does not, whichever of them is listed */
#define BIT_OF_ONES(first, second, third) \
    CASE("bit of ones", \
         LISTED_AND_SET(first, second, third, 2), \
         BOTH_DONE, \
         RECEIVING_ONE_OF(BROADCAST(46), TO(0xAB, 0, 0, 2, 0, 0)))

/* byte 3: any length but 7, either location, no loopback; bits 4 and 5 are free */
#define THIRD_BYTE(byte, status) \
    CASE("third byte", WORDS({0x42, 0x8002}, {0x46, 0x0004}, {0x48, (byte) * 256}, BOARD), \
         INITIALISED, \
         COMMANDING, \
         TURNED(NOTHING), \
         SETTLING(WORDS({0x40, status})))

/* which bytes a count takes: with byte 10, 0, taken 59 bytes are held; with byte 8, 1, taken another's
   frame is */
#define TAKES_MINIMUM(count, descriptor, why) \
    CASE("takes minimum", WORDS({0x42, 0x8002}, {0x46, count}, {0x48, 0x0600}, DESCRIPTORS, BOARD), \
         CONFIGURED, \
         RECEIVING, \
         DROPPED(why, BROADCAST(45), GOOD, NOTHING), \
         TURNED(WORDS({0x60, descriptor})))

#define TAKES_PROMISCUOUS(count, descriptor, why) \
    CASE("takes promiscuous", \
         WORDS({0x42, 0x8002}, {0x46, count}, {0x48, 0x0600}, {0x4E, 1}, {0x50, 0x40}, DESCRIPTORS, BOARD), \
         CONFIGURED, \
         RECEIVING, \
         DROPPED(why, COUNTING_AFTER(2, 2, 59), GOOD, NOTHING), \
         TURNED(WORDS({0x60, descriptor})))

/* a group is listed; a second MC-Setup, with any count, is done and leaves nothing of that filter. In its list stand
   addresses of zeros, if any */
#define LISTED_THEN(count) \
    CASE("listed then", \
         WORDS({0x42, 0x0003}, {0x44, 0x80}, {0x46, 6}, {0x48, 0x0203}, {0x82, 0x8003}, {0x86, count}, \
               {0x64, 0x80}, BOARD), \
         INITIALISED, \
         COMMANDING, \
         TURNED(NOTHING), \
         TURNED(WORDS({0x40, 0xA000})), \
         TURNED(NOTHING), \
         SETTLING(WORDS({0x80, 0xA000}, {0x30, 0x2000})), \
         RECEIVING, \
         DROPPED(LQ_DROPPED_NO_MATCH, TO(3, 2, 0, 0, 0, 0), GOOD, NOTHING), \
         TURNED(WORDS({0x60, 0})))

/* a frame is stored in the last frame descriptor */
#define STORED_LAST \
    INITIALISED, \
    RECEIVING, \
    CAME(BROADCAST(46), GOOD, NOTHING), \
    TURNED(NOTHING), \
    TURNED(NOTHING), \
    SETTLING(WORDS({0x30, 0x5020}))

/* an attention that leaves a single event set reports an edge, whichever it is */
#define ONE_LEFT(acknowledged, left) \
    CASE("one left", WORDS(BOARD), INITIALISED, RAISING(acknowledged, WORDS({0x30, left})))

#define ONE_LEFT_STORED(acknowledged, left) \
    CASE("one left stored", WORDS({0x62, 0x8000}, DESCRIPTORS, BUFFER_AT(0xA0, 0xAA, 0xC0, 46), BOARD), \
         STORED_LAST, \
         RAISING(acknowledged, WORDS({0x30, left})))

#define SENDING \
    {0x42, 0x8004}, {0x46, 0xA0}, {0x48, 0x0201}, {0x4E, 0x0900}, {0xA0, 0x4002}, {0xA2, 0xB0}, {0xA4, 0xC0}, \
    {0xB0, 0x8002}, {0xB2, 0xFFFF}, {0xB4, 0xD0}, {0xC0, 0x2211}, {0xD0, 0x4433}

/* 64 buffers at most, here one of a byte that is linked to itself: 65 bytes run out, 64 are stored well and
   leave the unit Ready */
#define ENDLESS_BUFFERS(n, ...) \
    CASE("endless buffers", WORDS(DESCRIPTORS, BUFFER_AT(0xA0, 0xA0, 0xC0, 1), BOARD), \
         INITIALISED, \
         RECEIVING, \
         CAME(BROADCAST(n), GOOD, NOTHING), \
         TURNED_TIMES(65, WORDS({0x60, 0x4000})), \
         SETTLING(WORDS(__VA_ARGS__)))

/* ---- 02, Wish 4: addresses of other lengths, and headers in buffers. Byte 3 of a Configure says both ---- */

/* IA-Setup of 02-03-04-05-06-07, a Configure, and a Transmit with an offset at +6: the steps behind its begin */
#define SENT_BY(name, third, first, ...) \
    CASE(name, \
         WORDS({0x42, 0x0001}, {0x44, 0x50}, {0x46, 0x0302}, {0x48, 0x0504}, {0x4A, 0x0706}, \
               {0x52, 0x0002}, {0x54, 0x80}, {0x56, 0x0004}, {0x58, (third) * 256}, \
               {0x82, 0x8004}, {0x86, first}, {0x88, 0x1211}, {0x8A, 0x1413}, {0x8C, 0x1615}, {0x8E, 0x0900}, \
               {0xA0, 0x8002}, {0xA2, 0xFFFF}, {0xA4, 0xC0}, {0xC0, 0x2221}, BOARD), \
         INITIALISED, \
         COMMANDING, \
         TURNED(NOTHING), \
         TURNED(NOTHING), \
         TURNED(NOTHING), \
         TURNED(WORDS({0x50, 0xA000})), \
         TURNED(NOTHING), \
         __VA_ARGS__)

/* "Block and descriptor fields are packed; of the own address the first bytes, up to the length, count": with two bytes
   an address the type is at +10, with none at +8; with location 1 "the chip inserts no source address", and the
   buffers' bytes are the frame */
#define PACKED_SENT(third, length_, ...) \
    SENT_BY("packed sent", third, 0xA0, \
            TURNED(NOTHING), \
            ENDS(0, length_, WORDS({0x80, 0xA000}, {0x30, 0x2000}), WORDS(__VA_ARGS__)))

/* with location 1 and no buffer a frame of no bytes ends as reported, and nothing is in the outgoing area */
#define NO_BYTES_SENT(report_, status) \
    SENT_BY("no bytes sent", 0x0A, 0xFFFF, \
            ENDS(report_, 0, WORDS({0x80, status}, {0x30, 0x2000}), WORDS({0, 0}, {2, 0}, {4, 0})))

/* a frame of 60 bytes to two bytes FFh, each byte behind them its own index; in the descriptor stands 7777h from +8
   on */
#define TO_TWO_ONES (&(const struct frame_form){2, {255, 255}, 2, 1, 58})

#define PACKED_STORED(third, ...) \
    CASE("packed stored", \
         WORDS({0x42, 0x8002}, {0x46, 0x0004}, {0x48, (third) * 256}, {0x68, 0x7777}, {0x6A, 0x7777}, {0x6C, 0x7777}, \
               {0x6E, 0x7777}, {0x74, 0x7777}, DESCRIPTORS, BUFFER_AT(0xA0, 0xAA, 0xC0, 60), BOARD), \
         CONFIGURED, \
         RECEIVING, \
         CAME(TO_TWO_ONES, GOOD, NOTHING), \
         TURNED(NOTHING), \
         TURNED(NOTHING), \
         SETTLING(WORDS({0x60, 0xA000}, __VA_ARGS__)))

/* "A held frame is stored by the length and location it arrived under, whatever Configure has said since": a frame
   comes between a Configure's begin and its end, and is begun after it. The one before it only makes the command unit
   the next */
#define HELD_ACROSS(first, second, ...) \
    CASE("held across", \
         WORDS({0x42, 0x8002}, {0x46, 0x0004}, {0x48, (first) * 256}, {0x52, 0x8002}, {0x56, 0x0004}, \
               {0x58, (second) * 256}, DESCRIPTORS, BUFFER_AT(0xA0, 0xAA, 0xC0, 60), \
               BUFFER_AT(0xAA, 0xB4, 0x100, 60), BOARD), \
         CONFIGURED, \
         RECEIVING, \
         CAME(BROADCAST(46), GOOD, NOTHING), \
         TURNED(NOTHING), \
         TURNED(NOTHING), \
         STEP(WORDS({0x32, 0x0100}, {0x34, 0x50}), ATTENTION, QUIET, WORDS({0x30, 0x0240}), LOW), \
         TURNED(WORDS({0x50, 0x4000})), \
         SETTLING(WORDS({0x60, 0xA000})), \
         CAME(BROADCAST(46), GOOD, NOTHING), \
         SETTLING(WORDS({0x50, 0xA000}, {0x80, 0})), \
         TURNED(WORDS({0x80, 0x4000})), \
         TURNED(NOTHING), \
         SETTLING(WORDS({0x80, 0xA000}, __VA_ARGS__)))

/* "14-byte tests read 'shorter than the header'": one byte below it a frame is dropped, with location 1 too; the header
   alone is a frame, which has no data with location 0, and with location 1 has */
#define SHORTEST(third, below, last) \
    CASE("shortest", \
         WORDS({0x42, 0x8002}, {0x46, 0x000C}, {0x48, (third) * 256}, {0x4E, 1}, DESCRIPTORS, \
               BUFFER_AT(0xA0, 0xAA, 0xC0, 60), BOARD), \
         CONFIGURED, \
         RECEIVING, \
         DROPPED(LQ_DROPPED_TOO_FEW, ONES(below), GOOD, NOTHING), \
         CAME(ONES((below) + 1), GOOD, NOTHING), \
         TURNED(WORDS({0x60, 0x4000})), \
         last)

static const struct worked_case cases[] = {
    /* the call: no byte of memory changes, no edge, the interrupt is low; no turn has work, and the next
       attention is a first one */
    CASE("reset call", WORDS(BOARD),
         INITIALISED,
         STEP(WORDS({0x32, 0x0100}, {0x34, 0x40}), ATTENTION, EDGE, WORDS({0x30, 0xA200}), HIGH),
         TURNED(WORDS({0x40, 0x4000})),
         STEP(WORDS({0x20, 1}, {0x32, 0x1234}), RESET, QUIET, WORDS({0x30, 0xA200}, {0x32, 0x1234}, {0x40, 0x4000},
              {0x20, 1}), LOW),
         TURNED(WORDS({0x40, 0x4000})),
         STEP(NOTHING, ATTENTION, EDGE, WORDS({0x30, 0xA000}, {0x32, 0}, {0x20, 0}), HIGH)),

    /* a resetting attention reports no edge though events were set, and the interrupt is low */
    CASE("resetting with events", WORDS(BOARD),
         INITIALISED,
         STEP(WORDS({0x32, 0x0080}), ATTENTION, QUIET, WORDS({0x30, 0xA000}, {0x32, 0}), LOW)),

    /* it forgets what Configure set: 59 bytes are short again, and not saved */
    CASE("resetting forgets", WORDS({0x42, 0x8002}, {0x46, 0x000C}, {0x48, 0x0680}, DESCRIPTORS, BOARD),
         CONFIGURED,
         STEP(WORDS({0x32, 0x0080}), ATTENTION, QUIET, WORDS({0x30, 0x2000}), LOW),
         INITIALISED,
         RECEIVING,
         DROPPED(LQ_DROPPED_BAD, BROADCAST(45), GOOD, NOTHING),
         TURNED(WORDS({0x60, 0}))),

    /* and the order of service: the receive unit was served last, and is served first after it */
    CASE("resetting serves receive first", WORDS(DESCRIPTORS, BOARD),
         INITIALISED,
         RECEIVING,
         CAME(BROADCAST(46), GOOD, NOTHING),
         TURNED(WORDS({0x60, 0x4000})),
         STEP(WORDS({0x32, 0x0080}, {0x60, 0}), ATTENTION, QUIET, NOTHING, LOW),
         INITIALISED,
         WORKING,
         CAME(BROADCAST(46), GOOD, NOTHING),
         TURNED(WORDS({0x60, 0x4000}, {0x40, 0})),
         TURNED(WORDS({0x40, 0x4000}))),

    /* the receive unit was served last, alone: the command unit, started then, is next */
    CASE("served last alone", WORDS(DESCRIPTORS, BUFFER_AT(0xA0, 0xAA, 0xC0, 46), BOARD),
         INITIALISED,
         RECEIVING,
         CAME(BROADCAST(46), GOOD, NOTHING),
         TURNED(WORDS({0x60, 0x4000})),
         STEP(WORDS({0x32, 0x0100}, {0x34, 0x40}), ATTENTION, QUIET, WORDS({0x30, 0x0240}), LOW),
         TURNED(WORDS({0x40, 0x4000}, {0xA0, 0})),
         TURNED(WORDS({0x40, 0x4000}, {0xA0, 0xC02E}))),

    /* a turn with no work is no working turn: after it the same unit is next */
    CASE("idle turn", WORDS(DESCRIPTORS, BUFFER_AT(0xA0, 0xAA, 0xC0, 46), BOARD),
         INITIALISED,
         RECEIVING,
         CAME(BROADCAST(46), GOOD, NOTHING),
         TURNED(NOTHING),
         TURNED(NOTHING),
         SETTLING(WORDS({0x60, 0xA000})),
         TURNED(NOTHING),
         STEP(WORDS({0x32, 0xF100}, {0x34, 0x40}), ATTENTION, QUIET, WORDS({0x30, 0x0240}), LOW),
         CAME(BROADCAST(46), GOOD, NOTHING),
         TURNED(WORDS({0x40, 0x4000}, {0x80, 0})),
         TURNED(WORDS({0x40, 0x4000}, {0x80, 0x4000}))),

    /* an event that is raised again is an edge: two commands with I, and no acknowledgement */
    CASE("edge again", WORDS({0x42, 0x2000}, {0x44, 0x40}, BOARD),
         INITIALISED,
         COMMANDING,
         TURNED(NOTHING),
         SETTLING(WORDS({0x30, 0x8200})),
         TURNED(NOTHING),
         SETTLING(WORDS({0x30, 0x8200}))),

    /* a command that fails raises CX by I and goes on by its link */
    CASE("failed goes on", WORDS({0x42, 0x2006}, {0x44, 0x50}, BOARD),
         INITIALISED,
         COMMANDING,
         TURNED(NOTHING),
         SETTLING(WORDS({0x40, 0x8000}, {0x30, 0x8200})),
         TURNED(WORDS({0x50, 0x4000}))),
    SAYS_NOTHING(0x0D5F),
    SAYS_NOTHING(0x0E6F),
    SAYS_NOTHING(0x0F7F),
    ABORT_THEN_STATUS(0x30),
    ABORT_THEN_STATUS(0x32),

    /* START does not withdraw a waiting SUSPEND, nor does a second SUSPEND add to it; RESUME goes to the link
       that the end turn read */
    CASE("start while waiting", WORDS({0x44, 0x50}, BOARD),
         INITIALISED,
         COMMANDING,
         TURNED(WORDS({0x40, 0x4000})),
         ATTENDED(0x0300, WORDS({0x30, 0x0200})),
         ATTENDED(0x0300, WORDS({0x30, 0x0200})),
         STEP(WORDS({0x32, 0x0100}, {0x34, 0x58}), ATTENTION, QUIET, WORDS({0x30, 0x0200}), LOW),
         SETTLING(WORDS({0x40, 0xA000}, {0x30, 0x2100})),
         STEP(WORDS({0x44, 0x58}, {0x32, 0x2200}), ATTENTION, QUIET, WORDS({0x30, 0x0200}), LOW),
         TURNED(WORDS({0x50, 0x4000}, {0x58, 0}))),

    /* START from Suspended goes to the CBL offset, and not to the next block */
    CASE("start while suspended", WORDS({0x42, 0x4000}, {0x44, 0x50}, BOARD),
         INITIALISED,
         COMMANDING,
         TURNED(NOTHING),
         SETTLING(WORDS({0x30, 0x2100})),
         STEP(WORDS({0x32, 0x2100}, {0x34, 0x58}), ATTENTION, QUIET, WORDS({0x30, 0x0200}), LOW),
         TURNED(WORDS({0x58, 0x4000}, {0x50, 0}))),

    /* S in a frame descriptor suspends and passes the free offset on; RESUME goes to the link that the end turn
       read */
    CASE("frame suspends", WORDS({0x62, 0x4000}, DESCRIPTORS, BUFFER_AT(0xA0, 0xAA, 0xC0, 46), BOARD),
         INITIALISED,
         RECEIVING,
         CAME(BROADCAST(46), GOOD, NOTHING),
         TURNED(NOTHING),
         TURNED(NOTHING),
         SETTLING(WORDS({0x60, 0xA000}, {0x86, 0xAA}, {0x30, 0x5010})),
         STEP(WORDS({0x64, 0x90}, {0x32, 0xF020}), ATTENTION, QUIET, WORDS({0x30, 0x0040}), LOW),
         CAME(BROADCAST(46), GOOD, NOTHING),
         TURNED(WORDS({0x80, 0x4000}, {0x90, 0}))),

    /* the receive unit: START while Ready does nothing, RESUME while a SUSPEND waits neither; both do nothing
       to the frame */
    CASE("start while ready", WORDS(DESCRIPTORS, BUFFER_AT(0xA0, 0xAA, 0xC0, 46), BOARD),
         INITIALISED,
         RECEIVING,
         STEP(WORDS({0x32, 0x0010}, {0x36, 0x80}), ATTENTION, QUIET, WORDS({0x30, 0x0040}), LOW),
         CAME(BROADCAST(46), GOOD, NOTHING),
         ATTENDED(0x0030, WORDS({0x30, 0x0040})),
         ATTENDED(0x0020, WORDS({0x30, 0x0040})),
         TURNED(WORDS({0x60, 0x4000}, {0x80, 0})),
         TURNED(NOTHING),
         SETTLING(WORDS({0x60, 0xA000}, {0x30, 0x5010}))),

    /* each unit has its own waiting SUSPEND: No Resources forgets the receive unit's, the command unit's still
       acts */
    CASE("waiting apart", WORDS({0x44, 0x50}, {0x64, 0x80}, {0x66, 0xFFFF}, BOARD),
         INITIALISED,
         WORKING,
         CAME(BROADCAST(46), GOOD, NOTHING),
         TURNED(WORDS({0x60, 0x4000})),
         TURNED(WORDS({0x40, 0x4000})),
         ATTENDED(0x0330, WORDS({0x30, 0x0240})),
         SETTLING(WORDS({0x60, 0}, {0x30, 0x1220}, {0x3C, 1})),
         SETTLING(WORDS({0x40, 0xA000}, {0x30, 0x3120}))),

    /* ABORT of units that are neither Active nor Ready raises nothing */
    CASE("abort idle", WORDS(BOARD),
         INITIALISED,
         ATTENDED(0xF440, WORDS({0x30, 0})),
         STEP(WORDS({0x32, 0x0110}, {0x34, 0x40}, {0x36, 0x60}), ATTENTION, QUIET, WORDS({0x30, 0x0240}), LOW),
         RAISING(0x0330, WORDS({0x30, 0x3110})),
         ATTENDED(0xF440, WORDS({0x30, 0}, {0x40, 0}, {0x60, 0}))),

    /* ABORT before a block is begun raises CNA and leaves the block; of a begun one it does no action and
       raises no CX, I or not */
    CASE("abort not begun", WORDS({0x40, 0x1234}, BOARD),
         INITIALISED,
         COMMANDING,
         RAISING(0x0400, WORDS({0x30, 0x2000}, {0x40, 0x1234}))),

    CASE("abort does nothing", WORDS({0x42, 0x2005}, BOARD),
         INITIALISED,
         COMMANDING,
         TURNED(NOTHING),
         RAISING(0x0400, WORDS({0x40, 0x9000}, {0x46, 0}, {0x30, 0x2000}))),

    /* in order: 13 bytes and no match add nothing while a frame is held; then OVRNERRS alone, bad or short, and
       the held frame stays as it came */
    CASE("while held", WORDS(DESCRIPTORS, BUFFER_AT(0xA0, 0xAA, 0xC0, 46), BOARD),
         INITIALISED,
         RECEIVING,
         CAME(BROADCAST(46), GOOD, WORDS(COUNTERS(0, 0, 0, 0))),
         DROPPED(LQ_DROPPED_TOO_FEW, ONES(13), GOOD, WORDS(COUNTERS(0, 0, 0, 0))),
         DROPPED(LQ_DROPPED_NO_MATCH, ONES_AFTER(2, 59), CRC, WORDS(COUNTERS(0, 0, 0, 0))),
         CAME(ONES(60), CRC, WORDS(COUNTERS(0, 0, 0, 1))),
         CAME(ONES(59), MISALIGNED, WORDS(COUNTERS(0, 0, 0, 2))),
         CAME(ONES(100), GOOD, WORDS(COUNTERS(0, 0, 0, 3))),
         TURNED(NOTHING),
         TURNED(WORDS({0xA0, 0xC02E}, {0xC0, 0x0201}, {0xEC, 0x2E2D})),
         STEP(NOTHING, TURN(0), EDGE, WORDS({0x60, 0xA000}, {0x6E, 0x0302}, {0x70, 0x0504}), HIGH)),

    /* in No Resources a bad frame counts by its verdict and is not held, save-bad or not; a short one counts
       nothing; a good one RSCERRS */
    CASE("in no resources", WORDS(SAVING, {0x62, 0x8000}, DESCRIPTORS, BUFFER_AT(0xA0, 0xAA, 0xC0, 46), BOARD),
         CONFIGURED,
         RECEIVING,
         CAME(BROADCAST(46), GOOD, NOTHING),
         TURNED(NOTHING),
         TURNED(NOTHING),
         SETTLING(WORDS({0x30, 0x5020})),
         DROPPED(LQ_DROPPED_BAD, BROADCAST(46), CRC, WORDS(COUNTERS(1, 0, 0, 0))),
         DROPPED(LQ_DROPPED_BAD, BROADCAST(46), MISALIGNED, WORDS(COUNTERS(1, 1, 0, 0))),
         DROPPED(LQ_DROPPED_BAD, BROADCAST(45), GOOD, WORDS(COUNTERS(1, 1, 0, 0))),
         DROPPED(LQ_DROPPED_BAD, BROADCAST(45), CRC, WORDS(COUNTERS(1, 1, 0, 0))),
         CAME(BROADCAST(46), GOOD, WORDS(COUNTERS(1, 1, 1, 0))),
         TURNED(WORDS({0x60, 0xA000}, {0x80, 0}, {0x30, 0x5020}))),

    /* any other verdict is misaligned, not taken modulo anything */
    CASE("other verdicts", WORDS(BOARD),
         INITIALISED,
         RECEIVING,
         DROPPED(LQ_DROPPED_BAD, BROADCAST(46), 3, WORDS(COUNTERS(0, 1, 0, 0))),
         DROPPED(LQ_DROPPED_BAD, BROADCAST(46), 256, WORDS(COUNTERS(0, 2, 0, 0))),
         DROPPED(LQ_DROPPED_BAD, BROADCAST(46), 257, WORDS(COUNTERS(0, 3, 0, 0)))),

    /* in Suspended nothing is counted; length and match are asked before */
    CASE("suspended counts nothing", WORDS(BOARD),
         INITIALISED,
         RECEIVING,
         RAISING(0x0030, WORDS({0x30, 0x1010})),
         DROPPED(LQ_DROPPED_TOO_FEW, TWOS(13), CRC, WORDS(COUNTERS(0, 0, 0, 0))),
         DROPPED(LQ_DROPPED_NO_MATCH, ONES_AFTER(2, 59), CRC, WORDS(COUNTERS(0, 0, 0, 0))),
         DROPPED(LQ_DROPPED_SUSPENDED, BROADCAST(46), GOOD, WORDS(COUNTERS(0, 0, 0, 0))),
         DROPPED(LQ_DROPPED_SUSPENDED, BROADCAST(46), CRC, WORDS(COUNTERS(0, 0, 0, 0))),
         DROPPED(LQ_DROPPED_SUSPENDED, BROADCAST(46), MISALIGNED, WORDS(COUNTERS(0, 0, 0, 0))),
         TURNED(WORDS({0x60, 0}))),
    SETTINGS_AT_ARRIVAL(0x0680, 0x0600, 0x8200, 0x7020),
    SETTINGS_AT_ARRIVAL(0x0600, 0x0680, 0x0000, 0x3020),

    /* RESUME does nothing to a unit that is Idle, nor to a receive unit without resources */
    CASE("resume idle", WORDS(DESCRIPTORS, BOARD),
         INITIALISED,
         STEP(WORDS({0x32, 0xF220}, {0x34, 0x40}, {0x36, 0x60}), ATTENTION, QUIET, WORDS({0x30, 0}, {0x32, 0}), LOW),
         DROPPED(LQ_DROPPED_IDLE, BROADCAST(46), GOOD, WORDS(COUNTERS(0, 0, 0, 0))),
         TURNED(WORDS({0x40, 0}, {0x60, 0}, {0x30, 0}))),

    CASE("resume no resources", WORDS({0x62, 0x8000}, DESCRIPTORS, BUFFER_AT(0xA0, 0xAA, 0xC0, 46), BOARD),
         STORED_LAST,
         ATTENDED(0xF020, WORDS({0x30, 0x0020})),
         CAME(BROADCAST(46), GOOD, WORDS({0x30, 0x0020}, COUNTERS(0, 0, 1, 0)))),
    ONE_LEFT(0x2000, 0x8000),
    ONE_LEFT(0x8000, 0x2000),
    ONE_LEFT_STORED(0x1000, 0x4020),
    ONE_LEFT_STORED(0x4000, 0x1020),

    /* an own address with the low bit set matches, though it is not listed */
    CASE("own group", WORDS({0x42, 0x8001}, {0x46, 0x0201}, DESCRIPTORS, BOARD),
         CONFIGURED,
         RECEIVING_ONE_OF(TO(1, 3, 0, 0, 0, 0), TO(1, 2, 0, 0, 0, 0))),
    LISTED_ONES(2, 0, LQ_DROPPED_NO_MATCH),
    LISTED_ONES(3, 0x4000, LQ_NOT_DROPPED),
    BIT_OF_ONES(0xFFFF, 0xFFFF, 0xFFFF),
    BIT_OF_ONES(0x00AB, 0x0200, 0x0000),
    THIRD_BYTE(0x36, 0xA000),
    THIRD_BYTE(0x02, 0xA000),
    THIRD_BYTE(0x04, 0xA000),
    THIRD_BYTE(0x07, 0x8000),
    THIRD_BYTE(0x0E, 0xA000),
    THIRD_BYTE(0x46, 0x8000),
    THIRD_BYTE(0x86, 0x8000),
    TAKES_MINIMUM(0x0A, 0, LQ_DROPPED_BAD),
    TAKES_MINIMUM(0x0B, 0x4000, LQ_NOT_DROPPED),
    TAKES_MINIMUM(0xFF, 0x4000, LQ_NOT_DROPPED),
    TAKES_PROMISCUOUS(0xF8, 0, LQ_DROPPED_NO_MATCH),
    TAKES_PROMISCUOUS(0x09, 0x4000, LQ_NOT_DROPPED),
    TAKES_PROMISCUOUS(0x00, 0, LQ_DROPPED_NO_MATCH),

    /* a Configure that is rejected changes nothing: save-bad, which it would clear, and the minimum, which it
       would make 0, stay */
    CASE("rejected keeps",
         WORDS({0x42, 0x0002}, {0x44, 0x80}, {0x46, 0x000A}, {0x48, 0x0680}, {0x82, 0x8002}, {0x86, 0x000C},
               {0x88, 0x4600}, DESCRIPTORS, BUFFER_AT(0xA0, 0xAA, 0xC0, 46), BOARD),
         INITIALISED,
         COMMANDING,
         TURNED(NOTHING),
         TURNED(WORDS({0x40, 0xA000})),
         TURNED(NOTHING),
         SETTLING(WORDS({0x80, 0x8000}, {0x30, 0x2000})),
         RECEIVING,
         CAME(BROADCAST(45), GOOD, NOTHING),
         TURNED(WORDS({0x60, 0x4000})),
         TURNED(NOTHING),
         SETTLING(WORDS({0x60, 0x8080}))),
    LISTED_THEN(102),
    LISTED_THEN(6),
    LISTED_THEN(5),
    LISTED_THEN(0),
    LISTED_THEN(0xC000),

    /* thirty addresses: the last of them is in the filter, another group is not */
    CASE("thirtieth", WORDS({0x42, 0x8003}, {0x46, 180}, {0xF6, 0x0203}, BOARD),
         CONFIGURED,
         RECEIVING_ONE_OF(TO(3, 3, 0, 0, 0, 0), TO(3, 2, 0, 0, 0, 0))),

    /* +6, destination and type are read at begin, a next offset in its descriptor's own turn; other turns'
       reports say nothing; bit 14 of +0 neither */
    CASE("read at begin", WORDS(SENDING, BOARD),
         INITIALISED,
         COMMANDING,
         STEP(NOTHING, TURN(0xFFFF), QUIET, WORDS({0x40, 0x4000}), LOW),
         STEP(WORDS({0x46, 0xFFFF}, {0x48, 0x9999}, {0x4E, 0x9999}), TURN(0xFFFF), QUIET, NOTHING, LOW),
         STEP(WORDS({0xA2, 0xA0}), TURN(0xFFFF), QUIET, NOTHING, LOW),
         ENDS(0, 18, WORDS({0x40, 0xA000}, {0x30, 0x2000}), WORDS({0, 0x0201}, {6, 0xFFFF}, {12, 0x0900},
              {14, 0x2211}, {16, 0x4433}, {18, 0}))),

    /* the source of a sent frame is the own address, here 02-03-04-05-06-07, as IA-Setup left it */
    CASE("source sent",
         WORDS({0x42, 0x0001}, {0x44, 0x80}, {0x46, 0x0302}, {0x48, 0x0504}, {0x4A, 0x0706}, {0x82, 0x8004},
               {0x86, 0xFFFF}, {0x88, 0x1211}, {0x8A, 0x1413}, {0x8C, 0x1615}, {0x8E, 0x0900}, BOARD),
         INITIALISED,
         COMMANDING,
         TURNED(NOTHING),
         TURNED(WORDS({0x40, 0xA000})),
         TURNED(NOTHING),
         ENDS(0, 14, WORDS({0x80, 0xA000}, {0x30, 0x2000}), WORDS({0, 0x1211}, {2, 0x1413}, {4, 0x1615},
              {6, 0x0302}, {8, 0x0504}, {10, 0x0706}, {12, 0x0900}, {14, 0}))),

    /* the outgoing area as the host leaves it is what is sent: nothing is read again */
    CASE("altered outgoing", WORDS({0x42, 0x8004}, {0x46, 0xFFFF}, {0x4E, 0x0900}, BOARD),
         INITIALISED,
         COMMANDING,
         TURNED(NOTHING),
         {TURN(0), EDGE, .length = 14, .sent = WORDS({12, 0x7777}, {40, 0x5555}), .words = WORDS({0x40, 0xA000}),
          .outgoing = WORDS({0, 0}, {12, 0x7777}, {40, 0x5555}), .level = HIGH}),

    CASE("altered holding", WORDS(DESCRIPTORS, BUFFER_AT(0xA0, 0xAA, 0xC0, 46), BOARD),
         INITIALISED,
         RECEIVING,
         CAME(BROADCAST(46), GOOD, NOTHING),
         TOUCHING(WORDS({14, 0x1111}, {0, 0x2222}), WORDS({0x60, 0x4000})),
         TOUCHING(WORDS({16, 0x3333}), WORDS({0xA0, 0xC02E}, {0xC0, 0x1111}, {0xC2, 0x3333}, {0xC4, 0x0605})),
         {TURN(0), EDGE, .held = WORDS({6, 0x4444}, {14, 0x9999}), .level = HIGH,
          .words = WORDS({0x60, 0xA000}, {0x68, 0x2222}, {0x6A, 0xFFFF}, {0x6E, 0x4444}, {0x70, 0x0504},
               {0xC0, 0x1111})}),

    /* a NOP's status has nothing of the report */
    CASE("report of nop", WORDS({0x42, 0x8000}, BOARD),
         INITIALISED,
         COMMANDING,
         TURNED(NOTHING),
         ENDS(0xFFFF, 0, WORDS({0x40, 0xA000}), NOTHING)),

    /* a buffer that would pass 2,048 bytes: 8100h whatever the report, none of it copied, EOF or not */
    CASE("too long", WORDS({0x42, 0x8004}, {0x46, 0xA0}, {0xA0, 0x87F3}, {0xA4, 0xC0}, {0xC0, 0x2211}, BOARD),
         INITIALISED,
         COMMANDING,
         TURNED(NOTHING),
         TURNED(NOTHING),
         ENDS(0xFFFF, 0, WORDS({0x40, 0x8100}, {0x30, 0x2000}), WORDS({14, 0}))),
    ENDLESS_BUFFERS(65, {0x60, 0}, {0x30, 0x1020}, {0x3C, 1}),
    ENDLESS_BUFFERS(64, {0x60, 0xA000}, {0xA0, 0xC001}, {0x86, 0xA0}, {0x30, 0x4040}, {0x3C, 0}),

    /* EL, S and +6 of the frame descriptor are read at begin, a buffer descriptor's next offset in its own
       turn; bit 14 of a size says nothing */
    CASE("stored as read",
         WORDS(DESCRIPTORS, BUFFER_AT(0xA0, 0xAA, 0xC0, 0x4014), BUFFER_AT(0xAA, 0xB4, 0xD4, 40), BOARD),
         INITIALISED,
         RECEIVING,
         CAME(BROADCAST(46), GOOD, NOTHING),
         TURNED(WORDS({0x60, 0x4000})),
         STEP(WORDS({0x62, 0xC000}, {0x66, 0xFFFF}), TURN(0), QUIET, WORDS({0xA0, 0x4014}), LOW),
         STEP(WORDS({0xA2, 0xFFFF}, {0xA8, 0x8000}), TURN(0), QUIET, WORDS({0xAA, 0xC01A}), LOW),
         SETTLING(WORDS({0x60, 0xA000}, {0x86, 0xB4}, {0x30, 0x4040}))),

    /* EL wins over S in a frame descriptor */
    CASE("no resources wins", WORDS({0x62, 0xC000}, DESCRIPTORS, BUFFER_AT(0xA0, 0xAA, 0xC0, 46), BOARD),
         INITIALISED,
         RECEIVING,
         CAME(BROADCAST(46), GOOD, NOTHING),
         TURNED(NOTHING),
         TURNED(NOTHING),
         SETTLING(WORDS({0x60, 0xA000}, {0x86, 0}, {0x30, 0x5020}))),

    /* FFFFh behind the buffer where the data ends is no lack: it is the next free offset */
    CASE("free of ones", WORDS(DESCRIPTORS, BUFFER_AT(0xA0, 0xFFFF, 0xC0, 46), BOARD),
         INITIALISED,
         RECEIVING,
         CAME(BROADCAST(46), GOOD, NOTHING),
         TURNED(NOTHING),
         TURNED(NOTHING),
         SETTLING(WORDS({0x60, 0xA000}, {0x86, 0xFFFF}, {0x30, 0x4040}))),

    /* FFFFh in a frame descriptor's link is an offset like any other: in 8,192 bytes 1FFFh, and its +6 is at 5
       */
    CASE("frame link of ones", WORDS({0x64, 0xFFFF}, {0x66, 0xA0}, BUFFER_AT(0xA0, 0xAA, 0xC0, 46), BOARD),
         INITIALISED,
         RECEIVING,
         CAME(BROADCAST(46), GOOD, NOTHING),
         TURNED(NOTHING),
         TURNED(NOTHING),
         SETTLING(WORDS({0x60, 0xA000}, {0x05, 0xAA}, {0x30, 0x4040})),
         CAME(BROADCAST(46), GOOD, NOTHING),
         TURNED(WORDS({0x1FFF, 0x4000}))),

    /* the SCB status is written after the next frame descriptor's +6, which stands on it */
    CASE("free then status", WORDS({0x64, 0x2A}, {0x66, 0xA0}, BUFFER_AT(0xA0, 0xAA, 0xC0, 46), BOARD),
         INITIALISED,
         RECEIVING,
         CAME(BROADCAST(46), GOOD, NOTHING),
         TURNED(NOTHING),
         TURNED(NOTHING),
         SETTLING(WORDS({0x60, 0xA000}, {0x30, 0x4040}))),

    /* RSCERRS follows the header bytes, two of which stand on it */
    CASE("counter after header", WORDS(SAVING, BOARD),
         CONFIGURED,
         STEP(WORDS({0x32, 0xF010}, {0x36, 0x2C}, {0x2E, 0}), ATTENTION, QUIET, NOTHING, LOW),
         CAME(BROADCAST(46), GOOD, NOTHING),
         STEP(WORDS({0x32, 0xFFFF}), TURN(0), QUIET, WORDS({0x2C, 0x4000}), LOW),
         SETTLING(WORDS({0x2C, 0x8200}, {0x3C, 0x0505}, {0x30, 0x5020}))),

    /* short and out of buffers, saved: both bits, and no counter, since it is not otherwise good */
    CASE("short saved lacks", WORDS(SAVING, DESCRIPTORS, BUFFER_AT(0xA0, 0xAA, 0xC0, 0x8014), BOARD),
         CONFIGURED,
         RECEIVING,
         CAME(BROADCAST(45), GOOD, NOTHING),
         TURNED(WORDS({0x60, 0x4000})),
         TURNED(WORDS({0xA0, 0x4014})),
         SETTLING(WORDS({0x60, 0x8280}, {0x30, 0x5020}, COUNTERS(0, 0, 0, 0)))),
    PACKED_SENT(0x02, 8, {0, 0x1211}, {2, 0x0302}, {4, 0x1413}, {6, 0x2221}, {8, 0}),
    PACKED_SENT(0x00, 4, {0, 0x1211}, {2, 0x2221}, {4, 0}),
    PACKED_SENT(0x0A, 2, {0, 0x2221}, {2, 0}),
    NO_BYTES_SENT(0, 0xA000),
    NO_BYTES_SENT(0x0020, 0x8020),
    PACKED_STORED(0x02, {0x68, 0xFFFF}, {0x6A, 0x0302}, {0x6C, 0x0504}, {0x6E, 0x7777}, {0xA0, 0xC036},
                  {0xC0, 0x0706}),
    PACKED_STORED(0x0A, {0x68, 0x7777}, {0x6A, 0x7777}, {0x6C, 0x7777}, {0xA0, 0xC03C}, {0xC0, 0xFFFF},
                  {0xC2, 0x0302}, {0xFA, 0x3B3A}),
    HELD_ACROSS(0x06, 0x0A, {0x88, 0xFFFF}, {0x8E, 0x0302}, {0x94, 0x0008}, {0xAA, 0xC02E}, {0x100, 0x0201}),
    HELD_ACROSS(0x0A, 0x06, {0x88, 0}, {0x8E, 0}, {0xAA, 0xC03C}, {0x100, 0xFFFF}, {0x106, 0x0302}),
    HELD_ACROSS(0x02, 0x06, {0x8C, 0xFFFF}, {0x8E, 0}, {0xAA, 0xC036}, {0x100, 0x0302}),
    SHORTEST(0x02, 5, SETTLING(WORDS({0x60, 0xA000}, {0x66, 0xFFFF}))),
    SHORTEST(0x0A, 5, TURNED(WORDS({0xA0, 0xC006}))),
    SHORTEST(0x08, 1, TURNED(WORDS({0xA0, 0xC002}))),

    /* the own address is compared by its first two bytes */
    CASE("own by two",
         WORDS({0x42, 0x0001}, {0x44, 0x80}, {0x46, 0x0302}, {0x48, 0x0504}, {0x4A, 0x0706}, {0x82, 0x8002},
               {0x86, 0x0004}, {0x88, 0x0200}, DESCRIPTORS, BOARD),
         BOTH_DONE,
         RECEIVING_ONE_OF(TO(2, 4, 4, 5, 6, 7), TO(2, 3, 9, 9, 9, 9))),

    /* "MC-Setup's addresses have that length": of five bytes two addresses of two, 03-02 and 05-02, and 07-03 is none
       of them */
    CASE("listed by two",
         WORDS({0x42, 0x0002}, {0x44, 0x80}, {0x46, 0x0004}, {0x48, 0x0200}, {0x82, 0x8003}, {0x86, 5},
               {0x88, 0x0203}, {0x8A, 0x0205}, {0x8C, 0x0307}, DESCRIPTORS, BOARD),
         BOTH_DONE,
         RECEIVING_ONE_OF(TO(7, 3, 0, 0, 0, 0), TO(5, 2, 9, 9, 9, 9))),

    /* a filter outlives the length it was made by: 01-22 falls on the bit of 03-02-00-00-00-00, and 03-02 does not */
    CASE("bits outlive",
         WORDS({0x42, 0x0003}, {0x44, 0x80}, {0x46, 6}, {0x48, 0x0203}, {0x82, 0x8002}, {0x86, 0x0004},
               {0x88, 0x0200}, DESCRIPTORS, BOARD),
         BOTH_DONE,
         RECEIVING_ONE_OF(TO(3, 2, 0, 0, 0, 0), TO(1, 0x22, 0, 0, 0, 0))),

    /* at length 0 "only promiscuous mode receives": all FFh is neither everyone's nor the own address, which is six
       FFh; received, its header is two bytes of type */
    CASE("nobodys",
         WORDS({0x42, 0x8002}, {0x46, 0x0004}, {0x52, 0x8002}, {0x56, 0x0009}, {0x5E, 1}, {0x6A, 0x7777}, DESCRIPTORS,
               BUFFER_AT(0xA0, 0xAA, 0xC0, 60), BOARD),
         CONFIGURED,
         RECEIVING,
         DROPPED(LQ_DROPPED_NO_MATCH, BROADCAST(46), GOOD, NOTHING),
         STEP(WORDS({0x32, 0x0100}, {0x34, 0x50}), ATTENTION, QUIET, WORDS({0x30, 0x0240}), LOW),
         TURNED(WORDS({0x60, 0})),
         SETTLING(WORDS({0x50, 0xA000})),
         CAME(BROADCAST(46), GOOD, NOTHING),
         TURNED(NOTHING),
         TURNED(WORDS({0xA0, 0xC03A}, {0xC0, 0xFFFF}, {0xC4, 0x0302})),
         SETTLING(WORDS({0x60, 0xA000}, {0x68, 0xFFFF}, {0x6A, 0x7777}))),
};

void edges(void)
{
    run_cases(cases, COUNT_OF(cases));
}
