/*
 * The board that the worked cases run on: 8,192 bytes, all structures below 256 but the SCP's pointer, and the steps
 * that several cases share.
 */
#ifndef BOARD_H
#define BOARD_H

#include "harness.h"

/* SCP's pointer, at N - 4; ISCP at 20h: BUSY, SCB offset 30h, the base */
#define BOARD_AT(base) {8188, 0x20}, {0x20, 1}, {0x22, 0x30}, {0x24, base}
#define BOARD BOARD_AT(0)

/* a receive area: frame descriptors at 60h and 80h, the first linked to the second, and the first buffer descriptor
   at A0h */
#define DESCRIPTORS {0x64, 0x80}, {0x66, 0xA0}

/* a receive buffer descriptor at a: next offset, real address, size */
#define BUFFER_AT(a, next, real, size) {(a) + 2, next}, {(a) + 4, real}, {(a) + 8, size}

#define GOOD       LQ_VERDICT_GOOD
#define CRC        LQ_VERDICT_CRC
#define MISALIGNED LQ_VERDICT_MISALIGNED

/* ---- frames ---- */

/* to everyone, from 02-03-04-05-06-07, type 0008h, with n bytes of data that count up from 1 */
#define BROADCAST(n_) \
    (&(const struct frame_form){14, {255, 255, 255, 255, 255, 255, 2, 3, 4, 5, 6, 7, 8, 0}, 1, 1, n_})

/* 60 bytes to an address */
#define TO(a, b, c, d, e, f) (&(const struct frame_form){6, {a, b, c, d, e, f}, 1, 1, 54})

/* n bytes 02h; n bytes FFh, also behind a first byte */
#define TWOS(n_) (&(const struct frame_form){0, {0}, 2, 0, n_})
#define ONES(n_) (&(const struct frame_form){0, {0}, 255, 0, n_})
#define ONES_AFTER(first, n_) (&(const struct frame_form){1, {first}, 255, 0, n_})

/* n bytes that count up from k, behind a first byte */
#define COUNTING_AFTER(first, k, n_) (&(const struct frame_form){1, {first}, k, 1, n_})

/* ---- steps ---- */

#define RESET           .kind = CALL_RESET
#define ATTENTION       .kind = CALL_ATTENTION
#define ARRIVE(form, v) .kind = CALL_ARRIVAL, .frame = form, .verdict = v
#define TURN(r)         .kind = CALL_TURN, .report = r

#define QUIET .edge = false
#define EDGE  .edge = true

/* the host writes words; a call answers; words stand in memory; the interrupt has a level */
#define STEP(host_, call_, answer_, words_, level_) {.host = host_, call_, answer_, .words = words_, .level = level_}

/* the end turn of a Transmit: the report; the length; words of memory and of the outgoing area */
#define ENDS(report_, length_, words_, outgoing_) \
    {TURN(report_), .length = length_, EDGE, .words = words_, .outgoing = outgoing_, .level = HIGH}

/* a turn that neither raises an event nor sends; such a turn several times */
#define TURNED(words_) STEP(NOTHING, TURN(0), QUIET, words_, UNSAID)
#define TURNED_TIMES(times_, words_) {TURN(0), QUIET, .words = words_, .times = times_}

/* a frame that comes and is dropped for a reason; one that comes and is held, or lost and counted */
#define DROPPED(reason_, form, v, words_) {ARRIVE(form, v), QUIET, .reason = reason_, .words = words_}
#define CAME(form, v, words_) DROPPED(LQ_NOT_DROPPED, form, v, words_)

/* the first attention */
#define INITIALISED STEP(NOTHING, ATTENTION, EDGE, WORDS({0x30, 0xA000}), HIGH)

/* the receive unit is started at the frame descriptor 60h, and every event acknowledged */
#define RECEIVING \
    STEP(WORDS({0x32, 0xF010}, {0x36, 0x60}), ATTENTION, QUIET, WORDS({0x30, 0x0040}, {0x32, 0}), LOW)

/* the same; then a frame that is not for us is dropped, and a turn finds nothing to do; and one that is for us is held
   and begun */
#define RECEIVING_ONE_OF(other, ours) \
    RECEIVING, \
    DROPPED(LQ_DROPPED_NO_MATCH, other, GOOD, NOTHING), \
    TURNED(WORDS({0x60, 0})), \
    CAME(ours, GOOD, NOTHING), \
    TURNED(WORDS({0x60, 0x4000}))

/* the command unit is started at the block 40h, and every event acknowledged */
#define COMMANDING \
    STEP(WORDS({0x32, 0xF100}, {0x34, 0x40}), ATTENTION, QUIET, WORDS({0x30, 0x0200}, {0x32, 0}), LOW)

/* both */
#define WORKING \
    STEP(WORDS({0x32, 0xF110}, {0x34, 0x40}, {0x36, 0x60}), ATTENTION, QUIET, WORDS({0x30, 0x0240}, {0x32, 0}), LOW)

/* an attention with a command word, without an edge and with one */
#define ATTENDED(command, words_) STEP(WORDS({0x32, command}), ATTENTION, QUIET, words_, UNSAID)
#define RAISING(command, words_)  STEP(WORDS({0x32, command}), ATTENTION, EDGE, words_, HIGH)

/* a turn that reports an edge */
#define SETTLING(words_) STEP(NOTHING, TURN(0), EDGE, words_, HIGH)

/* the command at 40h is run to its end, and ends the list */
#define CONFIGURED INITIALISED, COMMANDING, TURNED(NOTHING), SETTLING(WORDS({0x40, 0xA000}))

/* a Configure at 40h that sets save-bad */
#define SAVING {0x42, 0x8002}, {0x46, 0x0804}, {0x48, 0x0680}

/* the four counters, in their order */
#define COUNTERS(c, a, r, o) {0x38, c}, {0x3A, a}, {0x3C, r}, {0x3E, o}

#endif
