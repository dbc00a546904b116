/*
 * Lentoquist: a software Intel 82586 LAN coprocessor, as its host sees it.
 *
 * Link with liblentoquist.a. There are five calls and no global state: all that the chip remembers between calls
 * is in the areas that the caller lends.
 *
 * The areas
 *
 *   memory     N bytes, N a power of two from LQ_MEMORY_MIN to LQ_MEMORY_MAX: the memory that the chip shares with
 *              its host. The caller owns it, and reads and writes it between calls as the emulated processor does.
 *   holding    LQ_HOLDING_SIZE bytes: a frame that has arrived and is not stored yet.
 *   outgoing   LQ_OUTGOING_SIZE bytes: a frame that is being sent. When an answer has a length, the frame that was
 *              sent is the first so many bytes of this area, and the caller takes it before the next call.
 *   record     LQ_RECORD_SIZE bytes: the device itself. lq_reset makes one; what it holds before is ignored.
 *
 * The caller keeps holding, outgoing and record between calls, one of each for each chip, and lends the same ones
 * again. It may alter holding and outgoing; the altered bytes are then used. It must not edit the record: copy it,
 * save it, compare it, and read bytes 0 to 5 as below. What holding and outgoing hold at first does not matter.
 *
 * The areas and the arriving frame must not overlap each other, and no other thread may use them during a call. No
 * pointer may be null, except that of an empty frame. These are the caller's duty: no call can see them broken.
 *
 * Words are two bytes, low byte first, whatever the byte order of the machine. Every address is taken modulo N, byte
 * by byte, so a word or a buffer may run over the end of memory.
 *
 * Time
 *
 * The chip does nothing by itself. A turn is one step of work of one of its two units, the command unit (CU) and the
 * receive unit (RU): one command or one frame takes a begin turn, at most 64 buffer turns and an end turn. With no
 * work a turn changes nothing. The caller decides how many turns to give, and when. It must bound them: a command
 * list may loop for ever (a NOP linked to itself), so never run turns "until the chip is idle". A fixed number per
 * slice of emulated time is the usual way.
 */
#ifndef LENTOQUIST_H
#define LENTOQUIST_H

#include <stdbool.h>
#include <stddef.h>
#include <stdint.h>

#ifdef __cplusplus
extern "C" {
#endif

/* The version of this interface and of the archive: pkg-config's too, which has it from here. The record's is below. */
#define LQ_VERSION "0.3.0"

/* ---- Sizes. Use these constants and no numbers: the holding area will grow. ---- */

#define LQ_RECORD_SIZE   256
#define LQ_HOLDING_SIZE  2048
#define LQ_OUTGOING_SIZE 2048
#define LQ_FRAME_MAX     2048     /* the longest frame that may arrive, and that is sent; without FCS */
#define LQ_MEMORY_MIN    8192
#define LQ_MEMORY_MAX    16777216

/* The header of a frame: destination and source, 0 to 6 bytes each, as Configure has set it, and two bytes of type. A
   shorter frame that arrives is dropped. */
#define LQ_FRAME_HEADER(length) (2 * (length) + 2)

/* ---- The calls. Each answers with a number that the functions below take apart. ---- */

/* Makes the record of a chip that was just reset. Takes the record alone; the other areas keep their bytes. */
uint64_t lq_reset(uint8_t *record, size_t record_len);

/* Channel attention. The first one after a reset initialises the chip from SCP and ISCP and obeys no command word;
   every other one obeys the SCB's command word. */
uint64_t lq_attention(uint8_t *memory, size_t memory_len, uint8_t *holding, size_t holding_len,
                      uint8_t *outgoing, size_t outgoing_len, uint8_t *record, size_t record_len);

/* A frame arrives from the line, without its FCS; verdict is what the line side found of it: LQ_VERDICT_.., or any
   other 32-bit number, which means misaligned. An empty frame is allowed, and may be null with length 0. It is not
   kept: the chip copies what it holds. */
uint64_t lq_arrival(uint8_t *memory, size_t memory_len, uint8_t *holding, size_t holding_len,
                    uint8_t *outgoing, size_t outgoing_len, uint8_t *record, size_t record_len,
                    const uint8_t *frame, size_t frame_len, uint32_t verdict);

/* One turn. report is what the line says of a frame that is being sent, LQ_REPORT_.. bits; it is used only by the
   turn that ends a Transmit, and 0 says that all went well. */
uint64_t lq_turn(uint8_t *memory, size_t memory_len, uint8_t *holding, size_t holding_len,
                 uint8_t *outgoing, size_t outgoing_len, uint8_t *record, size_t record_len,
                 uint16_t report);

/* Turns in a row, at the price of one call: until budget of them are taken, or until one has sent a frame of at least
   one byte, reported an edge or found no work, which is then the last one. Everything is as after that many calls of
   lq_turn with the same report; the answer is that of the last one, and lq_turns says how many were taken. A budget of
   0 takes none. */
uint64_t lq_run(uint8_t *memory, size_t memory_len, uint8_t *holding, size_t holding_len,
                uint8_t *outgoing, size_t outgoing_len, uint8_t *record, size_t record_len,
                uint16_t report, uint16_t budget);

/* ---- Answers: number in bits 0-15, length in bits 16-31, edge in bit 32, of an arrival the reason in bits 40-47, of a
   run the turns in bits 48-63. The other bits are 0 and reserved. ---- */

/* The number: LQ_ACCEPTED, or why the call was refused: the first of these, in this order, that applies. A refused call
   has changed nothing, and the rest of its answer is 0. Every call but lq_reset asks the length of every area, used or
   not; lq_arrival alone can give LQ_REFUSED_OVERLONG; lq_reset gives LQ_REFUSED_RECORD and no other. */
#define LQ_ACCEPTED         0
#define LQ_REFUSED_MEMORY   1  /* memory_len is not a power of two, or out of bounds */
#define LQ_REFUSED_RECORD   21 /* record_len is not LQ_RECORD_SIZE */
#define LQ_REFUSED_HOLDING  22 /* holding_len is not LQ_HOLDING_SIZE */
#define LQ_REFUSED_OUTGOING 23 /* outgoing_len is not LQ_OUTGOING_SIZE */
#define LQ_REFUSED_OVERLONG 3  /* the frame has more than LQ_FRAME_MAX bytes */
#define LQ_REFUSED_FOREIGN  4  /* the record is no image of a state: never reset, edited, or of another version */

static inline unsigned lq_number(uint64_t answer)
{
    return (unsigned)(answer & 0xFFFF);
}

/* The length of the frame that was sent, 0 if none was: its bytes are outgoing[0] to outgoing[length - 1]. A frame of
   no bytes (LQ_ADDRESS_LOCATION) shows in the Transmit's status alone: there is nothing to take, and no run stops for
   it. */
static inline size_t lq_length(uint64_t answer)
{
    return (size_t)(answer >> 16 & 0xFFFF);
}

/* An interrupt edge: an event was raised (also one that was set already), or an attention left an event set. */
static inline bool lq_edge(uint64_t answer)
{
    return (answer >> 32 & 1) != 0;
}

/* Why an arriving frame was dropped. The chip asks in this order, and the first that applies is the reason; before
   LQ_DROPPED_BAD it asks whether a frame is held already. LQ_NOT_DROPPED: it is held; or it was lost and counted, by
   OVRNERRS since a frame was held, by RSCERRS since there were no resources; or the call was refused. The answers of all
   other calls have it too. */
#define LQ_NOT_DROPPED       0
#define LQ_DROPPED_TOO_FEW   1 /* it is shorter than a header, LQ_FRAME_HEADER of the length that is configured */
#define LQ_DROPPED_NO_MATCH  2 /* it is not addressed to this chip */
#define LQ_DROPPED_IDLE      3 /* the receive unit is Idle: not started, or the chip is not initialised yet */
#define LQ_DROPPED_SUSPENDED 4 /* the receive unit is Suspended */
#define LQ_DROPPED_BAD       5 /* short, or the verdict is bad, and it is not saved; CRCERRS or ALNERRS may have grown */

static inline unsigned lq_reason(uint64_t answer)
{
    return (unsigned)(answer >> 40 & 0xFF);
}

/* How many turns a run has taken, the last one included; 0 if it was refused, and in the answers of all other calls.
   Fewer than budget, with no frame sent and no edge: there was no work left. */
static inline unsigned lq_turns(uint64_t answer)
{
    return (unsigned)(answer >> 48);
}

/* ---- The record: what a caller may read of it ---- */

/* Bytes 0-2 are the letters BGT, bytes 3-4 the version, low byte first. */
#define LQ_RECORD_LETTERS      "BGT"
#define LQ_RECORD_VERSION_AT   3
#define LQ_RECORD_VERSION      1

/* Byte 5 has the events, in every version; its low four bits are 0. It says nothing of a record that is refused by
   LQ_REFUSED_FOREIGN. */
#define LQ_RECORD_EVENTS_AT 5
/* The first attention after a reset sets CX and CNA, whatever happened. */
#define LQ_EVENT_CX  0x80 /* a command with I was completed */
#define LQ_EVENT_FR  0x40 /* a frame was received */
#define LQ_EVENT_CNA 0x20 /* the command unit left Active */
#define LQ_EVENT_RNR 0x10 /* the receive unit left Ready */

/* The interrupt's level: high while an event is set. Attentions acknowledge events and so take it down. */
static inline bool lq_interrupt(const uint8_t *record)
{
    return record[LQ_RECORD_EVENTS_AT] != 0;
}

/* ---- Verdicts on an arriving frame ---- */

#define LQ_VERDICT_GOOD       0
#define LQ_VERDICT_CRC        1
#define LQ_VERDICT_MISALIGNED 2 /* and every other number */

/* ---- The line's report on a sent frame: these bits go to the Transmit's status, the others are ignored ---- */

#define LQ_REPORT_BITS     0x06EF
#define LQ_REPORT_FAILURES 0x0620 /* with one of these the frame counts as not sent: no OK, length 0 */
#define LQ_REPORT_NO_CARRIER   0x0400
#define LQ_REPORT_NO_CTS       0x0200
#define LQ_REPORT_DEFERRED     0x0080
#define LQ_REPORT_HEARTBEAT    0x0040
#define LQ_REPORT_COLLISIONS   0x0020 /* too many of them */
#define LQ_REPORT_RETRIES      0x000F /* how many collisions there were */

/* ---- What the host and the chip share in memory ----
 *
 * A real address has 24 bits, in three bytes: a word, then the low byte of the next word. An offset has 16 bits; its
 * address is the SCB base plus the offset. Fields below are given by their distance from the structure's address.
 */

/* SCP, at a fixed real address, so the last bytes of memory. */
#define LQ_SCP      0xFFFFF6u
#define LQ_SCP_ISCP 0xFFFFFCu /* real address of ISCP; modulo N it is N - 4 */

/* ISCP */
#define LQ_ISCP_BUSY     0 /* a byte: cleared when the chip is initialised */
#define LQ_ISCP_SCB      2 /* offset of the SCB */
#define LQ_ISCP_BASE     4 /* the SCB base, a real address */

/* SCB */
#define LQ_SCB_STATUS   0
#define LQ_SCB_COMMAND  2
#define LQ_SCB_CBL      4 /* offset of the first command block */
#define LQ_SCB_RFA      6 /* offset of the first frame descriptor */
#define LQ_SCB_CRCERRS  8
#define LQ_SCB_ALNERRS  10
#define LQ_SCB_RSCERRS  12
#define LQ_SCB_OVRNERRS 14
#define LQ_SCB_SIZE     16

/* The SCB's status word. In the command word the same four bits acknowledge the events. */
#define LQ_CX  0x8000
#define LQ_FR  0x4000
#define LQ_CNA 0x2000
#define LQ_RNR 0x1000
#define LQ_EVENTS 0xF000

#define LQ_CUS(status) ((status) >> 8 & 7)
#define LQ_CUS_IDLE      0
#define LQ_CUS_SUSPENDED 1
#define LQ_CUS_ACTIVE    2

#define LQ_RUS(status) ((status) >> 4 & 7)
#define LQ_RUS_IDLE         0
#define LQ_RUS_SUSPENDED    1
#define LQ_RUS_NO_RESOURCES 2
#define LQ_RUS_READY        4

/* The SCB's command word: acknowledged events, LQ_CUC(code), LQ_RUC(code), LQ_RESET. The chip obeys it at an
   attention and then writes 0 there. Every code acts in some states only; elsewhere it does nothing. */
#define LQ_CUC(code) ((code) << 8)
#define LQ_RUC(code) ((code) << 4)
#define LQ_START   1
#define LQ_RESUME  2
#define LQ_SUSPEND 3
#define LQ_ABORT   4
#define LQ_RESET   0x0080

/* Command blocks */
#define LQ_CB_STATUS  0
#define LQ_CB_COMMAND 2
#define LQ_CB_LINK    4 /* offset of the next block; FFFFh is an offset like any other, only EL ends a list */
#define LQ_CB_DATA    6 /* where the parameters begin */

/* Status words of blocks and frame descriptors */
#define LQ_C     0x8000 /* complete */
#define LQ_B     0x4000 /* begun */
#define LQ_OK    0x2000
#define LQ_A     0x1000 /* a command that was aborted */
#define LQ_UNSENT 0x0100 /* a Transmit whose buffers were wrong: too long, or no EOF */

/* Command words of blocks; EL and S also in frame descriptors */
#define LQ_EL    0x8000 /* the last of the list */
#define LQ_S     0x4000 /* suspend after it */
#define LQ_I     0x2000 /* raise CX after it */
#define LQ_CMD   0x0007
#define LQ_CMD_NOP       0
#define LQ_CMD_IA_SETUP  1 /* LQ_CB_DATA: six bytes, whatever the address length; the first ones, up to it, count */
#define LQ_CMD_CONFIGURE 2 /* LQ_CB_DATA: the count, then the bytes, see LQ_CONFIGURE_.. */
#define LQ_CMD_MC_SETUP  3 /* LQ_CB_DATA: byte count, a word; then the addresses, see LQ_MC_.. */
#define LQ_CMD_TRANSMIT  4
#define LQ_CMD_TDR       5 /* LQ_CB_DATA: the result, a word */
#define LQ_CMD_DUMP      6 /* not offered: ends without OK */
#define LQ_CMD_DIAGNOSE  7

/* Configure: byte n is at LQ_CB_DATA + n. One that asks for a length of 7 or for loopback ends without OK and changes
   nothing. */
#define LQ_CONFIGURE_COUNT   0  /* how many bytes are taken, 4 to 12, this one included */
#define LQ_CONFIGURE_SAVE    2  /* bit 7: save bad frames */
#define LQ_CONFIGURE_ADDRESS 3  /* bits 2-0: address length, 0 to 6; LQ_ADDRESS_LOCATION; bits 6 and 7: loopback */
#define LQ_CONFIGURE_FILTER  8  /* bit 0: promiscuous; bit 1: broadcast disabled */
#define LQ_CONFIGURE_MINIMUM 10 /* minimum frame length, FCS counted: 64 after reset */
#define LQ_SAVE_BAD           0x80
#define LQ_ADDRESS_LOCATION   0x08 /* headers are in buffers, see below; clear after reset */
#define LQ_PROMISCUOUS        0x01
#define LQ_BROADCAST_DISABLED 0x02

#define LQ_ADDRESS_LENGTH_AFTER_RESET 6

/* Addresses. Every Configure that is done sets the address length, and with it where fields are: they are packed. A
   macro that takes a length takes this one; of a received frame, the one that it arrived under. Of the own address
   the first bytes count, up to the length, and a frame to everyone has so many bytes FFh. With a length of 0 only
   promiscuous mode receives. Own address and filter stay as they are when the length changes.

   With LQ_ADDRESS_LOCATION the whole frame goes through buffers, header and all. A Transmit sends what its buffers
   hold: destination and type of the block are not read, and the own address is not inserted. A received frame begins
   in its first buffer, and of its frame descriptor no byte is written from LQ_FD_DESTINATION on. What arrives is
   compared as ever, so one that is shorter than a header is dropped. Buffers that hold no byte, or none at all, make
   a frame of no bytes: the Transmit has the status that the line reports, and the answer the length 0.

   A held frame is stored by the length and location that it arrived under, whatever a Configure has said since. */

/* MC-Setup. Each address, of the length that is configured, falls on one bit of a filter of 64; the new filter
   replaces the old one. A count below the length leaves it empty, and so does any count where the length is 0. A
   frame to a group, the low bit of its first byte set, passes if its bit is set: so groups that were not listed may
   pass too, and the host looks at the destination again. The filter has no say on frames to everyone, all FFh:
   LQ_CONFIGURE_FILTER alone decides on them. */
#define LQ_MC_COUNT     6 /* bytes, in bits 13-0, any number; a remainder of the division by the length is ignored */
#define LQ_MC_ADDRESSES 8

/* Transmit. With LQ_ADDRESS_LOCATION destination and type are not used. */
#define LQ_TRANSMIT_BUFFER       6 /* offset of the first transmit buffer descriptor, or LQ_NONE */
#define LQ_TRANSMIT_DESTINATION  8
#define LQ_TRANSMIT_TYPE(length) (LQ_TRANSMIT_DESTINATION + (length))

/* Transmit buffer descriptors */
#define LQ_TBD_COUNT  0 /* LQ_EOF, and the count in bits 13-0 */
#define LQ_TBD_NEXT   2 /* offset of the next one, or LQ_NONE */
#define LQ_TBD_BUFFER 4 /* real address */

/* Frame descriptors. With LQ_ADDRESS_LOCATION destination, source and type are not used. */
#define LQ_FD_STATUS      0
#define LQ_FD_COMMAND     2 /* LQ_EL, LQ_S */
#define LQ_FD_LINK        4 /* offset of the next one */
#define LQ_FD_BUFFER      6 /* offset of the first receive buffer descriptor, or LQ_NONE */
#define LQ_FD_DESTINATION 8
#define LQ_FD_SOURCE(length) (LQ_FD_DESTINATION + (length))
#define LQ_FD_TYPE(length)   (LQ_FD_DESTINATION + 2 * (length))
#define LQ_FD_SIZE        22 /* with the longest addresses */

/* Error bits in a frame descriptor's status, besides LQ_C, LQ_B and LQ_OK */
#define LQ_FD_CRC            0x0800
#define LQ_FD_ALIGNMENT      0x0400
#define LQ_FD_OUT_OF_BUFFERS 0x0200
#define LQ_FD_SHORT          0x0080

/* Receive buffer descriptors */
#define LQ_RBD_COUNT  0 /* LQ_EOF, LQ_F, and the count in bits 13-0: written by the chip, whole */
#define LQ_RBD_NEXT   2 /* offset of the next one, or LQ_NONE */
#define LQ_RBD_BUFFER 4 /* real address */
#define LQ_RBD_SIZE   8 /* LQ_EL, and the size in bits 13-0 */

#define LQ_EOF  0x8000 /* the frame ends in this buffer */
#define LQ_F    0x4000 /* this buffer was filled */
#define LQ_COUNT 0x3FFF
#define LQ_NONE 0xFFFF

#ifdef __cplusplus
}
#endif

#endif
