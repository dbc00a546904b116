/*
 * Document 01 once more, in plain C: the chip with its state in a struct. The tests run it beside the archive and
 * compare every byte. It was written from document 01 and what document 02 changes of it, and paper_hash.c from
 * document 000, and shares no code with the chip.
 */
#ifndef MODEL_H
#define MODEL_H

#include <stdbool.h>
#include <stddef.h>
#include <stdint.h>

/* ---- the state. What a state does not use is zero, so two equal states are equal byte for byte ---- */

enum cu_state { CU_IDLE = 0, CU_SUSPENDED = 1, CU_ACTIVE = 2 };
enum ru_state { RU_IDLE = 0, RU_SUSPENDED = 1, RU_NO_RESOURCES = 2, RU_READY = 4 };
enum unit { UNIT_CU, UNIT_RU };
enum verdict { VERDICT_GOOD, VERDICT_CRC, VERDICT_MISALIGNED };

/* how many bytes an address has, 0 to 6, and where headers are: in block and descriptor or, location 1, in buffers */
struct addressing {
    uint8_t length;
    bool in_buffers;
};

/* how far a begun command is; only a Transmit has buffers */
enum command_phase { COMMAND_NOT_BEGUN, COMMAND_BUFFERS, COMMAND_END, COMMAND_END_FAILED };

/* how far a held frame is */
enum frame_phase { FRAME_NONE, FRAME_HELD, FRAME_BUFFERS, FRAME_END, FRAME_END_OUT_OF_BUFFERS };

struct command_unit {
    enum cu_state state;
    uint16_t block; /* Active: the block; Suspended: the one that RESUME goes to */
    enum command_phase phase;
    bool el, s, i, waiting;
    uint8_t cmd;
    uint16_t next;   /* buffers: the next descriptor */
    uint16_t used;   /* buffers: descriptors used */
    uint16_t filled; /* a Transmit that has not failed: bytes in the outgoing area */
};

struct receive_unit {
    enum ru_state state;
    uint16_t descriptor; /* Ready: the frame descriptor; Suspended: the one that RESUME goes to */
    enum frame_phase phase;
    bool waiting;
    bool el, s; /* of the frame descriptor, read at begin */
    enum verdict verdict;
    bool is_short, save_bad; /* judged at arrival */
    struct addressing under; /* as it was at arrival: "whatever Configure has said since" */
    uint16_t length;
    uint16_t next; /* buffers: the next descriptor; end: the next free one */
    uint16_t used; /* buffers: descriptors used */
    uint16_t done; /* buffers: bytes of the frame that are stored, a header outside the buffers counted */
    bool last_el;  /* end: EL stood in the last buffer descriptor used */
};

struct settings {
    bool save_bad, promiscuous, broadcast_disabled;
    uint8_t minimum;
    struct addressing addressing;
};

struct model {
    bool initialised;
    uint32_t base;
    uint16_t scb;
    uint16_t events; /* bits 15-12 of the status */
    enum unit served;
    struct settings settings;
    uint8_t own[6];
    uint64_t filter; /* bit k: groups that fall on k pass */
    struct command_unit cu;
    struct receive_unit ru;
};

/* ---- the calls ---- */

/* what is lent besides the state; n is an allowed size, the other two have 2,048 bytes */
struct lent {
    uint8_t *memory;
    size_t n;
    uint8_t *holding;
    uint8_t *outgoing;
};

/* why an arriving frame is dropped, in the order in which it is asked */
enum reason { NOT_DROPPED, TOO_FEW_BYTES, NO_MATCH, UNIT_IDLE, UNIT_SUSPENDED, BAD_NOT_SAVED };

struct answer {
    unsigned number;
    unsigned length;
    bool edge;
    unsigned reason; /* of an arrival: an enum reason */
    unsigned turns;  /* of a run: how many it took */
};

struct answer model_reset(struct model *chip);
struct answer model_attention(struct model *chip, struct lent lent);
struct answer model_arrival(struct model *chip, struct lent lent, const uint8_t *frame, size_t length,
                            uint32_t verdict);
struct answer model_turn(struct model *chip, struct lent lent, uint16_t report);

/* Turns in a row: until budget are taken, or one has sent a frame, reported an edge or found no work. */
struct answer model_run(struct model *chip, struct lent lent, uint16_t report, uint16_t budget);

/* The refusal that the lengths give, 0 if none: the first that applies of 1, 21, 22, 23, 3. frame_len is 0 for a call
   without a frame. Number 4 is not the model's: it has no record. */
unsigned model_refusal(size_t memory_len, size_t holding_len, size_t outgoing_len, size_t record_len,
                       size_t frame_len);

#endif
