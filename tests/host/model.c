/* See model.h. In the order of document 01; a comment quotes its sentence, or that of document 02. */
#include "model.h"
#include "paper_hash.h"

#include <string.h>

enum {
    CX = 0x8000, FR = 0x4000, CNA = 0x2000, RNR = 0x1000,
    EVENTS = 0xF000,
    C = 0x8000, B = 0x4000, OK = 0x2000, A = 0x1000,
    EL = 0x8000, S = 0x4000, I = 0x2000,
    EOF_BIT = 0x8000, F = 0x4000, LOW_14 = 0x3FFF,
    NONE = 0xFFFF,
    LONGEST = 2048, MOST_BUFFERS = 64, MOST_ADDRESS = 6
};

/* ---- "Calls, lent areas, refusals" ---- */

static bool allowed(size_t n)
{
    for (size_t power = 8192; power <= 16777216; power *= 2)
        if (n == power) return true;
    return false;
}

unsigned model_refusal(size_t memory_len, size_t holding_len, size_t outgoing_len, size_t record_len,
                       size_t frame_len)
{
    if (!allowed(memory_len)) return 1;
    if (record_len != 256) return 21;
    if (holding_len != 2048) return 22;
    if (outgoing_len != 2048) return 23;
    if (frame_len > LONGEST) return 3;
    return 0;
}

static struct answer nothing(void)
{
    return (struct answer){.number = 0};
}

static struct answer edge_if(bool edge)
{
    return (struct answer){.edge = edge};
}

/* "An arrival that is dropped also says why" */
static struct answer dropped(enum reason reason)
{
    return (struct answer){.reason = reason};
}

/* ---- "Two kinds of number in one column" ---- */

static uint8_t byte_at(struct lent l, uint32_t address)
{
    return l.memory[address % l.n];
}

static void put_byte(struct lent l, uint32_t address, unsigned byte)
{
    l.memory[address % l.n] = (uint8_t)byte;
}

static uint16_t word_at(struct lent l, uint32_t address)
{
    return (uint16_t)(byte_at(l, address) + 256 * byte_at(l, address + 1));
}

static void put_word(struct lent l, uint32_t address, unsigned word)
{
    put_byte(l, address, word & 255);
    put_byte(l, address + 1, word >> 8 & 255);
}

static uint32_t real_at(struct lent l, uint32_t address)
{
    return word_at(l, address) + 65536u * byte_at(l, address + 2);
}

/* the address of an offset */
static uint32_t at(const struct model *chip, uint16_t offset)
{
    return chip->base + offset;
}

/* ---- headers ---- */

/* "The header has twice the length plus two bytes" */
static unsigned header_of(struct addressing addressing)
{
    return 2u * addressing.length + 2u;
}

/* the bytes of a frame that are not in buffers: its header, and none where "the whole frame goes through buffers" */
static unsigned outside_buffers(struct addressing addressing)
{
    return addressing.in_buffers ? 0 : header_of(addressing);
}

/* ---- reset ---- */

struct answer model_reset(struct model *chip)
{
    memset(chip, 0, sizeof *chip);
    memset(chip->own, 0xFF, sizeof chip->own);
    chip->settings.minimum = 64;
    chip->settings.addressing.length = MOST_ADDRESS;
    chip->served = UNIT_CU; /* "after reset RU first" */
    return nothing();
}

/* ---- the SCB's status and counters ---- */

static void write_status(const struct model *chip, struct lent l)
{
    put_word(l, at(chip, chip->scb), chip->events | (unsigned)chip->cu.state << 8 | (unsigned)chip->ru.state << 4);
}

enum counter { CRCERRS = 8, ALNERRS = 10, RSCERRS = 12, OVRNERRS = 14 };

/* "Counters are read from the SCB, increased modulo 65,536, written back." */
static void count(const struct model *chip, struct lent l, enum counter counter)
{
    uint32_t place = at(chip, chip->scb) + counter;
    put_word(l, place, word_at(l, place) + 1u);
}

/* ---- a unit's states: every change goes through these, so that what is forgotten is zero ---- */

static void cu_goes(struct model *chip, enum cu_state state, uint16_t block)
{
    if (chip->cu.state == CU_ACTIVE && state != CU_ACTIVE) chip->events |= CNA;
    memset(&chip->cu, 0, sizeof chip->cu);
    chip->cu.state = state;
    chip->cu.block = block;
}

static void ru_goes(struct model *chip, enum ru_state state, uint16_t descriptor)
{
    if (chip->ru.state == RU_READY && state != RU_READY) chip->events |= RNR;
    memset(&chip->ru, 0, sizeof chip->ru);
    chip->ru.state = state;
    chip->ru.descriptor = descriptor;
}

/* ---- "First attention after reset" ---- */

static struct answer first_attention(struct model *chip, struct lent l)
{
    uint32_t iscp = real_at(l, 0xFFFFFC);
    chip->scb = word_at(l, iscp + 2);
    chip->base = real_at(l, iscp + 4);
    chip->initialised = true;
    chip->events = CX | CNA;
    put_byte(l, iscp, 0);
    write_status(chip, l);
    put_word(l, at(chip, chip->scb) + 2, 0);
    return edge_if(true);
}

/* ---- "The SCB": the control table ---- */

enum code { START = 1, RESUME = 2, SUSPEND = 3, ABORT = 4 };

static void cu_start(struct model *chip, struct lent l)
{
    if (chip->cu.state == CU_IDLE || chip->cu.state == CU_SUSPENDED)
        cu_goes(chip, CU_ACTIVE, word_at(l, at(chip, chip->scb) + 4));
}

static void cu_resume(struct model *chip)
{
    if (chip->cu.state == CU_SUSPENDED) cu_goes(chip, CU_ACTIVE, chip->cu.block);
}

static void cu_suspend(struct model *chip)
{
    if (chip->cu.state != CU_ACTIVE) return;
    if (chip->cu.phase == COMMAND_NOT_BEGUN) cu_goes(chip, CU_SUSPENDED, chip->cu.block);
    else chip->cu.waiting = true;
}

static void cu_abort(struct model *chip, struct lent l)
{
    if (chip->cu.phase != COMMAND_NOT_BEGUN) put_word(l, at(chip, chip->cu.block), C | A);
    cu_goes(chip, CU_IDLE, 0);
}

static void obey_cuc(struct model *chip, struct lent l, unsigned code)
{
    switch (code) {
    case START: cu_start(chip, l); break;
    case RESUME: cu_resume(chip); break;
    case SUSPEND: cu_suspend(chip); break;
    case ABORT: cu_abort(chip, l); break;
    default: break;
    }
}

static void ru_start(struct model *chip, struct lent l)
{
    if (chip->ru.state != RU_READY) ru_goes(chip, RU_READY, word_at(l, at(chip, chip->scb) + 6));
}

static void ru_resume(struct model *chip)
{
    if (chip->ru.state == RU_SUSPENDED) ru_goes(chip, RU_READY, chip->ru.descriptor);
}

static void ru_suspend(struct model *chip)
{
    if (chip->ru.state != RU_READY) return;
    if (chip->ru.phase == FRAME_NONE) ru_goes(chip, RU_SUSPENDED, chip->ru.descriptor);
    else chip->ru.waiting = true;
}

static void ru_abort(struct model *chip, struct lent l)
{
    bool begun = chip->ru.phase != FRAME_NONE && chip->ru.phase != FRAME_HELD;
    if (begun) put_word(l, at(chip, chip->ru.descriptor), 0);
    ru_goes(chip, RU_IDLE, 0);
}

static void obey_ruc(struct model *chip, struct lent l, unsigned code)
{
    switch (code) {
    case START: ru_start(chip, l); break;
    case RESUME: ru_resume(chip); break;
    case SUSPEND: ru_suspend(chip); break;
    case ABORT: ru_abort(chip, l); break;
    default: break;
    }
}

/* "An attention, in order" */
struct answer model_attention(struct model *chip, struct lent l)
{
    if (!chip->initialised) return first_attention(chip, l);
    uint32_t command_at = at(chip, chip->scb) + 2;
    unsigned command = word_at(l, command_at);
    if (command & 0x80) {
        put_word(l, command_at, 0);
        return model_reset(chip);
    }
    chip->events &= (uint16_t)~(command & EVENTS);
    obey_cuc(chip, l, command >> 8 & 7);
    obey_ruc(chip, l, command >> 4 & 7);
    write_status(chip, l);
    put_word(l, command_at, 0);
    return edge_if(chip->events != 0);
}

/* ---- "Turns": the command unit ---- */

enum cmd { NOP, IA_SETUP, CONFIGURE, MC_SETUP, TRANSMIT, TDR, DUMP, DIAGNOSE };

/* "Block and descriptor fields are packed": destination, own address, type */
static void put_header(const struct model *chip, struct lent l, uint32_t block)
{
    unsigned length = chip->settings.addressing.length;
    for (unsigned i = 0; i < length; i++) {
        l.outgoing[i] = byte_at(l, block + 8 + i);
        l.outgoing[length + i] = chip->own[i];
    }
    for (unsigned i = 0; i < 2; i++) l.outgoing[2 * length + i] = byte_at(l, block + 8 + length + i);
}

/* "The header goes to the outgoing area at begin"; with location 1 "the chip inserts no source address" */
static void begin_transmit(struct model *chip, struct lent l)
{
    struct command_unit *cu = &chip->cu;
    uint32_t block = at(chip, cu->block);
    if (!chip->settings.addressing.in_buffers) put_header(chip, l, block);
    cu->filled = (uint16_t)outside_buffers(chip->settings.addressing);
    uint16_t first = word_at(l, block + 6);
    if (first == NONE) return;
    cu->phase = COMMAND_BUFFERS;
    cu->next = first;
}

static void begin_command(struct model *chip, struct lent l)
{
    struct command_unit *cu = &chip->cu;
    uint32_t block = at(chip, cu->block);
    unsigned command = word_at(l, block + 2);
    cu->el = (command & EL) != 0;
    cu->s = (command & S) != 0;
    cu->i = (command & I) != 0;
    cu->cmd = command & 7;
    cu->phase = COMMAND_END;
    if (cu->cmd == TRANSMIT) begin_transmit(chip, l);
    put_word(l, block, B);
}

static void transmit_fails(struct command_unit *cu)
{
    cu->phase = COMMAND_END_FAILED;
    cu->next = cu->used = cu->filled = 0;
}

static void transmit_is_whole(struct command_unit *cu)
{
    cu->phase = COMMAND_END;
    cu->next = cu->used = 0;
}

/* one descriptor: "one buffer turn each" */
static void transmit_buffer(struct model *chip, struct lent l)
{
    struct command_unit *cu = &chip->cu;
    uint32_t descriptor = at(chip, cu->next);
    unsigned word = word_at(l, descriptor);
    uint16_t next = word_at(l, descriptor + 2);
    uint32_t buffer = real_at(l, descriptor + 4);
    unsigned bytes = word & LOW_14;
    if (cu->filled + bytes > LONGEST) {
        transmit_fails(cu);
        return;
    }
    for (unsigned i = 0; i < bytes; i++) l.outgoing[cu->filled + i] = byte_at(l, buffer + i);
    cu->filled = (uint16_t)(cu->filled + bytes);
    cu->used++;
    cu->next = next;
    if (word & EOF_BIT) transmit_is_whole(cu);
    else if (next == NONE || cu->used == MOST_BUFFERS) transmit_fails(cu);
}

/* the actions: each answers the status */

/* "six bytes at +6", whatever the address length */
static unsigned ia_setup(struct model *chip, struct lent l, uint32_t block)
{
    for (unsigned i = 0; i < 6; i++) chip->own[i] = byte_at(l, block + 6 + i);
    return C | OK;
}

/* "7 and loopback still give 8000h": byte 3 is taken by every count */
static unsigned configure(struct model *chip, struct lent l, uint32_t block)
{
    uint32_t bytes = block + 6;
    unsigned taken = byte_at(l, bytes) & 15;
    if (taken < 4) taken = 4;
    if (taken > 12) taken = 12;
    unsigned third = byte_at(l, bytes + 3);
    if ((third & 7) > MOST_ADDRESS || (third & 0xC0)) return C;
    chip->settings.addressing = (struct addressing){.length = third & 7, .in_buffers = third >> 3 & 1};
    chip->settings.save_bad = byte_at(l, bytes + 2) >> 7;
    if (taken > 8) {
        unsigned eighth = byte_at(l, bytes + 8);
        chip->settings.promiscuous = eighth & 1;
        chip->settings.broadcast_disabled = eighth >> 1 & 1;
    }
    if (taken > 10) chip->settings.minimum = byte_at(l, bytes + 10);
    return C | OK;
}

/* "low 14 bits at +6 count bytes, addresses from +8, a remainder ignored"; "MC-Setup's addresses have that length; at 0
   it empties the filter". The filter is made anew */
static unsigned mc_setup(struct model *chip, struct lent l, uint32_t block)
{
    unsigned length = chip->settings.addressing.length;
    unsigned addresses = length == 0 ? 0 : (word_at(l, block + 6) & LOW_14) / length;
    chip->filter = 0;
    for (unsigned a = 0; a < addresses; a++) {
        uint8_t address[MOST_ADDRESS];
        for (unsigned i = 0; i < length; i++) address[i] = byte_at(l, block + 8 + length * a + i);
        chip->filter |= bit_of_first(address, length);
    }
    return C | OK;
}

static unsigned tdr(struct lent l, uint32_t block)
{
    put_word(l, block + 6, 0x8000);
    return C | OK;
}

/* "bits 10, 9, 7, 6, 5, 3-0 of the line report"; "OK, and the frame sent, exactly if 10, 9, 5 are clear" */
static unsigned transmit(const struct command_unit *cu, uint16_t report, unsigned *sent)
{
    if (cu->phase == COMMAND_END_FAILED) return 0x8100;
    bool ok = (report & (1 << 10 | 1 << 9 | 1 << 5)) == 0;
    if (ok) *sent = cu->filled;
    return C | (report & (1u << 10 | 1u << 9 | 1u << 7 | 1u << 6 | 1u << 5 | 15u)) | (ok ? OK : 0u);
}

static unsigned act(struct model *chip, struct lent l, uint16_t report, unsigned *sent)
{
    uint32_t block = at(chip, chip->cu.block);
    switch (chip->cu.cmd) {
    case NOP: return C | OK;
    case IA_SETUP: return ia_setup(chip, l, block);
    case CONFIGURE: return configure(chip, l, block);
    case MC_SETUP: return mc_setup(chip, l, block);
    case TRANSMIT: return transmit(&chip->cu, report, sent);
    case TDR: return tdr(l, block);
    case DUMP: return C;
    default: return C | OK; /* Diagnose */
    }
}

static struct answer end_command(struct model *chip, struct lent l, uint16_t report)
{
    struct command_unit ended = chip->cu;
    uint32_t block = at(chip, ended.block);
    unsigned sent = 0;
    put_word(l, block, act(chip, l, report, &sent));
    uint16_t link = word_at(l, block + 4);
    if (ended.i) chip->events |= CX;
    if (ended.el) cu_goes(chip, CU_IDLE, 0);
    else if (ended.s || ended.waiting) cu_goes(chip, CU_SUSPENDED, link);
    else cu_goes(chip, CU_ACTIVE, link);
    bool raised = ended.i || ended.el || ended.s || ended.waiting;
    if (raised) write_status(chip, l);
    return (struct answer){.length = sent, .edge = raised};
}

static struct answer serve_cu(struct model *chip, struct lent l, uint16_t report)
{
    switch (chip->cu.phase) {
    case COMMAND_NOT_BEGUN: begin_command(chip, l); return nothing();
    case COMMAND_BUFFERS: transmit_buffer(chip, l); return nothing();
    default: return end_command(chip, l, report);
    }
}

/* ---- "Arrival and storing" ---- */

static bool all_ones(const uint8_t *address, unsigned length)
{
    for (unsigned i = 0; i < length; i++)
        if (address[i] != 0xFF) return false;
    return true;
}

/* "at 0 ... only promiscuous mode receives": an address of no bytes is nobody's, though it equals every other */
static bool match(const struct model *chip, const uint8_t *destination)
{
    unsigned length = chip->settings.addressing.length;
    if (chip->settings.promiscuous) return true;
    if (length == 0) return false;
    if (all_ones(destination, length)) return !chip->settings.broadcast_disabled;
    if (memcmp(destination, chip->own, length) == 0) return true;
    return (destination[0] & 1) && (chip->filter & bit_of_first(destination, length)) != 0;
}

static enum verdict verdict_of(uint32_t verdict)
{
    return verdict == 0 ? VERDICT_GOOD : verdict == 1 ? VERDICT_CRC : VERDICT_MISALIGNED;
}

static void hold(struct model *chip, struct lent l, const uint8_t *frame, size_t length, enum verdict verdict,
                 bool is_short)
{
    memcpy(l.holding, frame, length);
    chip->ru.phase = FRAME_HELD;
    chip->ru.length = (uint16_t)length;
    chip->ru.verdict = verdict;
    chip->ru.is_short = is_short;
    chip->ru.save_bad = chip->settings.save_bad;
    chip->ru.under = chip->settings.addressing;
}

/* "In order": the first sentence that applies is the frame's fate, and the reason if that is to be dropped */
struct answer model_arrival(struct model *chip, struct lent l, const uint8_t *frame, size_t length, uint32_t number)
{
    if (length < header_of(chip->settings.addressing)) return dropped(TOO_FEW_BYTES);
    if (!match(chip, frame)) return dropped(NO_MATCH);
    if (chip->ru.state == RU_IDLE) return dropped(UNIT_IDLE);
    if (chip->ru.state == RU_SUSPENDED) return dropped(UNIT_SUSPENDED);
    if (chip->ru.phase != FRAME_NONE) {
        count(chip, l, OVRNERRS);
        return nothing();
    }
    enum verdict verdict = verdict_of(number);
    bool is_short = length + 4 < chip->settings.minimum;
    bool bad = is_short || verdict != VERDICT_GOOD;
    bool ready = chip->ru.state == RU_READY;
    if (!is_short && verdict == VERDICT_MISALIGNED) count(chip, l, ALNERRS);
    if (!is_short && verdict == VERDICT_CRC) count(chip, l, CRCERRS);
    if (bad && !(ready && chip->settings.save_bad)) return dropped(BAD_NOT_SAVED);
    if (ready) hold(chip, l, frame, length, verdict, is_short);
    else count(chip, l, RSCERRS);
    return nothing();
}

static void out_of_buffers(struct receive_unit *ru)
{
    ru->phase = FRAME_END_OUT_OF_BUFFERS;
    ru->next = ru->used = ru->done = 0;
}

static void frame_is_stored(struct receive_unit *ru, uint16_t next_free, bool last_el)
{
    ru->phase = FRAME_END;
    ru->next = next_free;
    ru->last_el = last_el;
    ru->used = ru->done = 0;
}

/* "Begin: read +2 and +6, write 4000h." */
static void begin_frame(struct model *chip, struct lent l)
{
    struct receive_unit *ru = &chip->ru;
    uint32_t descriptor = at(chip, ru->descriptor);
    unsigned command = word_at(l, descriptor + 2);
    uint16_t first = word_at(l, descriptor + 6);
    put_word(l, descriptor, B);
    ru->el = (command & EL) != 0;
    ru->s = (command & S) != 0;
    unsigned outside = outside_buffers(ru->under);
    if (ru->length == outside) {
        frame_is_stored(ru, first, false);
    } else if (first == NONE) {
        out_of_buffers(ru);
    } else {
        ru->phase = FRAME_BUFFERS;
        ru->next = first;
        ru->done = (uint16_t)outside;
    }
}

/* "Each buffer turn reads one descriptor whole, fills its buffer (size 0 too), then writes F, count, and EOF" */
static void store_buffer(struct model *chip, struct lent l)
{
    struct receive_unit *ru = &chip->ru;
    uint32_t descriptor = at(chip, ru->next);
    uint16_t next = word_at(l, descriptor + 2);
    uint32_t buffer = real_at(l, descriptor + 4);
    unsigned size_word = word_at(l, descriptor + 8);
    unsigned left = (unsigned)ru->length - ru->done;
    unsigned size = size_word & LOW_14;
    unsigned bytes = size < left ? size : left;
    bool ends = bytes == left;
    for (unsigned i = 0; i < bytes; i++) put_byte(l, buffer + i, l.holding[ru->done + i]);
    put_word(l, descriptor, F | bytes | (ends ? EOF_BIT : 0u));
    ru->done = (uint16_t)(ru->done + bytes);
    ru->used++;
    ru->next = next;
    if (ends) frame_is_stored(ru, next, (size_word & EL) != 0);
    else if ((size_word & EL) || next == NONE || ru->used == MOST_BUFFERS) out_of_buffers(ru);
}

static bool otherwise_good(const struct receive_unit *ru)
{
    return !ru->is_short && ru->verdict == VERDICT_GOOD;
}

/* "All bits that apply are set, 10 excluding 11. OK only with no error bit." */
static unsigned frame_status(const struct receive_unit *ru)
{
    unsigned errors = 0;
    if (ru->verdict == VERDICT_CRC) errors |= 1 << 11;
    if (ru->verdict == VERDICT_MISALIGNED) errors |= 1 << 10;
    if (ru->phase == FRAME_END_OUT_OF_BUFFERS) errors |= 1 << 9;
    if (ru->is_short) errors |= 1 << 7;
    return C | errors | (errors == 0 ? OK : 0u);
}

static void store_descriptor(const struct receive_unit *ru, struct lent l, uint32_t descriptor)
{
    unsigned outside = outside_buffers(ru->under);
    for (unsigned i = 0; i < outside; i++) put_byte(l, descriptor + 8 + i, l.holding[i]);
    put_word(l, descriptor, frame_status(ru));
    if (ru->length == outside) put_word(l, descriptor + 6, NONE);
}

static struct answer end_frame(struct model *chip, struct lent l)
{
    struct receive_unit ended = chip->ru;
    uint32_t descriptor = at(chip, ended.descriptor);
    bool out = ended.phase == FRAME_END_OUT_OF_BUFFERS;
    if (out && !ended.save_bad) {
        put_word(l, descriptor, 0);
    } else {
        store_descriptor(&ended, l, descriptor);
        chip->events |= FR;
    }
    if (out && otherwise_good(&ended)) count(chip, l, RSCERRS);
    if (out || ended.el || ended.last_el) {
        ru_goes(chip, RU_NO_RESOURCES, 0);
    } else {
        uint16_t link = word_at(l, descriptor + 4);
        put_word(l, at(chip, link) + 6, ended.next);
        ru_goes(chip, ended.s || ended.waiting ? RU_SUSPENDED : RU_READY, link);
    }
    write_status(chip, l);
    return edge_if(true);
}

static struct answer serve_ru(struct model *chip, struct lent l)
{
    switch (chip->ru.phase) {
    case FRAME_HELD: begin_frame(chip, l); return nothing();
    case FRAME_BUFFERS: store_buffer(chip, l); return nothing();
    default: return end_frame(chip, l);
    }
}

/* ---- "Turns": which unit is served ---- */

static bool cu_has_work(const struct model *chip)
{
    return chip->cu.state == CU_ACTIVE;
}

static bool ru_has_work(const struct model *chip)
{
    return chip->ru.phase != FRAME_NONE;
}

struct answer model_turn(struct model *chip, struct lent l, uint16_t report)
{
    bool cu_work = cu_has_work(chip), ru_work = ru_has_work(chip);
    if (!cu_work && !ru_work) return nothing();
    enum unit unit = cu_work && ru_work ? (chip->served == UNIT_CU ? UNIT_RU : UNIT_CU) : cu_work ? UNIT_CU : UNIT_RU;
    chip->served = unit;
    return unit == UNIT_CU ? serve_cu(chip, l, report) : serve_ru(chip, l);
}

struct answer model_run(struct model *chip, struct lent l, uint16_t report, uint16_t budget)
{
    struct answer last = nothing();
    unsigned taken = 0;
    while (taken < budget) {
        bool work = cu_has_work(chip) || ru_has_work(chip);
        last = model_turn(chip, l, report);
        taken++;
        if (!work || last.length != 0 || last.edge) break;
    }
    last.turns = taken;
    return last;
}
