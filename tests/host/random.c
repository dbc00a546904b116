/*
 * Random calls on random memory with random host writes, compared with the model call by call. The memory is shaped so
 * that the units get somewhere: structures of each kind stand at a few spots, which may lie over each other, and point
 * to each other.
 * From the same seed come the same calls, with every compiler: no expression draws two numbers whose order is open. At
 * the end every kind of turn, every reason, every address length and both locations must have happened often enough.
 */
#include "setup.h"

/* ---- numbers ---- */

static unsigned below(unsigned n)
{
    return (unsigned)(random_bits() % n);
}

static bool one_in(unsigned n)
{
    return below(n) == 0;
}

/* ---- the board of an episode ---- */

enum structure { BLOCK, TBD, FD, RBD, STRUCTURES };
enum { SPOTS = 6 };

struct board {
    struct chip chip;
    uint32_t base, iscp;
    unsigned scb;
    unsigned spots[STRUCTURES][SPOTS]; /* offsets where structures of a kind stand */
};

static const uint8_t OWN[6] = {2, 7, 1, 0, 0, 42}, GROUP[6] = {1, 0, 94, 0, 0, 1};

static uint32_t random_base(void)
{
    switch (below(4)) {
    case 0: return 0;
    case 1: return below(0x400);
    case 2: return 0xFFFF00 + below(0x100);
    default: return below(0x1000000);
    }
}

static size_t random_size(void)
{
    size_t least = one_in(200) ? 1048576 : one_in(10) ? 65536 : LQ_MEMORY_MIN;
    return least << below(2);
}

/* an offset of a structure: a spot of its kind, rarely of another, rarely beside one, rarely anything */
static unsigned random_offset(const struct board *board, enum structure kind)
{
    if (one_in(60)) return below(0x10000);
    if (one_in(20)) kind = (enum structure)below(STRUCTURES);
    unsigned spot = board->spots[kind][below(SPOTS)];
    return one_in(20) ? (spot + below(16)) & 0xFFFF : spot;
}

static unsigned offset_or_none(const struct board *board, enum structure kind)
{
    return one_in(10) ? LQ_NONE : random_offset(board, kind);
}

/* somewhere in a structure */
static uint32_t random_place(const struct board *board)
{
    unsigned offset = random_offset(board, (enum structure)below(STRUCTURES));
    return board->base + offset + below(24);
}

/* a buffer's real address: mostly away from the structures, at times just before the end of memory */
static uint32_t random_real(const struct board *board)
{
    if (one_in(8)) return random_place(board);
    if (one_in(8)) return (uint32_t)board->chip.lent.memory.length - 1 - below(48);
    if (one_in(10)) return below(0x1000000);
    return board->base + 0x1000 + below(0x400);
}

static unsigned random_count(void)
{
    return one_in(12) ? below(0x4000) : one_in(6) ? below(1200) : below(48);
}

/* of an MC-Setup: a few addresses, some, any count, more than 8,192 bytes */
static unsigned random_list_count(void)
{
    switch (below(4)) {
    case 0: return below(24);
    case 1: return below(200);
    case 2: return below(0x10000);
    default: return 0x2000 + below(0x2000);
    }
}

/* the word with bits set, once in n times */
static unsigned with(unsigned word, unsigned bits, unsigned n)
{
    return one_in(n) ? word | bits : word;
}

/* the address length and location that are set now */
static struct addressing addressing_now(const struct board *board)
{
    return board->chip.model.settings.addressing;
}

/* GROUP, or one of 64 groups with addresses of the length that is set now, which fall on as many bits */
static void draw_group(const struct board *board, uint8_t *address)
{
    unsigned length = addressing_now(board).length, number = below(64);
    if (length == 0 || one_in(3)) memcpy(address, GROUP, 6);
    else group_of(length, number, address);
}

/* ---- what the host writes ---- */

/* Configure's byte 3: as after reset, anything, but mostly any length but 7 and either location */
static unsigned random_third(void)
{
    if (one_in(4)) return LQ_ADDRESS_LENGTH_AFTER_RESET;
    if (one_in(8)) return below(256);
    unsigned length = below(ADDRESS_LENGTHS);
    return with(length, LQ_ADDRESS_LOCATION, 2);
}

/* a few groups in a row */
static void write_groups(struct board *board, uint32_t at)
{
    unsigned length = addressing_now(board).length;
    for (uint32_t a = below(4); a-- > 0;) {
        uint8_t group[6];
        draw_group(board, group);
        put_bytes(&board->chip, at + length * a, group, length);
    }
}

static void write_parameters(struct board *board, uint32_t at, unsigned cmd)
{
    struct chip *chip = &board->chip;
    switch (cmd) {
    case LQ_CMD_IA_SETUP:
        put_bytes(chip, at + 6, OWN, 6);
        break;
    case LQ_CMD_CONFIGURE:
        put_byte(chip, at + 6, below(256));
        put_byte(chip, at + 8, one_in(4) ? 0 : LQ_SAVE_BAD);
        put_byte(chip, at + 9, random_third());
        put_byte(chip, at + 14, below(4));
        put_byte(chip, at + 16, one_in(2) ? below(256) : 64);
        break;
    case LQ_CMD_MC_SETUP:
        put_word(chip, at + LQ_MC_COUNT, random_list_count());
        write_groups(board, at + LQ_MC_ADDRESSES);
        break;
    case LQ_CMD_TRANSMIT:
        put_word(chip, at + LQ_TRANSMIT_BUFFER, one_in(4) ? LQ_NONE : offset_or_none(board, TBD));
        break;
    default: break;
    }
}

static void write_block(struct board *board, uint32_t at)
{
    unsigned cmd = one_in(3) ? LQ_CMD_TRANSMIT : one_in(4) ? LQ_CMD_CONFIGURE : below(8);
    if (one_in(12)) cmd = LQ_CMD_MC_SETUP;
    unsigned word = with(with(with(with(cmd, LQ_EL, 6), LQ_S, 6), LQ_I, 3), 0x1FF8, 8);
    put_block(&board->chip, at, word, random_offset(board, BLOCK));
    write_parameters(board, at, cmd);
}

static void write_tbd(struct board *board, uint32_t at)
{
    unsigned count = with(with(random_count(), LQ_EOF, 2), 0x4000, 8);
    unsigned next = offset_or_none(board, TBD);
    put_tbd(&board->chip, at, count, next, random_real(board));
}

static void write_fd(struct board *board, uint32_t at)
{
    unsigned command = with(with(0, LQ_EL, 8), LQ_S, 8);
    unsigned link = random_offset(board, FD);
    put_fd(&board->chip, at, command, link, offset_or_none(board, RBD));
}

static void write_rbd(struct board *board, uint32_t at)
{
    unsigned size = with(with(random_count(), LQ_EL, 8), 0x4000, 8);
    unsigned next = offset_or_none(board, RBD);
    put_rbd(&board->chip, at, next, random_real(board), size);
}

static void write_structure(struct board *board)
{
    enum structure kind = (enum structure)below(STRUCTURES);
    uint32_t at = board->base + random_offset(board, kind);
    switch (kind) {
    case BLOCK: write_block(board, at); break;
    case TBD: write_tbd(board, at); break;
    case FD: write_fd(board, at); break;
    default: write_rbd(board, at); break;
    }
}

static void write_word(struct board *board)
{
    unsigned word = below(0x10000);
    switch (below(4)) {
    case 0: put_holding(&board->chip, below(80), word); break;
    case 1: put_outgoing(&board->chip, below(80), word); break;
    default: put_word(&board->chip, random_place(board), word); break;
    }
}

static void host_writes(struct board *board)
{
    if (one_in(8)) write_word(board);
    else write_structure(board);
}

/* a memory: sometimes all random bytes first, then structures at the spots */
static struct board random_board(void)
{
    struct board board = {.base = random_base()};
    board.scb = one_in(8) ? below(0x10000) : below(0x300);
    board.chip = chip_of(random_size());
    board.iscp = one_in(4) ? below(0x1000000) : board.base + 0x800;
    unsigned room = one_in(3) ? 0x100 : 0x800;
    for (unsigned k = 0; k < STRUCTURES; k++)
        for (unsigned i = 0; i < SPOTS; i++) board.spots[k][i] = below(one_in(20) ? 0x10000 : room);
    if (one_in(3))
        for (uint32_t i = 0; i < LQ_MEMORY_MIN; i++) put_byte(&board.chip, board.base + i, below(256));
    for (unsigned i = 0; i < 60; i++) write_structure(&board);
    put_scp(&board.chip, board.iscp, board.base, board.scb);
    return board;
}

/* ---- calls ---- */

static struct answer random_attention(struct board *board)
{
    uint32_t scb = board->base + board->scb;
    static const unsigned codes[16] = {0, 0, 0, 1, 1, 1, 1, 1, 1, 2, 2, 3, 4, 5, 6, 7};
    unsigned command = LQ_CUC(codes[below(16)]);
    command |= LQ_RUC(codes[below(16)]);
    command |= one_in(2) ? LQ_EVENTS : below(0x10000) & LQ_EVENTS;
    command = with(with(command, LQ_RESET, 100), 0x080F, 8);
    put_word(&board->chip, scb + LQ_SCB_COMMAND, command);
    if (one_in(2)) put_word(&board->chip, scb + LQ_SCB_CBL, random_offset(board, BLOCK));
    if (one_in(2)) put_word(&board->chip, scb + LQ_SCB_RFA, random_offset(board, FD));
    if (!board->chip.model.initialised) put_scp(&board->chip, board->iscp, board->base, board->scb);
    return call(&board->chip, ATTENTION_CALL);
}

/* The host starts a Configure. */
static struct answer configuring_attention(struct board *board)
{
    uint32_t scb = board->base + board->scb;
    unsigned offset = random_offset(board, BLOCK), link = random_offset(board, BLOCK);
    put_block(&board->chip, board->base + offset, with(LQ_CMD_CONFIGURE, LQ_EL, 2), link);
    write_parameters(board, board->base + offset, LQ_CMD_CONFIGURE);
    put_word(&board->chip, scb + LQ_SCB_CBL, offset);
    put_word(&board->chip, scb + LQ_SCB_COMMAND, LQ_EVENTS | LQ_CUC(LQ_START));
    return call(&board->chip, ATTENTION_CALL);
}

/* at times about as long as a header is now */
static size_t random_length(const struct board *board)
{
    if (one_in(5)) return LQ_FRAME_HEADER(addressing_now(board).length) - 1u + below(3);
    if (one_in(12)) return below(15);
    if (one_in(8)) return below(LQ_FRAME_MAX + 1);
    return 14 + below(one_in(3) ? 50 : 120);
}

/* the frame that arrived last */
static uint8_t frame[LQ_FRAME_MAX];
static size_t frame_length;

/* To everyone, to the own address, to a group, to anyone; what stands behind a short address is any, or as if it had six
   bytes. */
static struct answer random_arrival(struct board *board)
{
    uint8_t group[6];
    draw_group(board, group);
    size_t bytes = one_in(2) ? 6 : addressing_now(board).length;
    frame_length = random_length(board);
    for (size_t i = 0; i < frame_length; i++) frame[i] = (uint8_t)random_bits();
    const uint8_t *destination = one_in(2) ? EVERYONE : one_in(3) ? OWN : one_in(3) ? GROUP : one_in(2) ? group : frame;
    for (size_t i = 0; i < bytes && i < frame_length; i++) frame[i] = destination[i];
    uint32_t verdict = one_in(2) ? 0 : one_in(8) ? (uint32_t)random_bits() : below(3);
    return call(&board->chip, ARRIVAL_CALL(frame, frame_length, verdict));
}

/* a Configure is begun, and a frame that comes now is held across it */
static bool may_hold_across(const struct model *model)
{
    bool configuring = model->cu.phase == COMMAND_END && model->cu.cmd == LQ_CMD_CONFIGURE;
    return configuring && model->ru.state == RU_READY && model->ru.phase == FRAME_NONE;
}

/* A good frame to everyone, never short. */
static struct answer welcome_arrival(struct board *board)
{
    frame_length = 256 + below(64);
    for (size_t i = 0; i < frame_length; i++) frame[i] = i < 6 ? 0xFF : (uint8_t)random_bits();
    return call(&board->chip, ARRIVAL_CALL(frame, frame_length, LQ_VERDICT_GOOD));
}

static struct answer random_turn(struct board *board)
{
    return call(&board->chip, TURN_CALL(one_in(2) ? 0 : (uint16_t)random_bits()));
}

/* Any budget: none, a few, and more than a loop of commands needs to be seen going round. */
static struct answer random_run(struct board *board)
{
    uint16_t report = one_in(2) ? 0 : (uint16_t)random_bits();
    uint16_t budget = (uint16_t)(one_in(8) ? 0 : one_in(8) ? 140 : 1 + below(12));
    return call(&board->chip, RUN_CALL(report, budget));
}

/* A bit of the record is changed. The call is refused and changes nothing, or is taken; then all is put back. */
static void with_a_bit_changed(struct board *board)
{
    struct areas *lent = &board->chip.lent;
    uint8_t record[LQ_RECORD_SIZE], changed[LQ_RECORD_SIZE];
    unsigned bit = below(8 * LQ_RECORD_SIZE);
    memcpy(record, lent->record.bytes, LQ_RECORD_SIZE);
    lent->record.bytes[bit / 8] ^= (uint8_t)(1 << bit % 8);
    memcpy(changed, lent->record.bytes, LQ_RECORD_SIZE);
    const struct areas *m = &board->chip.modelled;
    unsigned number = lq_number(call_archive(lent, TURN_CALL(0)));
    CHECK(number == LQ_ACCEPTED || number == LQ_REFUSED_FOREIGN, "the number is %u", number);
    if (number == LQ_REFUSED_FOREIGN) {
        check_bytes("memory after a refusal", lent->memory.bytes, m->memory.bytes, m->memory.length);
        check_bytes("the holding area after a refusal", lent->holding.bytes, m->holding.bytes, LQ_HOLDING_SIZE);
        check_bytes("the outgoing area after a refusal", lent->outgoing.bytes, m->outgoing.bytes, LQ_OUTGOING_SIZE);
        check_bytes("the record after a refusal", lent->record.bytes, changed, LQ_RECORD_SIZE);
    }
    memcpy(lent->memory.bytes, m->memory.bytes, m->memory.length);
    memcpy(lent->holding.bytes, m->holding.bytes, LQ_HOLDING_SIZE);
    memcpy(lent->outgoing.bytes, m->outgoing.bytes, LQ_OUTGOING_SIZE);
    memcpy(lent->record.bytes, record, LQ_RECORD_SIZE);
}

/* ---- "one encoding per state": equal states have equal records, and equal records are of equal states ---- */

static uint64_t mix(uint64_t hash, uint64_t value)
{
    hash = (hash ^ value) * 0x9E3779B97F4A7C15u;
    return hash ^ hash >> 29;
}

static uint64_t hash_bytes(uint64_t hash, const uint8_t *bytes, size_t n)
{
    for (size_t i = 0; i < n; i++) hash = mix(hash, bytes[i]);
    return hash;
}

static uint64_t hash_state(const struct model *m)
{
    const struct command_unit *cu = &m->cu;
    const struct receive_unit *ru = &m->ru;
    const uint64_t fields[] = {
        m->initialised, m->base, m->scb, m->events, m->served, m->settings.save_bad, m->settings.promiscuous,
        m->settings.broadcast_disabled, m->settings.minimum, cu->state, cu->block, cu->phase, cu->el, cu->s, cu->i,
        cu->waiting, cu->cmd, cu->next, cu->used, cu->filled, ru->state, ru->descriptor, ru->phase, ru->waiting, ru->el,
        ru->s, ru->verdict, ru->is_short, ru->save_bad, ru->length, ru->next, ru->used, ru->done, ru->last_el,
        m->settings.addressing.length, m->settings.addressing.in_buffers, ru->under.length, ru->under.in_buffers};
    uint64_t hash = 1;
    for (size_t i = 0; i < COUNT_OF(fields); i++) hash = mix(hash, fields[i]);
    hash = hash_bytes(hash, m->own, sizeof m->own);
    return mix(hash, m->filter);
}

enum { SEEN = 1 << 14 };

struct pair {
    uint64_t key, value;
};

/* Remembers a pair, and fails if its key was seen with another value. */
static void check_pair(struct pair *seen, uint64_t key, uint64_t value, const char *what)
{
    struct pair *slot = &seen[key % SEEN];
    CHECK(slot->key != key || slot->value == value, "%s", what);
    *slot = (struct pair){key, value};
}

static void check_encoding(const struct chip *chip)
{
    static struct pair by_state[SEEN], by_record[SEEN];
    uint64_t state = hash_state(&chip->model);
    uint64_t record = hash_bytes(2, chip->lent.record.bytes, LQ_RECORD_SIZE);
    check_pair(by_state, state, record, "a state has two records");
    check_pair(by_record, record, state, "a record is of two states");
}

/* ---- what happened ---- */

enum event {
    CU_BEGIN, CU_BUFFER, CU_END, CU_END_FAILED, CU_WAITING, RU_BEGIN, RU_BUFFER, RU_END, RU_END_OUT, RU_WAITING,
    BOTH_WORK, NO_WORK, SENT, HELD_BAD, ABORTED_COMMAND, ABORTED_FRAME, RESETTING, OVERRUN, LIST_OVER_BLOCK,
    GROUP_PASSES, GROUP_DROPPED, FOR_TOO_FEW, FOR_NO_MATCH, FOR_IDLE, FOR_SUSPENDED, FOR_BAD, NOT_INITIALISED, LOST,
    SAVING_LOST, WHOLE_IN_BUFFERS, NO_BYTES, HELD_IN_BUFFERS, HEADER_LESS_ONE, HEADER_ALONE, HEADER_AND_ONE,
    OTHER_LENGTH, OTHER_LOCATION, BEGUN_UNDER_OTHER, HELD_UNDER, EVENT_KINDS = HELD_UNDER + ADDRESS_LENGTHS
};

static const char *const EVENT_NAMES[EVENT_KINDS] = {
    "commands begun", "transmit buffers", "commands ended", "failed transmits", "commands with a waiting SUSPEND",
    "frames begun", "receive buffers", "frames ended", "frames out of buffers", "frames with a waiting SUSPEND",
    "turns with both units at work", "turns with no work", "frames sent", "bad frames held", "commands aborted",
    "frames aborted", "resetting attentions", "frames while one is held", "lists around memory and over their block",
    "groups held by their bit", "groups dropped by a clear bit, others set", "frames dropped for too few bytes",
    "frames dropped for no match", "frames dropped in Idle", "frames dropped in Suspended", "bad frames dropped",
    "frames for a chip that is not initialised", "good frames in No Resources",
    "bad frames in No Resources with save-bad set", "transmits with their header in buffers", "transmits of no bytes",
    "frames held with location 1", "frames a byte short of a header in Ready", "headers held", "headers and a byte held",
    "frames ended under another length than is set", "frames ended under another location than is set",
    "frames begun under another length or location than is set", "frames held under length 0",
    "frames held under length 1", "frames held under length 2", "frames held under length 3",
    "frames held under length 4", "frames held under length 5", "frames held under length 6"};

static unsigned long happened[EVENT_KINDS];

/* the end of an MC-Setup whose list comes to its block again */
static bool is_over_its_block(const struct chip *chip, const struct model *before)
{
    if (before->cu.phase != COMMAND_END || before->cu.cmd != LQ_CMD_MC_SETUP) return false;
    unsigned count = word_of(chip, before->base + before->cu.block + LQ_MC_COUNT) & LQ_COUNT;
    unsigned length = before->settings.addressing.length;
    return length > 0 && LQ_MC_ADDRESSES + count / length * length > chip->lent.memory.length;
}

static void note_command(const struct chip *chip, const struct model *before)
{
    bool whole = before->cu.phase == COMMAND_END && before->cu.cmd == LQ_CMD_TRANSMIT;
    happened[CU_BEGIN + before->cu.phase]++;
    happened[CU_WAITING] += before->cu.waiting;
    happened[LIST_OVER_BLOCK] += is_over_its_block(chip, before);
    happened[WHOLE_IN_BUFFERS] += whole && before->settings.addressing.in_buffers && before->cu.filled > 0;
    happened[NO_BYTES] += whole && before->cu.filled == 0;
}

static void note_frame(const struct model *before)
{
    struct addressing under = before->ru.under, set = before->settings.addressing;
    bool ends = before->ru.phase == FRAME_END || before->ru.phase == FRAME_END_OUT_OF_BUFFERS;
    bool other = under.length != set.length || under.in_buffers != set.in_buffers;
    happened[RU_BEGIN + before->ru.phase - FRAME_HELD]++;
    happened[RU_WAITING] += before->ru.waiting;
    happened[OTHER_LENGTH] += ends && under.length != set.length;
    happened[OTHER_LOCATION] += ends && under.in_buffers != set.in_buffers;
    happened[BEGUN_UNDER_OTHER] += before->ru.phase == FRAME_HELD && other;
}

static void note_turn(const struct chip *chip, const struct model *before, const struct answer *answer)
{
    bool cu_work = before->cu.state == CU_ACTIVE, ru_work = before->ru.phase != FRAME_NONE;
    bool cu = cu_work && !(ru_work && before->served == UNIT_CU);
    happened[BOTH_WORK] += cu_work && ru_work;
    happened[NO_WORK] += !cu_work && !ru_work;
    happened[SENT] += answer->length > 0;
    if (cu) note_command(chip, before);
    else if (ru_work) note_frame(before);
}

static void note_attention(const struct model *before, const struct model *after)
{
    happened[RESETTING] += before->initialised && !after->initialised;
    if (!after->initialised) return;
    happened[ABORTED_COMMAND] += before->cu.phase != COMMAND_NOT_BEGUN && after->cu.state == CU_IDLE;
    happened[ABORTED_FRAME] += before->ru.phase > FRAME_HELD && after->ru.state == RU_IDLE;
}

static void note_reason(const struct model *before, unsigned reason)
{
    bool lacks = before->ru.state == RU_NO_RESOURCES;
    if (reason != LQ_NOT_DROPPED) happened[FOR_TOO_FEW + reason - LQ_DROPPED_TOO_FEW]++;
    happened[NOT_INITIALISED] += !before->initialised && reason == LQ_DROPPED_IDLE;
    happened[OVERRUN] += before->ru.phase != FRAME_NONE && reason == LQ_NOT_DROPPED;
    happened[LOST] += lacks && reason == LQ_NOT_DROPPED;
    happened[SAVING_LOST] += lacks && before->settings.save_bad && reason == LQ_DROPPED_BAD;
}

/* how long it is beside a header, and under what it is held */
static void note_length(const struct model *before, bool held)
{
    struct addressing set = before->settings.addressing;
    size_t header = LQ_FRAME_HEADER(set.length);
    happened[HEADER_LESS_ONE] += before->ru.state == RU_READY && frame_length + 1 == header;
    if (!held) return;
    happened[HEADER_ALONE] += frame_length == header;
    happened[HEADER_AND_ONE] += frame_length == header + 1;
    happened[HELD_IN_BUFFERS] += set.in_buffers;
    happened[HELD_UNDER + set.length]++;
}

static void note_arrival(const struct model *before, const struct model *after)
{
    unsigned length = before->settings.addressing.length;
    bool held = before->ru.phase == FRAME_NONE && after->ru.phase == FRAME_HELD;
    note_length(before, held);
    happened[HELD_BAD] += held && (after->ru.is_short || after->ru.verdict != VERDICT_GOOD);
    if (length == 0 || frame_length < LQ_FRAME_HEADER(length)) return;
    bool group = (frame[0] & 1) && memcmp(frame, EVERYONE, length) != 0;
    if (!group || before->settings.promiscuous || memcmp(frame, before->own, length) == 0) return;
    bool set = (before->filter & bit_of_first(frame, length)) != 0;
    happened[GROUP_PASSES] += set && held;
    happened[GROUP_DROPPED] += !set && before->filter != 0 && before->ru.state == RU_READY;
}

/* ---- an episode ---- */

static bool has_work(const struct model *model)
{
    return model->cu.state == CU_ACTIVE || model->ru.phase != FRAME_NONE;
}

/* mostly turns while there is work, mostly something new to do while there is none */
static enum call_kind random_kind(const struct model *model)
{
    unsigned kind = below(has_work(model) ? 100 : 30);
    return kind < 10 ? CALL_ATTENTION : kind < 24 ? CALL_ARRIVAL : one_in(5) ? CALL_RUN : CALL_TURN;
}

/* Is it time for a Configure? Before the end of a frame, so that the next frame may come before the Configure's end; and
   now and then while a frame is held. */
static bool may_configure(const struct model *model)
{
    if (model->cu.state == CU_ACTIVE || model->ru.phase == FRAME_NONE) return false;
    return model->ru.phase == FRAME_END ? !one_in(4) : one_in(8);
}

static void random_call(struct board *board)
{
    struct model before = board->chip.model;
    bool welcome = may_hold_across(&before) && !one_in(4), configuring = may_configure(&before);
    enum call_kind kind = welcome ? CALL_ARRIVAL : configuring ? CALL_ATTENTION : random_kind(&before);
    if (one_in(4)) host_writes(board);
    if (one_in(64)) with_a_bit_changed(board);
    if (kind == CALL_ATTENTION) {
        if (configuring) configuring_attention(board);
        else random_attention(board);
        note_attention(&before, &board->chip.model);
    } else if (kind == CALL_ARRIVAL) {
        note_reason(&before, (welcome ? welcome_arrival(board) : random_arrival(board)).reason);
        note_arrival(&before, &board->chip.model);
    } else if (kind == CALL_RUN) {
        random_run(board);
    } else {
        struct answer answer = random_turn(board);
        note_turn(&board->chip, &before, &answer);
    }
    check_encoding(&board->chip);
}

static void episode(unsigned long calls)
{
    begin_case("random calls");
    struct board board = random_board();
    for (unsigned long i = 0; i < calls; i++) random_call(&board);
    chip_free(&board.chip);
}

void random_calls(unsigned long calls, uint64_t seed)
{
    enum { EPISODE = 250 };
    seed_random(seed);
    printf("random     seed %lu\n", (unsigned long)seed);
    fflush(NULL);
    for (unsigned long done = 0; done < calls; done += EPISODE) episode(EPISODE);
    for (unsigned e = 0; e < EVENT_KINDS; e++)
        CHECK(happened[e] >= calls / 4000, "only %lu %s in %lu calls", happened[e], EVENT_NAMES[e], calls);
}
