/* Refusals: each number, on every call, from every wrong length; which one is given; that nothing changed. */
#include "setup.h"

_Static_assert(LQ_REFUSED_MEMORY == 1 && LQ_REFUSED_OVERLONG == 3 && LQ_REFUSED_FOREIGN == 4, "document 01's");
_Static_assert(LQ_REFUSED_RECORD == 21 && LQ_REFUSED_HOLDING == 22 && LQ_REFUSED_OUTGOING == 23, "document 02's");

/* docs/record.md: bytes that are zero in every record, from the first to the last */
static const size_t SPARE[][2] = {{13, 15}, {40, 239}};

static const enum call_kind KINDS[] = {CALL_ATTENTION, CALL_ARRIVAL, CALL_TURN, CALL_RUN};

/* A pattern, so that a changed byte shows. */
static void fill(const struct area *area)
{
    for (size_t i = 0; i < area->length; i++) area->bytes[i] = (uint8_t)(i * 31 + 7);
}

static struct area copy_of(const struct area *area)
{
    struct area copy = area_of(area->name, area->length);
    memcpy(copy.bytes, area->bytes, area->length);
    return copy;
}

static void check_same(const struct area *area, const struct area *before)
{
    check_bytes(area->name, area->bytes, before->bytes, area->length);
}

static void check_all_same(const struct areas *areas, const struct areas *before)
{
    check_same(&areas->memory, &before->memory);
    check_same(&areas->holding, &before->holding);
    check_same(&areas->outgoing, &before->outgoing);
    check_same(&areas->record, &before->record);
}

static struct areas copies_of(const struct areas *areas)
{
    return (struct areas){
        copy_of(&areas->memory), copy_of(&areas->holding), copy_of(&areas->outgoing), copy_of(&areas->record)};
}

static void free_areas(struct areas *areas)
{
    area_free(&areas->memory);
    area_free(&areas->holding);
    area_free(&areas->outgoing);
    area_free(&areas->record);
}

/* The model, which has no record, gives the same number by the lengths. */
static void check_modelled(const struct areas *a, struct call made, unsigned number)
{
    if (made.kind == CALL_RESET) return;
    unsigned modelled = model_refusal(a->memory.length, a->holding.length, a->outgoing.length, a->record.length,
                                      made.kind == CALL_ARRIVAL ? made.frame_len : 0);
    unsigned expected = number == LQ_REFUSED_FOREIGN ? LQ_ACCEPTED : number;
    CHECK(modelled == expected, "by the lengths the model gives %u, expected %u", modelled, expected);
}

/* The call is refused by a number, or accepted if that is LQ_ACCEPTED; after a refusal every byte is as before. That it
   says nothing else is tested at every call. */
static void check_refusal(const struct areas *areas, struct call made, unsigned number)
{
    struct areas before = copies_of(areas);
    check_modelled(areas, made, number);
    unsigned found = lq_number(call_archive(areas, made));
    CHECK(found == number, "the number is %u, expected %u", found, number);
    if (number != LQ_ACCEPTED) check_all_same(areas, &before);
    free_areas(&before);
}

static struct areas areas_with(size_t memory, size_t holding, size_t outgoing, size_t record)
{
    struct areas areas = {
        .memory = area_of("memory", memory),
        .holding = area_of("the holding area", holding),
        .outgoing = area_of("the outgoing area", outgoing),
        .record = area_of("the record", record),
    };
    fill(&areas.memory);
    fill(&areas.holding);
    fill(&areas.outgoing);
    fill(&areas.record);
    return areas;
}

static uint8_t long_frame[LQ_FRAME_MAX + 1];

static struct call call_with(enum call_kind kind, size_t frame_len)
{
    return (struct call){.kind = kind, .frame = long_frame, .frame_len = frame_len, .report = 0xFFFF};
}

/* ---- lengths ---- */

static void memory_sizes(void)
{
    static const size_t refused[] = {0, 1, 2, 4096, 8191, 8193, 8192 + 1024, 12288, 16383, 16385, 24576, 65535, 65537,
                                     131071, 16777215, 16777216 - 8192, 16777217, 16777216 + 8192, 33554432};
    for (size_t i = 0; i < COUNT_OF(refused); i++) {
        struct areas areas = areas_with(refused[i], LQ_HOLDING_SIZE, LQ_OUTGOING_SIZE, LQ_RECORD_SIZE);
        lq_reset(areas.record.bytes, LQ_RECORD_SIZE);
        begin_case("memory of a wrong size");
        for (size_t k = 0; k < COUNT_OF(KINDS); k++) check_refusal(&areas, call_with(KINDS[k], 60), LQ_REFUSED_MEMORY);
        free_areas(&areas);
    }
    for (size_t n = LQ_MEMORY_MIN; n <= LQ_MEMORY_MAX; n *= 2) {
        struct areas areas = areas_with(n, LQ_HOLDING_SIZE, LQ_OUTGOING_SIZE, LQ_RECORD_SIZE);
        lq_reset(areas.record.bytes, LQ_RECORD_SIZE);
        begin_case("memory of an allowed size");
        check_refusal(&areas, call_with(CALL_TURN, 0), LQ_ACCEPTED);
        check_refusal(&areas, call_with(CALL_ARRIVAL, 60), LQ_ACCEPTED);
        check_refusal(&areas, call_with(CALL_ATTENTION, 0), LQ_ACCEPTED);
        free_areas(&areas);
    }
}

/* an area with a wrong length: its number, on every call */
static void other_areas(void)
{
    enum { RECORD, HOLDING, OUTGOING, AREAS };
    static const size_t right[AREAS] = {LQ_RECORD_SIZE, LQ_HOLDING_SIZE, LQ_OUTGOING_SIZE};
    static const unsigned numbers[AREAS] = {LQ_REFUSED_RECORD, LQ_REFUSED_HOLDING, LQ_REFUSED_OUTGOING};
    for (unsigned which = 0; which < AREAS; which++) {
        size_t another = right[which == RECORD ? HOLDING : RECORD];
        size_t wrong[] = {0, 1, right[which] - 1, right[which] + 1, right[which] * 2, another, LQ_MEMORY_MIN};
        for (size_t i = 0; i < COUNT_OF(wrong); i++) {
            size_t length[AREAS] = {right[RECORD], right[HOLDING], right[OUTGOING]};
            length[which] = wrong[i];
            struct areas areas = areas_with(LQ_MEMORY_MIN, length[HOLDING], length[OUTGOING], length[RECORD]);
            if (which != RECORD) lq_reset(areas.record.bytes, LQ_RECORD_SIZE);
            begin_case("an area of a wrong length");
            for (size_t k = 0; k < COUNT_OF(KINDS); k++) check_refusal(&areas, call_with(KINDS[k], 0), numbers[which]);
            free_areas(&areas);
        }
    }
}

static void frames(void)
{
    struct areas areas = areas_with(LQ_MEMORY_MIN, LQ_HOLDING_SIZE, LQ_OUTGOING_SIZE, LQ_RECORD_SIZE);
    lq_reset(areas.record.bytes, LQ_RECORD_SIZE);
    begin_case("an overlong frame");
    check_refusal(&areas, call_with(CALL_ARRIVAL, LQ_FRAME_MAX + 1), LQ_REFUSED_OVERLONG);
    check_refusal(&areas, call_with(CALL_ARRIVAL, LQ_FRAME_MAX), LQ_ACCEPTED);
    check_refusal(&areas, call_with(CALL_ARRIVAL, 0), LQ_ACCEPTED);
    check_refusal(&areas, ARRIVAL_CALL(NULL, 0, 0), LQ_ACCEPTED);
    free_areas(&areas);
}

/* ---- reset ---- */

/* Whatever the record holds, its length alone is asked: a pattern, zeros, the bytes of a fresh one. */
static void wrong_resets(void)
{
    static const size_t wrong[] = {0, 1, LQ_RECORD_SIZE - 1, LQ_RECORD_SIZE + 1, 2 * LQ_RECORD_SIZE, LQ_HOLDING_SIZE};
    struct chip fresh = chip_of(LQ_MEMORY_MIN);
    for (size_t i = 0; i < COUNT_OF(wrong); i++) {
        struct areas areas = areas_with(0, 0, 0, wrong[i]);
        begin_case("reset of a wrong length");
        check_refusal(&areas, RESET_CALL, LQ_REFUSED_RECORD);
        memset(areas.record.bytes, 0, wrong[i]);
        check_refusal(&areas, RESET_CALL, LQ_REFUSED_RECORD);
        memcpy(areas.record.bytes, fresh.lent.record.bytes, wrong[i] < LQ_RECORD_SIZE ? wrong[i] : LQ_RECORD_SIZE);
        check_refusal(&areas, RESET_CALL, LQ_REFUSED_RECORD);
        free_areas(&areas);
    }
    chip_free(&fresh);
}

static void resets(void)
{
    struct areas a = areas_with(0, 0, 0, LQ_RECORD_SIZE), b = areas_with(0, 0, 0, LQ_RECORD_SIZE);
    begin_case("reset ignores the record's content");
    memset(a.record.bytes, 0xAA, LQ_RECORD_SIZE);
    check_refusal(&a, RESET_CALL, LQ_ACCEPTED);
    check_refusal(&b, RESET_CALL, LQ_ACCEPTED);
    check_bytes("a fresh record", a.record.bytes, b.record.bytes, LQ_RECORD_SIZE);
    check_refusal(&a, RESET_CALL, LQ_ACCEPTED);
    check_bytes("a record reset twice", a.record.bytes, b.record.bytes, LQ_RECORD_SIZE);
    CHECK(!lq_interrupt(a.record.bytes), "the interrupt is high after reset");
    free_areas(&a);
    free_areas(&b);
}

/* one encoding per state: what is in the same state has the same record */
static void one_encoding(void)
{
    struct chip fresh = chip_of(LQ_MEMORY_MIN), chip = ready_chip(LQ_MEMORY_MIN);
    begin_case("a resetting attention leaves the fresh record");
    put_bytes(&chip, 0x208, EVERYONE, 6);
    run_mc_setup(&chip, 0x200, 12);
    put_fd(&chip, 0x300, 0, 0x300, LQ_NONE);
    start_ru(&chip, 0x300);
    arrive(&chip, EVERYONE, 60, 0);
    turn(&chip);
    attend(&chip, LQ_RESET);
    check_bytes("the record", chip.lent.record.bytes, fresh.lent.record.bytes, LQ_RECORD_SIZE);
    chip_free(&chip);
    chip_free(&fresh);

    struct chip two = ready_chip(LQ_MEMORY_MIN), many = ready_chip(LQ_MEMORY_MIN);
    begin_case("every other verdict is one state");
    put_word(&two, 0x206, 0x0004), put_word(&many, 0x206, 0x0004);
    put_word(&two, 0x208, 0x0680), put_word(&many, 0x208, 0x0680);
    run_command(&two, LQ_CMD_CONFIGURE), run_command(&many, LQ_CMD_CONFIGURE);
    start_ru(&two, 0x300), start_ru(&many, 0x300);
    arrive(&two, EVERYONE, 60, 2), arrive(&many, EVERYONE, 60, 0xFFFFFF00);
    check_bytes("the record", two.lent.record.bytes, many.lent.record.bytes, LQ_RECORD_SIZE);
    chip_free(&two);
    chip_free(&many);

    struct chip plain = ready_chip(LQ_MEMORY_MIN), turned = ready_chip(LQ_MEMORY_MIN);
    static const uint8_t groups[2][6] = {{0x01, 0x00, 0x5E, 0x00, 0x00, 0x01}, {0x01, 0x80, 0xC2, 0x00, 0x00, 0x00}};
    begin_case("the same groups in another order, and again, are one state");
    for (uint32_t i = 0; i < 4; i++) {
        put_bytes(&plain, 0x208 + 6 * i, groups[i % 2], 6);
        put_bytes(&turned, 0x208 + 6 * i, groups[1 - i % 2], 6);
    }
    run_mc_setup(&plain, 0x200, 12), run_mc_setup(&turned, 0x200, 24);
    check_bytes("the record", turned.lent.record.bytes, plain.lent.record.bytes, LQ_RECORD_SIZE);
    chip_free(&plain);
    chip_free(&turned);

    struct chip never = ready_chip(LQ_MEMORY_MIN), emptied = ready_chip(LQ_MEMORY_MIN);
    begin_case("an emptied filter is that of a chip that had no MC-Setup");
    put_bytes(&emptied, 0x208, groups[0], 6);
    run_mc_setup(&emptied, 0x200, 6), run_command(&never, LQ_CMD_NOP);
    CHECK(memcmp(emptied.lent.record.bytes, never.lent.record.bytes, LQ_RECORD_SIZE) != 0, "a filter leaves no trace");
    run_mc_setup(&emptied, 0x200, 0), run_command(&never, LQ_CMD_NOP);
    check_bytes("the record", emptied.lent.record.bytes, never.lent.record.bytes, LQ_RECORD_SIZE);
    chip_free(&never);
    chip_free(&emptied);
}

/* ---- foreign records ---- */

/* every call but reset refuses the chip's record with a byte changed */
static void check_foreign(struct chip *chip, size_t at, unsigned byte)
{
    uint8_t was = chip->lent.record.bytes[at];
    chip->lent.record.bytes[at] = (uint8_t)byte;
    for (size_t k = 0; k < COUNT_OF(KINDS); k++)
        check_refusal(&chip->lent, call_with(KINDS[k], 60), LQ_REFUSED_FOREIGN);
    check_refusal(&chip->lent, ARRIVAL_CALL(NULL, 0, 0), LQ_REFUSED_FOREIGN);
    check_refusal(&chip->lent, call_with(CALL_ARRIVAL, LQ_FRAME_MAX + 1), LQ_REFUSED_OVERLONG);
    chip->lent.record.bytes[at] = was;
}

static void check_foreign_edits(const char *name, struct chip *chip)
{
    const uint8_t *record = chip->lent.record.bytes;
    begin_case(name);
    for (size_t i = 0; i < 3; i++) check_foreign(chip, i, record[i] ^ 0x20u);
    check_foreign(chip, LQ_RECORD_VERSION_AT, 2);
    check_foreign(chip, LQ_RECORD_VERSION_AT, 0);
    check_foreign(chip, LQ_RECORD_VERSION_AT + 1, 1);
    for (unsigned bit = 1; bit < 16; bit *= 2)
        check_foreign(chip, LQ_RECORD_EVENTS_AT, record[LQ_RECORD_EVENTS_AT] | bit);
    for (size_t run = 0; run < COUNT_OF(SPARE); run++)
        for (size_t i = SPARE[run][0]; i <= SPARE[run][1]; i++) {
            check_foreign(chip, i, record[i] ^ 1u);
            check_foreign(chip, i, record[i] ^ 0x80u);
        }
    turns(chip, 3);
}

/* a chip with a Transmit among its descriptors and a frame among its buffers */
static struct chip busy_chip(void)
{
    struct chip chip = ready_chip(LQ_MEMORY_MIN);
    put_transmit(&chip, 0x200, LQ_I, 0x200, 0x280);
    put_tbd(&chip, 0x280, 10, 0x280, 0x1000);
    put_fd(&chip, 0x300, 0, 0x300, 0x340);
    put_rbd(&chip, 0x340, 0x340, 0x1100, 8);
    start_cu(&chip, 0x200);
    start_ru(&chip, 0x300);
    arrive(&chip, EVERYONE, 60, 0);
    turns(&chip, 5);
    return chip;
}

static void foreign(void)
{
    struct chip fresh = chip_of(LQ_MEMORY_MIN), ready = ready_chip(LQ_MEMORY_MIN), busy = busy_chip();
    check_foreign_edits("a fresh record, edited", &fresh);
    check_foreign_edits("an initialised record, edited", &ready);
    check_foreign_edits("a busy record, edited", &busy);
    chip_free(&fresh);
    chip_free(&ready);
    chip_free(&busy);

    struct areas areas = areas_with(LQ_MEMORY_MIN, LQ_HOLDING_SIZE, LQ_OUTGOING_SIZE, LQ_RECORD_SIZE);
    begin_case("records of one byte value");
    for (unsigned byte = 0; byte < 256; byte++) {
        memset(areas.record.bytes, (int)byte, LQ_RECORD_SIZE);
        for (size_t k = 0; k < COUNT_OF(KINDS); k++) check_refusal(&areas, call_with(KINDS[k], 60), LQ_REFUSED_FOREIGN);
    }
    free_areas(&areas);
}

/* ---- several wrong at once: the first in this order is given ---- */

enum {
    WRONG_MEMORY = 1, WRONG_RECORD = 2, WRONG_HOLDING = 4, WRONG_OUTGOING = 8, WRONG_FRAME = 16, WRONG_CONTENT = 32,
    COMBINATIONS = 64
};

/* only an arrival has a frame */
static unsigned number_of(unsigned wrong, enum call_kind kind)
{
    if (wrong & WRONG_MEMORY) return LQ_REFUSED_MEMORY;
    if (wrong & WRONG_RECORD) return LQ_REFUSED_RECORD;
    if (wrong & WRONG_HOLDING) return LQ_REFUSED_HOLDING;
    if (wrong & WRONG_OUTGOING) return LQ_REFUSED_OUTGOING;
    if ((wrong & WRONG_FRAME) && kind == CALL_ARRIVAL) return LQ_REFUSED_OVERLONG;
    return wrong & WRONG_CONTENT ? LQ_REFUSED_FOREIGN : LQ_ACCEPTED;
}

/* how lengths are wrong: no bytes, one less, one more, that of another area */
enum { EMPTY, ONE_LESS, ONE_MORE, ANOTHERS, WAYS };

static size_t wrong_length(size_t right, unsigned way)
{
    switch (way) {
    case EMPTY: return 0;
    case ONE_LESS: return right - 1;
    case ONE_MORE: return right + 1;
    default: return right == LQ_RECORD_SIZE ? LQ_HOLDING_SIZE : LQ_RECORD_SIZE;
    }
}

/* A copy of an area, of its length or a wrong one: its bytes as far as there is room, then a pattern. */
static struct area lent_of(const struct area *area, bool wrong, unsigned way)
{
    size_t length = wrong ? wrong_length(area->length, way) : area->length;
    struct area lent = area_of(area->name, length);
    fill(&lent);
    memcpy(lent.bytes, area->bytes, length < area->length ? length : area->length);
    return lent;
}

static struct areas spoilt(const struct areas *right, unsigned wrong, unsigned way)
{
    struct areas areas = {
        .memory = lent_of(&right->memory, wrong & WRONG_MEMORY, way),
        .holding = lent_of(&right->holding, wrong & WRONG_HOLDING, way),
        .outgoing = lent_of(&right->outgoing, wrong & WRONG_OUTGOING, way),
        .record = lent_of(&right->record, wrong & WRONG_RECORD, way),
    };
    if ((wrong & WRONG_CONTENT) && areas.record.length > 0) areas.record.bytes[0] ^= 0x20;
    return areas;
}

static void check_order(const struct areas *right, unsigned wrong, unsigned way, struct call made)
{
    struct areas areas = spoilt(right, wrong, way);
    begin_case("which refusal is given");
    check_refusal(&areas, made, number_of(wrong, made.kind));
    free_areas(&areas);
}

/* every combination, on every call; frames that would be dropped if they came through, too */
static void order_of(const struct areas *right)
{
    for (unsigned wrong = 0; wrong < COMBINATIONS; wrong++)
        for (unsigned way = 0; way < WAYS; way++) {
            size_t length = wrong & WRONG_FRAME ? LQ_FRAME_MAX + 1 : 60;
            for (size_t k = 0; k < COUNT_OF(KINDS); k++) check_order(right, wrong, way, call_with(KINDS[k], length));
            if (wrong & WRONG_FRAME) continue;
            check_order(right, wrong, way, call_with(CALL_ARRIVAL, HEADER_AFTER_RESET - 1));
            check_order(right, wrong, way, ARRIVAL_CALL(NULL, 0, LQ_VERDICT_CRC));
        }
}

static void order(void)
{
    struct chip fresh = chip_of(LQ_MEMORY_MIN), busy = busy_chip();
    order_of(&fresh.lent);
    order_of(&busy.lent);
    turns(&busy, 3);
    chip_free(&fresh);
    chip_free(&busy);
}

/* ---- single bits, whatever the layout: a changed record is refused and nothing happens, or it is taken, and then what
   the call leaves is taken too ---- */

static unsigned taken_neighbours(struct chip *chip, enum call_kind kind)
{
    uint8_t record[LQ_RECORD_SIZE];
    memcpy(record, chip->lent.record.bytes, LQ_RECORD_SIZE);
    unsigned taken = 0;
    for (unsigned bit = 0; bit < 8 * LQ_RECORD_SIZE; bit++) {
        memcpy(chip->lent.record.bytes, record, LQ_RECORD_SIZE);
        chip->lent.record.bytes[bit / 8] ^= (uint8_t)(1 << bit % 8);
        struct areas before = copies_of(&chip->lent);
        unsigned number = lq_number(call_archive(&chip->lent, call_with(kind, 60)));
        CHECK(number == LQ_ACCEPTED || number == LQ_REFUSED_FOREIGN, "the number is %u", number);
        if (number == LQ_ACCEPTED) {
            taken++;
            check_refusal(&chip->lent, call_with(CALL_TURN, 0), LQ_ACCEPTED);
            check_refusal(&chip->lent, call_with(CALL_ARRIVAL, 60), LQ_ACCEPTED);
        } else {
            check_all_same(&chip->lent, &before);
        }
        free_areas(&before);
    }
    return taken;
}

static void single_bits(void)
{
    struct chip fresh = chip_of(LQ_MEMORY_MIN);
    for (size_t k = 0; k < COUNT_OF(KINDS); k++) {
        begin_case("a fresh record with one bit changed");
        unsigned taken = taken_neighbours(&fresh, KINDS[k]);
        CHECK(taken <= 1, "%u of its neighbours are taken: before the first attention there is one record", taken);
        lq_reset(fresh.lent.record.bytes, LQ_RECORD_SIZE);
    }
    chip_free(&fresh);
    for (size_t k = 0; k < COUNT_OF(KINDS); k++) {
        struct chip busy = busy_chip();
        begin_case("a busy record with one bit changed");
        taken_neighbours(&busy, KINDS[k]);
        chip_free(&busy);
    }
}

void refusals(void)
{
    for (size_t i = 0; i < sizeof long_frame; i++) long_frame[i] = 255;
    memory_sizes();
    other_areas();
    frames();
    wrong_resets();
    resets();
    one_encoding();
    foreign();
    order();
    single_bits();
}
