#include "harness.h"

enum { GUARD = 64, GUARD_BYTE = 0x5C };

/* ---- where the tests are ---- */

static const char *case_name = "";
static unsigned long case_count, call_count;
static unsigned step_number;

void begin_case(const char *name)
{
    case_name = name;
    case_count++;
    step_number = 0;
}

void print_place(void)
{
    printf("FAILED: %s, call %u: ", case_name, step_number);
}

unsigned long cases_run(void)
{
    return case_count;
}

unsigned long calls_made(void)
{
    return call_count;
}

/* ---- random numbers ---- */

static uint64_t random_state;

void seed_random(uint64_t seed)
{
    random_state = seed;
}

/* splitmix64 */
uint64_t random_bits(void)
{
    uint64_t z = random_state += 0x9E3779B97F4A7C15u;
    z = (z ^ z >> 30) * 0xBF58476D1CE4E5B9u;
    z = (z ^ z >> 27) * 0x94D049BB133111EBu;
    return z ^ z >> 31;
}

/* ---- areas ---- */

struct area area_of(const char *name, size_t length)
{
    struct area area = {.name = name, .length = length};
    area.block = malloc(length + 2 * GUARD);
    CHECK(area.block != NULL, "no memory for %lu bytes", (unsigned long)length);
    memset(area.block, GUARD_BYTE, length + 2 * GUARD);
    area.bytes = area.block + GUARD;
    memset(area.bytes, 0, length);
    return area;
}

void area_free(struct area *area)
{
    free(area->block);
    area->block = area->bytes = NULL;
}

void check_guards(const struct area *area)
{
    for (size_t i = 0; i < GUARD; i++) {
        CHECK(area->block[i] == GUARD_BYTE, "a byte before %s was written", area->name);
        CHECK(area->bytes[area->length + i] == GUARD_BYTE, "a byte behind %s was written", area->name);
    }
}

void check_bytes(const char *name, const uint8_t *found, const uint8_t *expected, size_t length)
{
    if (length == 0 || memcmp(found, expected, length) == 0) return;
    size_t i = 0;
    while (found[i] == expected[i]) i++;
    FAIL("%s: byte %lXh is %02Xh, expected %02Xh", name, (unsigned long)i, found[i], expected[i]);
}

/* ---- calls ---- */

static uint64_t dispatch(const struct areas *a, struct call c)
{
    switch (c.kind) {
    case CALL_RESET: return lq_reset(a->record.bytes, a->record.length);
    case CALL_ATTENTION:
        return lq_attention(a->memory.bytes, a->memory.length, a->holding.bytes, a->holding.length,
                            a->outgoing.bytes, a->outgoing.length, a->record.bytes, a->record.length);
    case CALL_ARRIVAL:
        return lq_arrival(a->memory.bytes, a->memory.length, a->holding.bytes, a->holding.length,
                          a->outgoing.bytes, a->outgoing.length, a->record.bytes, a->record.length,
                          c.frame, c.frame_len, c.verdict);
    case CALL_TURN:
        return lq_turn(a->memory.bytes, a->memory.length, a->holding.bytes, a->holding.length,
                       a->outgoing.bytes, a->outgoing.length, a->record.bytes, a->record.length, c.report);
    case CALL_RUN:
        return lq_run(a->memory.bytes, a->memory.length, a->holding.bytes, a->holding.length,
                      a->outgoing.bytes, a->outgoing.length, a->record.bytes, a->record.length, c.report, c.budget);
    default: FAIL("no such call"); return 0;
    }
}

/* what every answer keeps to, whatever the areas are */
static void check_form(uint64_t answer, enum call_kind kind)
{
    CHECK((answer >> 33 & 0x7F) == 0, "reserved bits of the answer are set");
    CHECK(lq_reason(answer) <= LQ_DROPPED_BAD, "there is no reason %u", lq_reason(answer));
    CHECK(kind == CALL_ARRIVAL || lq_reason(answer) == LQ_NOT_DROPPED, "a call that is no arrival says a reason");
    CHECK(kind == CALL_RUN || lq_turns(answer) == 0, "a call that is no run says turns");
    CHECK(lq_number(answer) == LQ_ACCEPTED || answer == lq_number(answer), "a refusal says more than its number");
}

uint64_t call_archive(const struct areas *areas, struct call c)
{
    step_number++;
    call_count++;
    uint64_t answer = dispatch(areas, c);
    check_guards(&areas->memory);
    check_guards(&areas->holding);
    check_guards(&areas->outgoing);
    check_guards(&areas->record);
    check_form(answer, c.kind);
    return answer;
}

static struct areas areas_of(size_t n)
{
    return (struct areas){
        .memory = area_of("memory", n),
        .holding = area_of("the holding area", LQ_HOLDING_SIZE),
        .outgoing = area_of("the outgoing area", LQ_OUTGOING_SIZE),
        .record = area_of("the record", LQ_RECORD_SIZE),
    };
}

static void areas_free(struct areas *areas)
{
    area_free(&areas->memory);
    area_free(&areas->holding);
    area_free(&areas->outgoing);
    area_free(&areas->record);
}

/* ---- a chip and the model ---- */

struct chip chip_of(size_t n)
{
    struct chip chip = {.lent = areas_of(n), .modelled = areas_of(n)};
    check_answer(call(&chip, RESET_CALL), LQ_ACCEPTED, 0, false);
    return chip;
}

void chip_free(struct chip *chip)
{
    areas_free(&chip->lent);
    areas_free(&chip->modelled);
}

static struct answer call_model(struct chip *chip, struct call c)
{
    struct areas *a = &chip->modelled;
    struct lent lent = {a->memory.bytes, a->memory.length, a->holding.bytes, a->outgoing.bytes};
    switch (c.kind) {
    case CALL_RESET: return model_reset(&chip->model);
    case CALL_ATTENTION: return model_attention(&chip->model, lent);
    case CALL_ARRIVAL: return model_arrival(&chip->model, lent, c.frame, c.frame_len, c.verdict);
    case CALL_RUN: return model_run(&chip->model, lent, c.report, c.budget);
    default: return model_turn(&chip->model, lent, c.report);
    }
}

void check_answer(struct answer found, unsigned number, unsigned length, bool edge)
{
    CHECK(found.number == number, "the number is %u, expected %u", found.number, number);
    CHECK(found.length == length, "the length is %u, expected %u", found.length, length);
    CHECK(found.edge == edge, "%s, expected %s", found.edge ? "an edge" : "no edge", edge ? "one" : "none");
}

void check_reason(struct answer found, unsigned reason)
{
    CHECK(found.reason == reason, "the reason is %u, expected %u", found.reason, reason);
}

/* the bytes of the record that are the same in every layout */
static void check_record(const struct chip *chip)
{
    const uint8_t *record = chip->lent.record.bytes;
    check_bytes("the record's letters", record, (const uint8_t *)LQ_RECORD_LETTERS, 3);
    unsigned version = record[LQ_RECORD_VERSION_AT] + 256u * record[LQ_RECORD_VERSION_AT + 1];
    CHECK(version == LQ_RECORD_VERSION, "the record's version is %u", version);
    unsigned events = chip->model.events >> 8;
    unsigned found = record[LQ_RECORD_EVENTS_AT];
    CHECK(found == events, "the record's events are %02Xh, expected %02Xh", found, events);
    CHECK(lq_interrupt(record) == (events != 0), "the interrupt's level is wrong");
}

static struct answer taken_apart(uint64_t answer)
{
    return (struct answer){
        .number = lq_number(answer),
        .length = (unsigned)lq_length(answer),
        .edge = lq_edge(answer),
        .reason = lq_reason(answer),
        .turns = lq_turns(answer),
    };
}

struct answer call(struct chip *chip, struct call c)
{
    struct answer found = taken_apart(call_archive(&chip->lent, c));
    struct answer expected = call_model(chip, c);
    check_answer(found, expected.number, expected.length, expected.edge);
    check_reason(found, expected.reason);
    CHECK(found.turns == expected.turns, "the turns are %u, expected %u", found.turns, expected.turns);
    check_bytes("memory", chip->lent.memory.bytes, chip->modelled.memory.bytes, chip->lent.memory.length);
    check_bytes("the holding area", chip->lent.holding.bytes, chip->modelled.holding.bytes, LQ_HOLDING_SIZE);
    check_bytes("the outgoing area", chip->lent.outgoing.bytes, chip->modelled.outgoing.bytes, LQ_OUTGOING_SIZE);
    check_record(chip);
    return found;
}

/* ---- the host ---- */

void put_byte(struct chip *chip, uint32_t place, unsigned byte)
{
    size_t i = place % chip->lent.memory.length;
    chip->lent.memory.bytes[i] = chip->modelled.memory.bytes[i] = (uint8_t)byte;
}

void put_word(struct chip *chip, uint32_t place, unsigned word)
{
    put_byte(chip, place, word & 255);
    put_byte(chip, place + 1, word >> 8);
}

void put_real(struct chip *chip, uint32_t place, uint32_t address)
{
    put_word(chip, place, address & 0xFFFF);
    put_byte(chip, place + 2, address >> 16);
}

void put_holding(struct chip *chip, size_t place, unsigned word)
{
    for (size_t i = 0; i < 2; i++)
        chip->lent.holding.bytes[place + i] = chip->modelled.holding.bytes[place + i] = (uint8_t)(word >> 8 * i);
}

void put_outgoing(struct chip *chip, size_t place, unsigned word)
{
    for (size_t i = 0; i < 2; i++)
        chip->lent.outgoing.bytes[place + i] = chip->modelled.outgoing.bytes[place + i] = (uint8_t)(word >> 8 * i);
}

unsigned byte_of(const struct chip *chip, uint32_t place)
{
    return chip->lent.memory.bytes[place % chip->lent.memory.length];
}

unsigned word_of(const struct chip *chip, uint32_t place)
{
    return byte_of(chip, place) + 256 * byte_of(chip, place + 1);
}

void check_word(const struct chip *chip, uint32_t place, unsigned word)
{
    unsigned found = word_of(chip, place);
    CHECK(found == word, "the word at %lXh is %04Xh, expected %04Xh", (unsigned long)place, found, word);
}

/* ---- worked cases ---- */

size_t form_frame(const struct frame_form *form, uint8_t *bytes)
{
    for (size_t i = 0; i < form->head_len; i++) bytes[i] = form->head[i];
    for (size_t i = 0; i < form->n; i++) bytes[form->head_len + i] = (uint8_t)(form->from + i * form->step);
    return form->head_len + form->n;
}

static bool is_word(const struct word *word)
{
    return word != NULL && word->place != NO_PLACE;
}

static void host_writes(struct chip *chip, const struct step *step)
{
    for (const struct word *w = step->host; is_word(w); w++) put_word(chip, w->place, w->value);
    for (const struct word *w = step->held; is_word(w); w++) put_holding(chip, w->place, w->value);
    for (const struct word *w = step->sent; is_word(w); w++) put_outgoing(chip, w->place, w->value);
}

static void check_words(const struct chip *chip, const struct step *step)
{
    for (const struct word *w = step->words; is_word(w); w++) check_word(chip, w->place, w->value);
    for (const struct word *w = step->outgoing; is_word(w); w++) {
        const uint8_t *at = chip->lent.outgoing.bytes + w->place;
        unsigned found = at[0] + 256u * at[1];
        unsigned long place = w->place;
        CHECK(found == w->value, "outgoing word %lu is %04Xh, expected %04Xh", place, found, w->value);
    }
}

static void check_level(const struct chip *chip, enum level level)
{
    bool high = lq_interrupt(chip->lent.record.bytes);
    CHECK(level == UNSAID || high == (level == HIGH), "the interrupt is %s", high ? "high" : "low");
}

static void run_step(struct chip *chip, const struct step *step)
{
    static uint8_t bytes[LQ_FRAME_MAX];
    struct call made = {.kind = step->kind, .verdict = step->verdict, .report = step->report};
    if (step->frame != NULL) {
        made.frame_len = form_frame(step->frame, bytes);
        made.frame = bytes;
    }
    host_writes(chip, step);
    struct answer found = call(chip, made);
    check_answer(found, LQ_ACCEPTED, step->length, step->edge);
    check_reason(found, step->reason);
    check_words(chip, step);
    check_level(chip, step->level);
}

static void run_case(const struct worked_case *worked)
{
    struct chip chip = chip_of(worked->n == 0 ? LQ_MEMORY_MIN : worked->n);
    begin_case(worked->name);
    for (const struct word *w = worked->given; is_word(w); w++) put_word(&chip, w->place, w->value);
    for (const struct step *step = worked->steps; step->kind != CALL_NONE; step++)
        for (unsigned i = 0; i < (step->times > 1 ? step->times : 1); i++) run_step(&chip, step);
    chip_free(&chip);
}

void run_cases(const struct worked_case *cases, size_t count)
{
    for (size_t i = 0; i < count; i++) run_case(&cases[i]);
}
