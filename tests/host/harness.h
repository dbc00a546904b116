/*
 * What the tests share: areas with guard bytes, a chip under test with the model beside it, and a runner for worked
 * cases that are written as tables. Every call through `call` is made of the archive and of the model, and everything
 * that a host can see is compared: answer, memory, holding area, outgoing area, interrupt. The first difference ends
 * the program.
 */
#ifndef HARNESS_H
#define HARNESS_H

#include "lentoquist.h"
#include "model.h"

#include <stdio.h>
#include <stdlib.h>
#include <string.h>

/* ---- where the tests are, and failing ---- */

/* Names the case that runs now, and counts it. */
void begin_case(const char *name);

/* Says where the tests are, at the head of a failure's message. */
void print_place(void);

#define FAIL(...) (print_place(), printf(__VA_ARGS__), printf("\n"), exit(1))
#define CHECK(condition, ...) ((condition) ? (void)0 : FAIL(__VA_ARGS__))

unsigned long cases_run(void);
unsigned long calls_made(void);

/* ---- random numbers: the same from the same seed ---- */

void seed_random(uint64_t seed);
uint64_t random_bits(void);

/* ---- areas with guard bytes on both sides ---- */

struct area {
    const char *name;
    uint8_t *bytes;
    size_t length;
    uint8_t *block;
};

struct area area_of(const char *name, size_t length);
void area_free(struct area *area);
void check_guards(const struct area *area);

/* Fails, with the first place that differs, unless two areas hold the same bytes. */
void check_bytes(const char *name, const uint8_t *found, const uint8_t *expected, size_t length);

/* ---- calls, as values ---- */

enum call_kind { CALL_NONE, CALL_RESET, CALL_ATTENTION, CALL_ARRIVAL, CALL_TURN, CALL_RUN };

struct call {
    enum call_kind kind;
    const uint8_t *frame;
    size_t frame_len;
    uint32_t verdict;
    uint16_t report;
    uint16_t budget;
};

#define RESET_CALL     ((struct call){.kind = CALL_RESET})
#define ATTENTION_CALL ((struct call){.kind = CALL_ATTENTION})
#define TURN_CALL(r)   ((struct call){.kind = CALL_TURN, .report = (r)})
#define RUN_CALL(r, b) ((struct call){.kind = CALL_RUN, .report = (r), .budget = (b)})
#define ARRIVAL_CALL(f, n, v) ((struct call){.kind = CALL_ARRIVAL, .frame = (f), .frame_len = (n), .verdict = (v)})

struct areas {
    struct area memory, holding, outgoing, record;
};

/* The call on the archive alone, with the areas as they are. Tests the guard bytes, and what every answer must keep to:
   reserved bits are 0, a reason is an arrival's alone, turns are a run's alone, a refusal is its number alone. */
uint64_t call_archive(const struct areas *areas, struct call call);

/* ---- a chip under test, and the model beside it ---- */

struct chip {
    struct areas lent;
    struct model model;
    struct areas modelled; /* its record is not used */
};

/* A chip that was just reset, with n bytes of memory; all areas but the record are zero. */
struct chip chip_of(size_t n);
void chip_free(struct chip *chip);

/* The call on both; fails at the first difference. */
struct answer call(struct chip *chip, struct call call);

/* What the host does between calls, to both. Places in memory are taken modulo its length. */
void put_byte(struct chip *chip, uint32_t place, unsigned byte);
void put_word(struct chip *chip, uint32_t place, unsigned word);
void put_real(struct chip *chip, uint32_t place, uint32_t address);
void put_holding(struct chip *chip, size_t place, unsigned word);
void put_outgoing(struct chip *chip, size_t place, unsigned word);

unsigned byte_of(const struct chip *chip, uint32_t place);
unsigned word_of(const struct chip *chip, uint32_t place);

/* Fails unless the word stands there. */
void check_word(const struct chip *chip, uint32_t place, unsigned word);
void check_answer(struct answer found, unsigned number, unsigned length, bool edge);
void check_reason(struct answer found, unsigned reason);

/* ---- worked cases, as tables ---- */

struct word {
    uint32_t place;
    uint16_t value;
};

#define NO_PLACE 0xFFFFFFFFu
#define WORDS(...) ((const struct word[]){__VA_ARGS__, {NO_PLACE, 0}})
#define NOTHING ((const struct word *)0)

/* the header of a frame as long as no Configure has set another length: 14 bytes */
enum { HEADER_AFTER_RESET = LQ_FRAME_HEADER(LQ_ADDRESS_LENGTH_AFTER_RESET) };

/* A frame: the bytes of its head, then n bytes that begin with `from` and grow by `step`. */
struct frame_form {
    size_t head_len;
    uint8_t head[HEADER_AFTER_RESET];
    unsigned from, step;
    size_t n;
};

/* Writes the frame's bytes to a place with room for LQ_FRAME_MAX, and answers how many they are. */
size_t form_frame(const struct frame_form *form, uint8_t *bytes);

enum level { UNSAID, HIGH, LOW };

struct step {
    const struct word *host; /* words that the host writes before the call: to memory, holding, outgoing area */
    const struct word *held;
    const struct word *sent;
    enum call_kind kind;
    const struct frame_form *frame;
    uint32_t verdict;
    uint16_t report;
    unsigned length; /* the answer: number 0, this length, this edge, this reason */
    bool edge;
    unsigned reason;
    const struct word *words; /* words that stand in memory, and in the outgoing area, after it */
    const struct word *outgoing;
    enum level level;
    unsigned times; /* how often the step is made, if more than once */
};

struct worked_case {
    const char *name;
    size_t n; /* bytes of memory; 0: 8,192 */
    const struct word *given;
    const struct step *steps;
};

#define STEPS(...) ((const struct step[]){__VA_ARGS__, {.kind = CALL_NONE}})
#define CASE(name_, given_, ...) {.name = name_, .given = given_, .steps = STEPS(__VA_ARGS__)}
#define CASE_IN(n_, name_, given_, ...) {.name = name_, .n = n_, .given = given_, .steps = STEPS(__VA_ARGS__)}
#define COUNT_OF(table) (sizeof(table) / sizeof *(table))

void run_cases(const struct worked_case *cases, size_t count);

/* ---- the subjects ---- */

void refusals(void);
void records(void);
void papers(void);
void swaps(void);
void readings(void);
void edges(void);
void control(void);
void commands(void);
void hashes(uint64_t seed);
void receiving(void);
void reasons(void);
void headers(void);
void addresses(void);
void copies(void);
void shapes(void);
void random_calls(unsigned long calls, uint64_t seed);

#endif
