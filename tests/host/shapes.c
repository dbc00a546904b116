/*
 * Memory in unfriendly shapes: loops, structures on each other and on the SCB, words and buffers over the end of
 * memory, every size of memory, an SCB base anywhere, a size that changes between calls. Most cases have no words of
 * their own: that the model agrees in every byte is the test, and that every call comes back.
 */
#include "board.h"
#include "setup.h"

enum { BLOCK = 0x200, TBD = 0x280, FD = 0x300, NEXT_FD = 0x320, RBD = 0x380, BUFFERS = 0x1000 };

/* ---- larger memories, as worked cases ---- */

static const struct worked_case cases[] = {
    /* CUC before RUC, in 32,768 bytes: the frame descriptor stands on the CBL offset. START reads 4000h there before
       the receive unit's abort writes 0000h, so the block at 4000h is begun and not the one at 0 */
    CASE_IN(32768, "codes in order", WORDS({32764, 0x20}, BOARD),
         INITIALISED,
         STEP(WORDS({0x32, 0xF010}, {0x36, 0x34}), ATTENTION, QUIET, WORDS({0x30, 0x0040}), LOW),
         CAME(BROADCAST(46), GOOD, NOTHING),
         TURNED(WORDS({0x34, 0x4000})),
         STEP(WORDS({0x32, 0x0140}), ATTENTION, EDGE, WORDS({0x34, 0}, {0x30, 0x1200}), HIGH),
         TURNED(WORDS({0x4000, 0x4000}, {0, 0}))),

    /* in 131,072 bytes the command word of the block at offset FFFEh is read at 10000h, EL, and not at 0 */
    CASE_IN(131072, "no wrap at 65,536", WORDS({131068, 0x20}, {0x10000, 0x8000}, BOARD),
         INITIALISED,
         STEP(WORDS({0x32, 0xF100}, {0x34, 0xFFFE}), ATTENTION, QUIET, WORDS({0x30, 0x0200}), LOW),
         TURNED(WORDS({0xFFFE, 0x4000}, {0, 0})),
         STEP(NOTHING, TURN(0), EDGE, WORDS({0xFFFE, 0xA000}, {0x30, 0x2000}), HIGH)),

    /* the link is read before the SCB status is written: the block at 2Ch has the status word for its link. In 65,536
       bytes, so that 0200h and 8200h are two places */
    CASE_IN(65536, "link before status", WORDS({65532, 0x20}, {0x2E, 0x2000}, BOARD),
         INITIALISED,
         STEP(WORDS({0x32, 0xF100}, {0x34, 0x2C}), ATTENTION, QUIET, NOTHING, LOW),
         TURNED(WORDS({0x2C, 0x4000})),
         SETTLING(WORDS({0x2C, 0xA000}, {0x30, 0x8200})),
         TURNED(WORDS({0x200, 0x4000}, {0x8200, 0}))),

    /* the fourth byte of a real address says nothing: in SCP, ISCP, transmit and receive buffer descriptors */
    CASE("three bytes of an address",
         WORDS(BOARD, {8190, 0xFF00}, {0x26, 0xFF00}, DESCRIPTORS, BUFFER_AT(0xA0, 0xAA, 0xC0, 46), {0xA6, 0xFF00},
               {0x42, 0x8004}, {0x46, 0xB0}, {0xB0, 0x8002}, {0xB4, 0xC0}, {0xB6, 0xFF00}),
         INITIALISED,
         RECEIVING,
         CAME(BROADCAST(46), GOOD, NOTHING),
         TURNED_TIMES(2, NOTHING),
         SETTLING(WORDS({0x60, 0xA000}, {0xC0, 0x0201})),
         STEP(WORDS({0x32, 0xF100}, {0x34, 0x40}), ATTENTION, QUIET, NOTHING, LOW),
         TURNED_TIMES(2, NOTHING),
         ENDS(0, 16, NOTHING, WORDS({14, 0x0201}))),
};

/* ---- loops ---- */

static void nop_loop(void)
{
    struct chip chip = ready_chip(LQ_MEMORY_MIN);
    begin_case("a NOP linked to itself");
    put_block(&chip, BLOCK, LQ_CMD_NOP, BLOCK);
    start_cu(&chip, BLOCK);
    for (unsigned i = 0; i < 1000; i++) {
        turn(&chip);
        check_word(&chip, BLOCK, i % 2 == 0 ? LQ_B : LQ_C | LQ_OK);
    }
    CHECK(LQ_CUS(status(&chip)) == LQ_CUS_ACTIVE, "the command unit is not Active");
    chip_free(&chip);
}

static void transmit_loop(void)
{
    for (unsigned count = 0; count < 70; count++) {
        struct chip chip = ready_chip(LQ_MEMORY_MIN);
        begin_case("transmit descriptors in a loop");
        put_transmit(&chip, BLOCK, LQ_EL, 0, TBD);
        put_tbd(&chip, TBD, count, TBD + 8, BUFFERS);
        put_tbd(&chip, TBD + 8, count, TBD, BUFFERS);
        start_cu(&chip, BLOCK);
        turns_until_complete(&chip, BLOCK);
        check_word(&chip, BLOCK, 0x8100);
        chip_free(&chip);
    }
}

static void receive_loop(void)
{
    for (unsigned size = 0; size < 40; size++) {
        struct chip chip = ready_chip(LQ_MEMORY_MIN);
        begin_case("receive descriptors in a loop, frame descriptors in a ring of one");
        put_fd(&chip, FD, 0, FD, RBD);
        put_rbd(&chip, RBD, RBD + 16, BUFFERS, size);
        put_rbd(&chip, RBD + 16, RBD, BUFFERS, size);
        start_ru(&chip, FD);
        for (unsigned frames = 0; frames < 3; frames++) {
            arrive(&chip, EVERYONE, 14 + 500 * frames + 50, 0);
            turns(&chip, 67);
        }
        chip_free(&chip);
    }
}

/* ---- structures on each other ---- */

/* a command block at every distance from the SCB, each command */
static void block_on_scb(void)
{
    for (unsigned cmd = 0; cmd < 8; cmd++)
        for (uint32_t at = SCB - 24; at < SCB + 20; at++) {
            struct chip chip = ready_chip(LQ_MEMORY_MIN);
            begin_case("a command block on the SCB");
            put_transmit(&chip, at, LQ_I, at, TBD);
            put_word(&chip, at + LQ_CB_COMMAND, LQ_I | cmd);
            put_tbd(&chip, TBD, 6 | LQ_EOF, LQ_NONE, SCB - 2);
            start_cu(&chip, at);
            turns(&chip, 4);
            attend(&chip, LQ_CUC(LQ_SUSPEND));
            turns(&chip, 3);
            call(&chip, ATTENTION_CALL);
            attend(&chip, LQ_CUC(LQ_RESUME));
            turns(&chip, 2);
            attend(&chip, LQ_CUC(LQ_ABORT));
            chip_free(&chip);
        }
}

/* a frame descriptor, a buffer descriptor or a buffer at every distance from the SCB */
static void frame_on_scb(void)
{
    for (unsigned which = 0; which < 3; which++)
        for (uint32_t at = SCB - 30; at < SCB + 20; at++) {
            struct chip chip = ready_chip(LQ_MEMORY_MIN);
            uint32_t fd = which == 0 ? at : FD, rbd = which == 1 ? at : RBD, buffer = which == 2 ? at : BUFFERS;
            begin_case("a receive structure on the SCB");
            start_ru(&chip, fd);
            put_fd(&chip, fd, 0, fd, rbd);
            put_rbd(&chip, rbd, rbd, buffer, 24);
            arrive(&chip, EVERYONE, 80, 0);
            turns(&chip, 3);
            arrive(&chip, EVERYONE, 80, 1);
            attend(&chip, LQ_EVENTS);
            turns(&chip, 3);
            attend(&chip, LQ_RUC(LQ_ABORT));
            chip_free(&chip);
        }
}

/* frame descriptor, next one, buffer descriptor and buffer at every distance from each other */
static void frames_on_each_other(void)
{
    for (unsigned which = 0; which < 4; which++)
        for (uint32_t at = FD - 26; at < FD + 26; at++) {
            struct chip chip = ready_chip(LQ_MEMORY_MIN);
            uint32_t next = which == 0 ? at : NEXT_FD, rbd = which == 1 ? at : RBD;
            uint32_t buffer = which == 2 ? at : which == 3 ? RBD + (at - FD) : BUFFERS;
            begin_case("receive structures on each other");
            put_rbd(&chip, rbd, rbd + 16, buffer, 20);
            put_rbd(&chip, rbd + 16, rbd, BUFFERS + 64, 100);
            put_fd(&chip, FD, 0, next, rbd);
            start_ru(&chip, FD);
            arrive(&chip, EVERYONE, 60, 0);
            turns(&chip, 4);
            arrive(&chip, EVERYONE, 64, 0);
            turns(&chip, 4);
            chip_free(&chip);
        }
}

/* the SCB at every distance from ISCP and from the end of memory */
static void scb_anywhere(void)
{
    for (uint32_t i = 0; i < 100; i++) {
        uint32_t scb = i < 50 ? ISCP - 20 + i : LQ_MEMORY_MIN - 40 + i - 50;
        struct chip chip = chip_of(LQ_MEMORY_MIN);
        begin_case("the SCB on ISCP, on SCP, over the end of memory");
        put_scp(&chip, ISCP, 0, scb);
        call(&chip, ATTENTION_CALL);
        put_block(&chip, BLOCK, LQ_CMD_NOP | LQ_I | LQ_EL, 0);
        put_word(&chip, scb + LQ_SCB_CBL, BLOCK);
        put_word(&chip, scb + LQ_SCB_RFA, FD);
        put_fd(&chip, FD, 0, FD, LQ_NONE);
        put_word(&chip, scb + LQ_SCB_COMMAND, LQ_EVENTS | LQ_CUC(LQ_START) | LQ_RUC(LQ_START));
        call(&chip, ATTENTION_CALL);
        arrive(&chip, EVERYONE, 60, 0);
        arrive(&chip, EVERYONE, 60, 0);
        turns(&chip, 5);
        put_word(&chip, scb + LQ_SCB_COMMAND, LQ_RESET);
        call(&chip, ATTENTION_CALL);
        call(&chip, ATTENTION_CALL);
        chip_free(&chip);
    }
}

/* ---- over the end of memory ---- */

static void over_the_end(void)
{
    for (uint32_t k = 1; k < 40; k++) {
        struct chip chip = ready_chip(LQ_MEMORY_MIN);
        uint32_t at = LQ_MEMORY_MIN - k;
        begin_case("blocks, descriptors and buffers over the end of memory");
        put_transmit(&chip, at, LQ_I | LQ_S, BLOCK, TBD);
        put_tbd(&chip, TBD, 40, at, at);
        start_cu(&chip, at);
        turns(&chip, 4);
        put_fd(&chip, at, 0, FD, at);
        put_rbd(&chip, RBD, at, 0xFFFFFF - k, 30);
        put_word(&chip, at + LQ_FD_BUFFER, RBD);
        start_ru(&chip, at);
        arrive(&chip, EVERYONE, 90, 0);
        turns(&chip, 5);
        attend(&chip, LQ_EVENTS | LQ_CUC(LQ_ABORT) | LQ_RUC(LQ_ABORT));
        check_filter(&chip, run_mc_setup(&chip, at, 180));
        chip_free(&chip);
    }
}

/* An MC-Setup's list that goes around all of memory, 8,192 bytes, and over its own block: once it comes to the status
   word, which is 4000h while the list is read, then it goes on a second time, with other sixes of bytes. */
static void list_over_its_block(void)
{
    static const uint32_t places[] = {BLOCK, LQ_MEMORY_MIN - 0x100, LQ_MEMORY_MIN - 4};
    static const uint8_t begun[6] = {0x00, 0x40, 0x03, 0x80, 0xCD, 0xAB}; /* the block's first words, as it is read */
    static const uint8_t ended[6] = {0x00, 0xA0, 0x03, 0x80, 0xCD, 0xAB};
    static const uint8_t fresh[6] = {0x00, 0x00, 0x03, 0x80, 0xCD, 0xAB};
    for (size_t i = 0; i < COUNT_OF(places); i++) {
        struct chip chip = ready_chip(LQ_MEMORY_MIN);
        begin_case("a list of addresses around memory, over its own block");
        uint64_t short_of_it = run_mc_setup(&chip, places[i], LQ_MEMORY_MIN - 8);
        CHECK(!(short_of_it & (bit_of(begun) | bit_of(ended) | bit_of(fresh))), "the case tells nothing");
        check_filter(&chip, short_of_it);
        uint64_t over_it = run_mc_setup(&chip, places[i], LQ_MEMORY_MIN - 2);
        CHECK(over_it & bit_of(begun), "the block is not in its list");
        CHECK(!(over_it & (bit_of(ended) | bit_of(fresh))), "the case tells nothing");
        check_filter(&chip, over_it);
        check_filter(&chip, run_mc_setup(&chip, places[i], 0x3FFF));
        chip_free(&chip);
    }
}

/* and one of 16,380 bytes that runs over the end of 65,536: an address has two of its bytes there */
static void list_over_the_end(void)
{
    static const uint8_t group[6] = {0x01, 0x00, 0x5E, 0x00, 0x00, 0x01};
    struct chip chip = ready_chip(65536);
    begin_case("a list of addresses over the end of memory");
    CHECK(!(run_mc_setup(&chip, 0xF000, 0x3FFF) & bit_of(group)), "the case tells nothing");
    CHECK(!is_received(&chip, group), "a group that is not listed is received");
    put_bytes(&chip, 0xFFFE, group, 6);
    check_filter(&chip, run_mc_setup(&chip, 0xF000, 0x3FFF));
    CHECK(is_received(&chip, group), "the group over the end is not received");
    chip_free(&chip);
}

/* ---- every size of memory, and a base anywhere ---- */

static void session(struct chip *chip, uint32_t base, uint32_t scb)
{
    uint32_t at = base + scb;
    put_scp(chip, base + ISCP, base, scb);
    call(chip, ATTENTION_CALL);
    put_transmit(chip, base + BLOCK, LQ_I | LQ_EL, 0, TBD);
    put_tbd(chip, base + TBD, 46 | LQ_EOF, LQ_NONE, base + BUFFERS);
    put_fd(chip, base + FD, LQ_EL, FD, RBD);
    put_rbd(chip, base + RBD, RBD, base + BUFFERS, 100);
    put_word(chip, at + LQ_SCB_CBL, BLOCK);
    put_word(chip, at + LQ_SCB_RFA, FD);
    put_word(chip, at + LQ_SCB_COMMAND, LQ_EVENTS | LQ_CUC(LQ_START) | LQ_RUC(LQ_START));
    call(chip, ATTENTION_CALL);
    arrive(chip, EVERYONE, 60, 0);
    turns(chip, 6);
    check_word(chip, base + BLOCK, LQ_C | LQ_OK);
    check_word(chip, base + FD, LQ_C | LQ_OK);
    check_word(chip, at, LQ_EVENTS | LQ_RUS_NO_RESOURCES << 4);
}

static void every_size(void)
{
    static const uint32_t bases[] = {0, 0x012345, 0xFFFF00};
    for (size_t n = LQ_MEMORY_MIN; n <= LQ_MEMORY_MAX; n *= n < 131072 ? 2 : 128)
        for (size_t b = 0; b < COUNT_OF(bases); b++) {
            struct chip chip = chip_of(n);
            begin_case("a session in every size of memory");
            session(&chip, bases[b], SCB);
            chip_free(&chip);
        }
}

/* Nothing ties a record to a size: base and offsets are not reduced. */
static void size_changes(void)
{
    struct chip chip = chip_of(65536);
    begin_case("the size of memory changes between calls");
    put_scp(&chip, ISCP, 0x012345, SCB);
    call(&chip, ATTENTION_CALL);
    check_word(&chip, 0x2345 + SCB, 0xA000);
    resize(&chip, LQ_MEMORY_MIN);
    call(&chip, ATTENTION_CALL);
    check_word(&chip, (0x2345 + SCB) % LQ_MEMORY_MIN, 0xA000);
    resize(&chip, 131072);
    call(&chip, ATTENTION_CALL);
    check_word(&chip, 0x12345 + SCB, 0xA000);
    chip_free(&chip);
}

/* ---- frames ---- */

static void empty_frame(void)
{
    struct chip chip = ready_chip(LQ_MEMORY_MIN);
    begin_case("an empty frame at a null pointer");
    start_ru(&chip, FD);
    struct answer found = call(&chip, ARRIVAL_CALL(NULL, 0, 0));
    check_answer(found, LQ_ACCEPTED, 0, false);
    check_reason(found, LQ_DROPPED_TOO_FEW);
    check_answer(turn(&chip), LQ_ACCEPTED, 0, false);
    check_word(&chip, FD, 0);
    chip_free(&chip);
}

void shapes(void)
{
    run_cases(cases, COUNT_OF(cases));
    nop_loop();
    transmit_loop();
    receive_loop();
    block_on_scb();
    frame_on_scb();
    frames_on_each_other();
    scb_anywhere();
    over_the_end();
    list_over_its_block();
    list_over_the_end();
    every_size();
    size_changes();
    empty_frame();
}
