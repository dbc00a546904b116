/* Every action command: its words, its parameters, its flags; and document 01's unmarked cases of Transmit. */
#include "setup.h"

enum { BLOCK = 0x200, TBD = 0x400, DATA = 0x1000 };

/* ---- flags: each command with every combination of EL, S, I, and the bits without a meaning set ---- */

static const unsigned STATUS_OF[8] = {0xA000, 0xA000, 0xA000, 0xA000, 0xA000, 0xA000, 0x8000, 0xA000};

static void flags(void)
{
    for (unsigned cmd = 0; cmd < 8; cmd++) {
        for (unsigned high = 0; high < 8; high++) {
            struct chip chip = ready_chip(LQ_MEMORY_MIN);
            unsigned word = high << 13;
            begin_case("a command's flags");
            put_block(&chip, BLOCK, word | 0x1FF8 | cmd, 0x300);
            put_word(&chip, BLOCK + 6, cmd == LQ_CMD_CONFIGURE ? 0x0004 : cmd == LQ_CMD_TRANSMIT ? 0xFFFF : 6);
            put_word(&chip, BLOCK + 8, 0x0600);
            start_cu(&chip, BLOCK);
            turn(&chip);
            check_word(&chip, BLOCK, LQ_B);
            struct answer answer = turn(&chip);
            unsigned cus = word & LQ_EL ? LQ_CUS_IDLE : word & LQ_S ? LQ_CUS_SUSPENDED : LQ_CUS_ACTIVE;
            unsigned events = (word & LQ_I ? LQ_CX : 0u) | (cus != LQ_CUS_ACTIVE ? LQ_CNA : 0u);
            check_answer(answer, LQ_ACCEPTED, cmd == LQ_CMD_TRANSMIT ? 14 : 0, events != 0);
            check_word(&chip, BLOCK, STATUS_OF[cmd]);
            check_word(&chip, SCB, events | cus << 8);
            turns(&chip, 2);
            attend(&chip, LQ_CUC(LQ_RESUME));
            turns(&chip, 3);
            chip_free(&chip);
        }
    }
}

/* ---- IA-Setup, TDR ---- */

static void ia_setup(void)
{
    static const uint8_t addresses[][6] = {
        {2, 7, 1, 0, 0, 42}, {0, 0, 0, 0, 0, 0}, {1, 2, 3, 4, 5, 6}, {255, 255, 255, 255, 255, 255}};
    for (size_t i = 0; i < COUNT_OF(addresses); i++) {
        struct chip chip = ready_chip(LQ_MEMORY_MIN);
        begin_case("IA-Setup");
        put_bytes(&chip, BLOCK + 6, addresses[i], 6);
        CHECK(run_command(&chip, LQ_CMD_IA_SETUP) == 0xA000, "IA-Setup's status");
        put_transmit(&chip, BLOCK, 0, 0, LQ_NONE);
        run_command(&chip, LQ_CMD_TRANSMIT);
        check_bytes("the source of a sent frame", chip.lent.outgoing.bytes + 6, addresses[i], 6);
        put_fd(&chip, 0x300, 0, 0x300, LQ_NONE);
        start_ru(&chip, 0x300);
        arrive(&chip, addresses[i], 60, 0);
        turn(&chip);
        check_word(&chip, 0x300, LQ_B);
        chip_free(&chip);
    }
}

static void tdr(void)
{
    struct chip chip = ready_chip(LQ_MEMORY_MIN);
    begin_case("TDR");
    put_word(&chip, BLOCK + 6, 0x1234);
    CHECK(run_command(&chip, LQ_CMD_TDR) == 0xA000, "TDR's status");
    check_word(&chip, BLOCK + 6, 0x8000);
    chip_free(&chip);
}

/* ---- Configure ---- */

/* every byte 3: accepted exactly if the length is not 7, and loopback is 0; bits 4 and 5 are the preamble's */
static void configure_bytes(void)
{
    for (unsigned third = 0; third < 256; third++) {
        struct chip chip = ready_chip(LQ_MEMORY_MIN);
        begin_case("Configure, byte 3");
        put_word(&chip, BLOCK + 6, 4);
        put_word(&chip, BLOCK + 8, third << 8);
        bool accepted = (third & 7) != 7 && (third & 0xC0) == 0;
        CHECK(run_command(&chip, LQ_CMD_CONFIGURE) == (accepted ? 0xA000 : 0x8000), "byte 3 of %02Xh", third);
        chip_free(&chip);
    }
}

static void put_configure(struct chip *chip, unsigned count, unsigned save, unsigned filter, unsigned minimum)
{
    for (uint32_t i = 0; i < 16; i++) put_byte(chip, BLOCK + 6 + i, 0xFF);
    put_byte(chip, BLOCK + 6, count);
    put_byte(chip, BLOCK + 8, save);
    put_byte(chip, BLOCK + 9, LQ_ADDRESS_LENGTH_AFTER_RESET);
    put_byte(chip, BLOCK + 14, filter);
    put_byte(chip, BLOCK + 16, minimum);
}

/* a short frame to another address is held exactly if promiscuous and minimum, or save-bad, were taken */
static void configure_counts(void)
{
    static const uint8_t other[6] = {2, 2, 2, 2, 2, 2};
    for (unsigned count = 0; count < 32; count++) {
        for (unsigned save = 0; save < 2; save++) {
            struct chip chip = ready_chip(LQ_MEMORY_MIN);
            unsigned taken = (count & 15) < 4 ? 4 : (count & 15) > 12 ? 12 : count & 15;
            bool promiscuous = taken > 8, all = taken > 10;
            begin_case("Configure, the count");
            put_configure(&chip, count, save << 7, LQ_PROMISCUOUS, 0);
            run_command(&chip, LQ_CMD_CONFIGURE);
            put_fd(&chip, 0x300, 0, 0x300, LQ_NONE);
            start_ru(&chip, 0x300);
            arrive(&chip, other, 59, 0);
            turn(&chip);
            check_word(&chip, 0x300, promiscuous && (all || save) ? LQ_B : 0);
            chip_free(&chip);
        }
    }
}

/* the bytes as a driver writes them: save-bad, preamble bits, promiscuous, minimum 0 */
static void configure_as_written(void)
{
    static const uint8_t bytes[] = {0x0B, 0x08, 0x80, 0x26, 0x00, 0x60, 0x00, 0xF2, 0x01, 0x00, 0x00};
    static const uint8_t other[6] = {2, 2, 2, 2, 2, 2};
    struct chip chip = ready_chip(LQ_MEMORY_MIN);
    begin_case("Configure as a driver writes it");
    put_bytes(&chip, BLOCK + 6, bytes, sizeof bytes);
    CHECK(run_command(&chip, LQ_CMD_CONFIGURE) == 0xA000, "Configure's status");
    put_fd(&chip, 0x300, 0, 0x300, LQ_NONE);
    start_ru(&chip, 0x300);
    arrive(&chip, other, 14, 1);
    turns(&chip, 2);
    check_word(&chip, 0x300, LQ_C | LQ_FD_CRC);
    check_word(&chip, SCB + LQ_SCB_CRCERRS, 1);
    chip_free(&chip);
}

/* settings that a shorter Configure keeps */
static void configure_keeps(void)
{
    for (unsigned count = 0; count < 16; count++) {
        struct chip chip = ready_chip(LQ_MEMORY_MIN);
        begin_case("Configure keeps");
        put_configure(&chip, 12, LQ_SAVE_BAD, LQ_BROADCAST_DISABLED, 200);
        run_command(&chip, LQ_CMD_CONFIGURE);
        put_configure(&chip, count, 0, 0, 64);
        run_command(&chip, LQ_CMD_CONFIGURE);
        put_fd(&chip, 0x300, 0, 0x300, LQ_NONE);
        start_ru(&chip, 0x300);
        arrive(&chip, EVERYONE, 100, 0);
        arrive(&chip, EVERYONE, 200, 0);
        turn(&chip);
        check_word(&chip, 0x300, count > 8 ? LQ_B : 0);
        turns(&chip, 3);
        chip_free(&chip);
    }
}

/* ---- MC-Setup ---- */

/* Twenty groups stand in the list. A count that ends among them takes exactly those before its end; a larger one takes
   what stands behind them too, around memory if it goes so far. */
static void mc_setup_count(size_t n, unsigned count)
{
    enum { LISTED = 20 };
    struct chip chip = ready_chip(n);
    unsigned addresses = (count & 0x3FFF) / 6;
    uint64_t listed = 0;
    begin_case("MC-Setup, the count");
    for (unsigned a = 0; a < LISTED; a++) {
        const uint8_t group[6] = {0x01, (uint8_t)a, (uint8_t)a, (uint8_t)a, (uint8_t)a, (uint8_t)a};
        put_bytes(&chip, BLOCK + LQ_MC_ADDRESSES + 6 * a, group, 6);
        if (a < addresses) listed |= bit_of(group);
    }
    uint64_t bits = run_mc_setup(&chip, BLOCK, count);
    CHECK((listed & ~bits) == 0, "count %u: a listed group's bit is missing", count);
    check_filter(&chip, addresses <= LISTED ? listed : bits);
    for (unsigned a = 0; a < LISTED && a < addresses; a++) {
        const uint8_t group[6] = {0x01, (uint8_t)a, (uint8_t)a, (uint8_t)a, (uint8_t)a, (uint8_t)a};
        CHECK(is_received(&chip, group), "count %u: the listed group %u is not received", count, a);
    }
    chip_free(&chip);
}

static void mc_setup_counts(void)
{
    static const unsigned counts[] = {0,      1,      5,      6,      7,      11,     12,     18,   95,  96,
                                      97,     101,    102,    103,    120,    180,    200,    8184, 8190, 8196,
                                      0x3FFB, 0x3FFC, 0x3FFF, 0x4006, 0x8006, 0xC000, 0xC005, 0xFFFF};
    for (size_t i = 0; i < COUNT_OF(counts); i++) {
        mc_setup_count(LQ_MEMORY_MIN, counts[i]);
        mc_setup_count(65536, counts[i]);
    }
}

static void put_groups(struct chip *chip, const uint8_t groups[][6], unsigned n)
{
    for (unsigned a = 0; a < n; a++) put_bytes(chip, BLOCK + LQ_MC_ADDRESSES + 6 * a, groups[a], 6);
}

/* the new filter replaces the old one whole, none of it stays; a count below 6 leaves an empty one */
static void mc_setup_replaces(void)
{
    static const uint8_t before[2][6] = {{0x01, 0x00, 0x5E, 0x00, 0x00, 0x01}, {0xAB, 0x00, 0x00, 0x02, 0x00, 0x00}};
    static const uint8_t after[1][6] = {{0x01, 0x80, 0xC2, 0x00, 0x00, 0x00}};
    for (unsigned below = 0; below < 6; below++) {
        struct chip chip = ready_chip(LQ_MEMORY_MIN);
        begin_case("MC-Setup replaces the filter");
        put_groups(&chip, before, 2);
        run_mc_setup(&chip, BLOCK, 12);
        check_filter(&chip, (uint64_t)1 << 52 | (uint64_t)1 << 59);
        put_groups(&chip, after, 1);
        run_mc_setup(&chip, BLOCK, 6);
        check_filter(&chip, (uint64_t)1 << 40);
        CHECK(is_received(&chip, after[0]), "the group listed last is not received");
        CHECK(!is_received(&chip, before[0]) && !is_received(&chip, before[1]), "a group listed before is received");
        run_mc_setup(&chip, BLOCK, below);
        check_filter(&chip, 0);
        chip_free(&chip);
    }
}

/* thirty groups are all received, and so they are if the list has them a second time, backwards; one that shares no bit
   with them is dropped */
static void mc_setup_thirty(void)
{
    static const uint8_t other[6] = {0x01, 0x80, 0xC2, 0x00, 0x00, 0x00};
    struct chip chip = ready_chip(LQ_MEMORY_MIN);
    uint8_t groups[60][6] = {0};
    begin_case("MC-Setup of thirty groups");
    for (unsigned a = 0; a < 60; a++) {
        const uint8_t group[6] = {0x01, 0x00, 0x5E, 0x00, 0x01, (uint8_t)(1 + (a < 30 ? a : 59 - a))};
        memcpy(groups[a], group, 6);
    }
    put_groups(&chip, groups, 60);
    for (unsigned n = 30; n <= 60; n += 30) {
        run_mc_setup(&chip, BLOCK, 6 * n);
        for (unsigned a = 0; a < 30; a++) CHECK(is_received(&chip, groups[a]), "group %u of thirty is not received", a);
        CHECK(!is_received(&chip, other), "a group that shares no bit is received");
    }
    chip_free(&chip);
}

/* ---- Transmit ---- */

/* a chain of n descriptors of some bytes each, the last with EOF */
static void put_chain(struct chip *chip, unsigned n, unsigned bytes)
{
    for (unsigned i = 0; i < n; i++) {
        bool last = i + 1 == n;
        put_tbd(chip, TBD + 8 * i, bytes | (last ? LQ_EOF : 0u), last ? LQ_NONE : TBD + 8 * (i + 1), DATA + bytes * i);
    }
}

/* Sends the chain at TBD; answers its status and the length, and checks the number of turns. */
static unsigned sends(struct chip *chip, unsigned expected_turns, uint16_t report, unsigned *length)
{
    struct answer answer = {.length = 0};
    put_transmit(chip, BLOCK, LQ_EL, 0, TBD);
    start_cu(chip, BLOCK);
    for (unsigned i = 0; i < expected_turns; i++) {
        CHECK(!(word_of(chip, BLOCK) & LQ_C), "the Transmit ended after %u turns, expected %u", i, expected_turns);
        answer = call(chip, TURN_CALL(report));
    }
    CHECK(word_of(chip, BLOCK) & LQ_C, "the Transmit did not end after %u turns", expected_turns);
    *length = answer.length;
    return word_of(chip, BLOCK);
}

static void check_sends(const char *name, unsigned n, unsigned bytes, unsigned expected_turns, unsigned status_word,
                        unsigned expected_length)
{
    struct chip chip = ready_chip(LQ_MEMORY_MIN);
    unsigned length;
    begin_case(name);
    for (uint32_t i = 0; i < 0x1000; i++) put_byte(&chip, DATA + i, i * 13 + 5);
    put_chain(&chip, n, bytes);
    unsigned found = sends(&chip, expected_turns, 0, &length);
    CHECK(found == status_word, "the status is %04Xh, expected %04Xh", found, status_word);
    CHECK(length == expected_length, "the length is %u, expected %u", length, expected_length);
    chip_free(&chip);
}

static void transmit_limits(void)
{
    check_sends("64 descriptors take 66 turns", 64, 1, 66, 0xA000, 78);
    check_sends("a 65th gives 8100h", 65, 1, 66, 0x8100, 0);
    check_sends("2,034 data bytes are let through", 1, 2034, 3, 0xA000, 2048);
    check_sends("2,035 are not", 1, 2035, 3, 0x8100, 0);
    check_sends("2,034 in two buffers", 2, 1017, 4, 0xA000, 2048);
    check_sends("2,036 in two buffers", 2, 1018, 4, 0x8100, 0);
    check_sends("16,383 in one buffer", 1, 0x3FFF, 3, 0x8100, 0);
    check_sends("64 descriptors of 31 bytes", 64, 31, 66, 0xA000, 14 + 64 * 31);
    check_sends("64 descriptors of 32 bytes: the last is too much", 64, 32, 66, 0x8100, 0);
    check_sends("empty buffers", 5, 0, 7, 0xA000, 14);
}

/* "bits 10, 9, 7, 6, 5, 3-0 ... are set with C; OK, and the frame sent, exactly if 10, 9, 5 are clear" */
static void reports(void)
{
    struct chip chip = ready_chip(LQ_MEMORY_MIN);
    put_chain(&chip, 1, 46);
    for (unsigned report = 0; report < 0x10000; report += report < 0x0800 ? 1 : 0x07FF) {
        unsigned length;
        begin_case("the line report");
        unsigned found = sends(&chip, 3, (uint16_t)report, &length);
        bool ok = (report & 0x0620) == 0;
        CHECK(found == (0x8000 | (report & 0x06EF) | (ok ? 0x2000u : 0)), "report %04Xh gives %04Xh", report, found);
        CHECK(length == (ok ? 60 : 0), "report %04Xh gives the length %u", report, length);
    }
    chip_free(&chip);
}

void commands(void)
{
    flags();
    ia_setup();
    tdr();
    configure_bytes();
    configure_counts();
    configure_as_written();
    configure_keeps();
    mc_setup_counts();
    mc_setup_replaces();
    mc_setup_thirty();
    transmit_limits();
    reports();
}
