/*
 * The fold of an address to a bit of the filter: the program of document 000, section 5.5 (paper_hash.c), as a witness
 * against the archive. It reads the filter where the record has it, bytes 248 to 255, and changes with docs/record.md.
 */
#include "setup.h"

enum { BLOCK = 0x200, FILTER_AT = 248, RANDOM_ADDRESSES = 10000, RANDOM_LISTS = 200, LONGEST_LIST = 40 };

/* byte 248 + k, bit j is bit 8k + j */
static uint64_t filter_of(const struct chip *chip)
{
    uint64_t filter = 0;
    for (unsigned k = 0; k < 8; k++) filter |= (uint64_t)chip->lent.record.bytes[FILTER_AT + k] << 8 * k;
    return filter;
}

/* the filter that the archive makes of so many addresses */
static uint64_t filter_after(struct chip *chip, const uint8_t addresses[][6], unsigned n)
{
    for (unsigned a = 0; a < n; a++) put_bytes(chip, BLOCK + LQ_MC_ADDRESSES + 6 * a, addresses[a], 6);
    run_mc_setup(chip, BLOCK, 6 * n);
    return filter_of(chip);
}

/* the one bit that the archive sets for an address of the length that is configured; a filter of none or several is no
   answer */
static unsigned archive_hash(struct chip *chip, unsigned length, const uint8_t *address)
{
    put_bytes(chip, BLOCK + LQ_MC_ADDRESSES, address, length);
    run_mc_setup_of(chip, length, BLOCK, length);
    uint64_t filter = filter_of(chip);
    unsigned bit = 0;
    while (bit < 63 && !(filter >> bit & 1)) bit++;
    CHECK(filter == (uint64_t)1 << bit, "one address makes the filter %016lX", (unsigned long)filter);
    return bit;
}

static void check_hash_of(struct chip *chip, unsigned length, const uint8_t *address)
{
    unsigned found = archive_hash(chip, length, address), expected = hash_of_first(address, length);
    CHECK(found == expected, "of %02X-%02X-%02X-%02X-%02X-%02X the first %u bytes fall on %u, by the paper on %u",
          address[0], address[1], address[2], address[3], address[4], address[5], length, found, expected);
}

static void check_hash(struct chip *chip, const uint8_t *address)
{
    check_hash_of(chip, 6, address);
}

/* ---- values that were computed from the paper beforehand ---- */

static void known_values(struct chip *chip)
{
    static const struct {
        uint8_t address[6];
        unsigned bit;
    } known[] = {
        {{0xFF, 0xFF, 0xFF, 0xFF, 0xFF, 0xFF}, 59}, {{0x01, 0x00, 0x5E, 0x00, 0x00, 0x01}, 52},
        {{0xAB, 0x00, 0x00, 0x02, 0x00, 0x00}, 59}, {{0x01, 0x80, 0xC2, 0x00, 0x00, 0x00}, 40},
        {{0x01, 0x00, 0x00, 0x00, 0x00, 0x00}, 5},  {{0xCF, 0x00, 0x00, 0x00, 0x00, 0x00}, 43}};
    for (size_t i = 0; i < COUNT_OF(known); i++) {
        begin_case("a known value");
        unsigned paper = hash_of(known[i].address), found = archive_hash(chip, 6, known[i].address);
        CHECK(paper == known[i].bit, "the paper's function gives %u, expected %u", paper, known[i].bit);
        CHECK(found == known[i].bit, "the archive gives %u, expected %u", found, known[i].bit);
    }
}

/* "It is possible to select up to 64 unique multicast addresses": these are such ones */
static void unique_addresses(struct chip *chip)
{
    uint64_t bits = 0;
    begin_case("64 unique addresses");
    for (unsigned last = 0; last < 64; last++) {
        const uint8_t address[6] = {0x01, 0, 0, 0, 0, (uint8_t)last};
        check_hash(chip, address);
        bits |= filter_of(chip);
    }
    CHECK(bits == ~(uint64_t)0, "they fall on the bits %016lX only", (unsigned long)bits);
}

/* each bit of the address alone, so that none is left out or taken in another order */
static void single_bits(struct chip *chip)
{
    begin_case("addresses of one bit");
    for (unsigned bit = 0; bit < 48; bit++) {
        uint8_t address[6] = {0};
        address[bit / 8] = (uint8_t)(1 << bit % 8);
        check_hash(chip, address);
    }
}

/* ---- random ones ---- */

static void random_address(uint8_t *address)
{
    for (unsigned i = 0; i < 6; i++) address[i] = (uint8_t)random_bits();
}

static void random_addresses(struct chip *chip)
{
    uint64_t bits = 0;
    begin_case("random addresses");
    for (unsigned i = 0; i < RANDOM_ADDRESSES; i++) {
        uint8_t address[6];
        random_address(address);
        check_hash(chip, address);
        bits |= filter_of(chip);
    }
    CHECK(bits == ~(uint64_t)0, "they fall on the bits %016lX only", (unsigned long)bits);
}

/* a list sets the bits of its addresses and no other, and nothing of the list before it stays */
static void unions(struct chip *chip)
{
    begin_case("lists of random addresses");
    for (unsigned i = 0; i < RANDOM_LISTS; i++) {
        uint8_t addresses[LONGEST_LIST][6];
        unsigned n = (unsigned)(random_bits() % (LONGEST_LIST + 1));
        uint64_t expected = 0;
        for (unsigned a = 0; a < n; a++) {
            random_address(addresses[a]);
            expected |= (uint64_t)1 << hash_of(addresses[a]);
        }
        uint64_t found = filter_after(chip, addresses, n);
        CHECK(found == expected, "%u addresses make the filter %016lX, expected %016lX", n, (unsigned long)found,
              (unsigned long)expected);
    }
}

/* ---- shorter addresses: the same fold of fewer bytes ---- */

/* of FF-FF-.., 01-00-.. and CF-00-.., so many bytes of each: computed beforehand as the values above */
static const unsigned SHORT_VALUES[ADDRESS_LENGTHS][3] = {
    [1] = {0, 50, 11}, [2] = {0, 15, 26}, [3] = {0, 4, 50}, [4] = {0, 11, 24}, [5] = {45, 1, 18}, [6] = {59, 5, 43}};

static void known_short_values(struct chip *chip, unsigned length)
{
    static const uint8_t addresses[3][6] = {{0xFF, 0xFF, 0xFF, 0xFF, 0xFF, 0xFF}, {0x01}, {0xCF}};
    begin_case("known values of shorter addresses");
    for (unsigned i = 0; i < 3; i++) {
        unsigned paper = hash_of_first(addresses[i], length), found = archive_hash(chip, length, addresses[i]);
        CHECK(paper == SHORT_VALUES[length][i], "length %u: the paper's function gives %u", length, paper);
        CHECK(found == SHORT_VALUES[length][i], "length %u: the archive gives %u", length, found);
    }
}

/* known ones, each bit alone, the 64 groups, random ones */
static void short_addresses(struct chip *chip, unsigned length)
{
    enum { RANDOM = 1000 };
    configure(chip, (struct addressing){.length = (uint8_t)length}, 0);
    known_short_values(chip, length);
    begin_case("shorter addresses");
    for (unsigned bit = 0; bit < 8 * length; bit++) {
        uint8_t address[6] = {0};
        address[bit / 8] = (uint8_t)(1 << bit % 8);
        check_hash_of(chip, length, address);
    }
    for (unsigned i = 0; i < 64 + RANDOM; i++) {
        uint8_t address[6];
        if (i < 64) group_of(length, i, address);
        else random_address(address);
        check_hash_of(chip, length, address);
    }
}

/* ---- the other way: a record with one bit of the filter lets one of the 64 groups in ---- */

static void bits_of_records(void)
{
    for (unsigned bit = 0; bit < 64; bit++) {
        struct chip chip = ready_chip(LQ_MEMORY_MIN);
        begin_case("a record with one bit of the filter");
        chip.lent.record.bytes[FILTER_AT + bit / 8] = (uint8_t)(1 << bit % 8);
        chip.model.filter = (uint64_t)1 << bit;
        check_filter(&chip, (uint64_t)1 << bit);
        chip_free(&chip);
    }
}

void hashes(uint64_t seed)
{
    struct chip chip = ready_chip(LQ_MEMORY_MIN);
    seed_random(seed);
    known_values(&chip);
    unique_addresses(&chip);
    single_bits(&chip);
    random_addresses(&chip);
    unions(&chip);
    for (unsigned length = 1; length < ADDRESS_LENGTHS; length++) short_addresses(&chip, length);
    chip_free(&chip);
    bits_of_records();
}
