/*
 * What an address is under every length, with both locations: which frames are for the chip by its own address, as
 * frames to everyone, by the filter; lengths that shrink and grow while own address and filter are kept; and addresses
 * of no bytes, which are nobody's.
 */
#include "setup.h"

enum { BLOCK = 0x200 };

static const uint8_t OWN[6] = {0x02, 0x61, 0x72, 0x83, 0x94, 0xA5};

static void set_own(struct chip *chip)
{
    put_bytes(chip, BLOCK + LQ_CB_DATA, OWN, 6);
    CHECK(run_command(chip, LQ_CMD_IA_SETUP) == (LQ_C | LQ_OK), "IA-Setup's status");
}

/* ---- the own address ---- */

/* "of the own address the first bytes, up to the length, count": a frame to it is received, and one that differs in a
   byte is received exactly if that byte does not count. Of no bytes none counts, and none is received. */
static void check_own(struct chip *chip, unsigned length)
{
    CHECK(is_received(chip, OWN) == (length > 0), "length %u: the own address", length);
    for (unsigned i = 0; i < 6; i++) {
        uint8_t other[6];
        memcpy(other, OWN, 6);
        other[i] ^= 0x40;
        bool expected = length > 0 && i >= length;
        CHECK(is_received(chip, other) == expected, "length %u: the own address but for byte %u", length, i);
    }
}

/* IA-Setup under the first length takes six bytes; whatever the length is then, they are kept. */
static void check_own_kept(struct addressing first, struct addressing second)
{
    struct chip chip = ready_chip(LQ_MEMORY_MIN);
    begin_case("the own address when the length changes");
    configure(&chip, first, 0);
    set_own(&chip);
    check_own(&chip, first.length);
    configure(&chip, second, 0);
    check_own(&chip, second.length);
    configure(&chip, first, 0);
    check_own(&chip, first.length);
    chip_free(&chip);
}

/* "IA-Setup: six bytes at +6": set under any length, a sent frame has all six once the length is 6. */
static void check_six_bytes(struct addressing way)
{
    struct chip chip = ready_chip(LQ_MEMORY_MIN);
    begin_case("IA-Setup takes six bytes");
    configure(&chip, way, 0);
    set_own(&chip);
    configure(&chip, (struct addressing){.length = 6}, 0);
    put_transmit(&chip, BLOCK, 0, 0, LQ_NONE);
    run_command(&chip, LQ_CMD_TRANSMIT);
    check_bytes("the source of a sent frame", chip.lent.outgoing.bytes + 6, OWN, 6);
    chip_free(&chip);
}

/* ---- everyone, and promiscuous mode ---- */

/* So many bytes FFh are everyone, whatever stands behind them; with the last of them another they are not. */
static void check_everyone(struct addressing way, unsigned filter)
{
    uint8_t ones[6] = {0}, all_but_one[6] = {0};
    struct chip chip = ready_chip(LQ_MEMORY_MIN);
    bool promiscuous = filter & LQ_PROMISCUOUS, enabled = !(filter & LQ_BROADCAST_DISABLED);
    bool expected = promiscuous || (way.length > 0 && enabled);
    begin_case("frames to everyone");
    set_own(&chip);
    configure(&chip, way, filter);
    memset(ones, 0xFF, way.length);
    CHECK(is_received(&chip, ones) == expected, "length %u, filter %u: to everyone", way.length, filter);
    CHECK(is_received(&chip, EVERYONE) == expected, "length %u, filter %u: six times FFh", way.length, filter);
    memset(all_but_one, 0xFF, 6);
    if (way.length > 0) all_but_one[way.length - 1] = 0xFE;
    CHECK(is_received(&chip, all_but_one) == promiscuous, "length %u, filter %u: FFh but for one", way.length, filter);
    chip_free(&chip);
}

/* Neither an own address of all FFh, as reset leaves it, nor a bit of the filter helps where broadcast is disabled. */
static void check_ones_disabled(struct addressing way)
{
    struct chip chip = ready_chip(LQ_MEMORY_MIN);
    begin_case("everyone by own address and filter");
    configure(&chip, way, LQ_BROADCAST_DISABLED);
    put_bytes(&chip, BLOCK + LQ_MC_ADDRESSES, EVERYONE, 6);
    uint64_t bits = run_mc_setup_of(&chip, way.length, BLOCK, way.length);
    check_filter_of(&chip, way.length, bits);
    CHECK(!is_received(&chip, EVERYONE), "length %u: a frame to everyone is received", way.length);
    chip_free(&chip);
}

/* ---- the filter ---- */

/* The bits of some of the 64 groups of a length, one behind the other in a list; the first so many. */
static uint64_t put_list(struct chip *chip, unsigned length, unsigned n)
{
    static const unsigned listed[] = {3, 17, 42, 60};
    uint64_t bits = 0;
    for (unsigned a = 0; a < COUNT_OF(listed); a++) {
        uint8_t group[6];
        group_of(length, listed[a], group);
        put_bytes(chip, BLOCK + LQ_MC_ADDRESSES + length * a, group, length);
        if (a < n) bits |= bit_of_first(group, length);
    }
    return bits;
}

/* "MC-Setup's addresses have that length", "a remainder ignored": so many addresses, and some bytes of another one */
static void check_list(struct addressing way, unsigned n, unsigned remainder)
{
    struct chip chip = ready_chip(LQ_MEMORY_MIN);
    begin_case("MC-Setup by the length");
    configure(&chip, way, 0);
    uint64_t bits = put_list(&chip, way.length, n);
    run_mc_setup_of(&chip, way.length, BLOCK, way.length * n + remainder);
    check_filter_of(&chip, way.length, bits);
    chip_free(&chip);
}

/* Every address that is listed sets its bit, one with the low bit clear too, which itself is not received by it. */
static void check_no_group(struct addressing way)
{
    static const uint8_t no_group[6] = {0x04, 0x10, 0x20, 0x30, 0x40, 0x50};
    struct chip chip = ready_chip(LQ_MEMORY_MIN);
    begin_case("a listed address that is no group");
    configure(&chip, way, 0);
    put_bytes(&chip, BLOCK + LQ_MC_ADDRESSES, no_group, 6);
    run_mc_setup_of(&chip, way.length, BLOCK, way.length);
    check_filter_of(&chip, way.length, bit_of_first(no_group, way.length));
    CHECK(!is_received(&chip, no_group), "length %u: an address that is no group is received", way.length);
    chip_free(&chip);
}

/* a list as long as a count can say, around memory and over its own block */
static void check_longest_list(struct addressing way)
{
    struct chip chip = ready_chip(LQ_MEMORY_MIN);
    begin_case("the longest list by the length");
    configure(&chip, way, 0);
    check_filter_of(&chip, way.length, run_mc_setup_of(&chip, way.length, BLOCK, LQ_COUNT));
    chip_free(&chip);
}

/* Bits that were set under one length stay when it changes, and addresses of the other length are folded on them. */
static void check_filter_kept(struct addressing first, struct addressing second)
{
    struct chip chip = ready_chip(LQ_MEMORY_MIN);
    begin_case("the filter when the length changes");
    configure(&chip, first, 0);
    uint64_t bits = put_list(&chip, first.length, 3);
    run_mc_setup_of(&chip, first.length, BLOCK, 3 * first.length);
    configure(&chip, second, 0);
    if (second.length > 0) check_filter_of(&chip, second.length, bits);
    configure(&chip, first, 0);
    check_filter_of(&chip, first.length, bits);
    chip_free(&chip);
}

static void filters(struct addressing way)
{
    for (unsigned n = 0; n < 4; n++) {
        check_list(way, n, 0);
        if (way.length > 1) check_list(way, n, way.length - 1);
    }
    check_ones_disabled(way);
    check_no_group(way);
    check_longest_list(way);
    for (unsigned k = 0; k < ADDRESSINGS; k++) check_filter_kept(way, addressing_of(k));
}

/* ---- addresses of no bytes ---- */

/* A chip with every bit of its filter set, made while addresses had six bytes. */
static struct chip chip_with_full_filter(void)
{
    struct chip chip = ready_chip(LQ_MEMORY_MIN);
    for (uint32_t number = 0; number < 64; number++) {
        uint8_t group[6];
        group_of(6, number, group);
        put_bytes(&chip, BLOCK + LQ_MC_ADDRESSES + 6 * number, group, 6);
    }
    CHECK(run_mc_setup(&chip, BLOCK, 6 * 64) == ~(uint64_t)0, "the case tells nothing");
    return chip;
}

/* "only promiscuous mode receives": neither own address nor everyone nor any group matches, however long the frame */
static void check_nobody(bool in_buffers, unsigned filter)
{
    static const uint8_t group[6] = {1}, zeros[6] = {0};
    const uint8_t *to[] = {EVERYONE, OWN, group, zeros};
    static const size_t lengths[] = {2, 3, 60, LQ_FRAME_MAX};
    unsigned reason = filter & LQ_PROMISCUOUS ? LQ_DROPPED_IDLE : LQ_DROPPED_NO_MATCH;
    struct chip chip = chip_with_full_filter();
    begin_case("addresses of no bytes");
    set_own(&chip);
    configure(&chip, (struct addressing){0, in_buffers}, filter);
    for (size_t t = 0; t < COUNT_OF(to); t++) {
        for (size_t l = 0; l < COUNT_OF(lengths); l++) check_reason(arrive(&chip, to[t], lengths[l], 0), reason);
        CHECK(is_received(&chip, to[t]) == (reason == LQ_DROPPED_IDLE), "a frame to address %u", (unsigned)t);
    }
    configure(&chip, (struct addressing){6, in_buffers}, 0);
    check_filter(&chip, ~(uint64_t)0);
    chip_free(&chip);
}

/* "at 0 it empties the filter", whatever the count */
static void check_emptied(bool in_buffers, unsigned count)
{
    struct chip chip = chip_with_full_filter();
    begin_case("MC-Setup with addresses of no bytes");
    configure(&chip, (struct addressing){0, in_buffers}, 0);
    run_mc_setup_of(&chip, 0, BLOCK, count);
    configure(&chip, (struct addressing){6, in_buffers}, 0);
    check_filter(&chip, 0);
    chip_free(&chip);
}

static void no_bytes(bool in_buffers)
{
    static const unsigned counts[] = {0, 1, 6, 384, 0x3FFF, 0x4000, 0xFFFF};
    for (unsigned filter = 0; filter < 4; filter++) check_nobody(in_buffers, filter);
    for (size_t i = 0; i < COUNT_OF(counts); i++) check_emptied(in_buffers, counts[i]);
}

void addresses(void)
{
    for (unsigned i = 0; i < ADDRESSINGS; i++) {
        struct addressing way = addressing_of(i);
        for (unsigned k = 0; k < ADDRESSINGS; k++) check_own_kept(way, addressing_of(k));
        check_six_bytes(way);
        for (unsigned filter = 0; filter < 4; filter++) check_everyone(way, filter);
        if (way.length > 0) filters(way);
    }
    no_bytes(false);
    no_bytes(true);
}
