#include "setup.h"

const uint8_t EVERYONE[6] = {255, 255, 255, 255, 255, 255};

void put_scp(struct chip *chip, uint32_t iscp, uint32_t base, unsigned scb)
{
    put_real(chip, LQ_SCP_ISCP, iscp);
    put_byte(chip, iscp + LQ_ISCP_BUSY, 1);
    put_word(chip, iscp + LQ_ISCP_SCB, scb);
    put_real(chip, iscp + LQ_ISCP_BASE, base);
}

struct chip ready_chip(size_t n)
{
    struct chip chip = chip_of(n);
    put_scp(&chip, ISCP, 0, SCB);
    check_answer(call(&chip, ATTENTION_CALL), LQ_ACCEPTED, 0, true);
    check_answer(attend(&chip, LQ_EVENTS), LQ_ACCEPTED, 0, false);
    return chip;
}

void resize(struct chip *chip, size_t n)
{
    area_free(&chip->lent.memory);
    area_free(&chip->modelled.memory);
    chip->lent.memory = area_of("memory", n);
    chip->modelled.memory = area_of("memory", n);
}

void put_block(struct chip *chip, uint32_t place, unsigned command, unsigned link)
{
    put_word(chip, place + LQ_CB_STATUS, 0);
    put_word(chip, place + LQ_CB_COMMAND, command);
    put_word(chip, place + LQ_CB_LINK, link);
}

void put_transmit(struct chip *chip, uint32_t place, unsigned flags, unsigned link, unsigned buffer)
{
    static const uint8_t destination[6] = {0x02, 0x11, 0x22, 0x33, 0x44, 0x55};
    put_block(chip, place, flags | LQ_CMD_TRANSMIT, link);
    put_word(chip, place + LQ_TRANSMIT_BUFFER, buffer);
    put_bytes(chip, place + LQ_TRANSMIT_DESTINATION, destination, 6);
    put_word(chip, place + LQ_TRANSMIT_TYPE(LQ_ADDRESS_LENGTH_AFTER_RESET), 0x0008);
}

void put_tbd(struct chip *chip, uint32_t place, unsigned count, unsigned next, uint32_t buffer)
{
    put_word(chip, place + LQ_TBD_COUNT, count);
    put_word(chip, place + LQ_TBD_NEXT, next);
    put_real(chip, place + LQ_TBD_BUFFER, buffer);
}

void put_fd(struct chip *chip, uint32_t place, unsigned command, unsigned link, unsigned buffer)
{
    put_word(chip, place + LQ_FD_STATUS, 0);
    put_word(chip, place + LQ_FD_COMMAND, command);
    put_word(chip, place + LQ_FD_LINK, link);
    put_word(chip, place + LQ_FD_BUFFER, buffer);
}

void put_rbd(struct chip *chip, uint32_t place, unsigned next, uint32_t buffer, unsigned size)
{
    put_word(chip, place + LQ_RBD_COUNT, 0);
    put_word(chip, place + LQ_RBD_NEXT, next);
    put_real(chip, place + LQ_RBD_BUFFER, buffer);
    put_word(chip, place + LQ_RBD_SIZE, size);
}

void put_bytes(struct chip *chip, uint32_t place, const uint8_t *bytes, size_t n)
{
    for (size_t i = 0; i < n; i++) put_byte(chip, place + (uint32_t)i, bytes[i]);
}

struct answer attend(struct chip *chip, unsigned command)
{
    put_word(chip, SCB + LQ_SCB_COMMAND, command);
    return call(chip, ATTENTION_CALL);
}

struct answer turn(struct chip *chip)
{
    return call(chip, TURN_CALL(0));
}

void turns(struct chip *chip, unsigned n)
{
    while (n-- > 0) turn(chip);
}

void start_cu(struct chip *chip, unsigned block)
{
    put_word(chip, SCB + LQ_SCB_CBL, block);
    attend(chip, LQ_EVENTS | LQ_CUC(LQ_START));
}

void start_ru(struct chip *chip, unsigned descriptor)
{
    put_word(chip, SCB + LQ_SCB_RFA, descriptor);
    attend(chip, LQ_EVENTS | LQ_RUC(LQ_START));
}

struct answer arrive(struct chip *chip, const uint8_t *destination, size_t length, uint32_t verdict)
{
    static uint8_t frame[LQ_FRAME_MAX];
    for (size_t i = 0; i < length; i++) frame[i] = i < 6 ? destination[i] : (uint8_t)(i * 7 + 1);
    return call(chip, ARRIVAL_CALL(frame, length, verdict));
}

unsigned turns_until_complete(struct chip *chip, uint32_t place)
{
    for (unsigned n = 1; n <= 100; n++) {
        turn(chip);
        if (word_of(chip, place) & LQ_C) return n;
    }
    FAIL("the structure at %lXh is not complete after 100 turns", (unsigned long)place);
    return 0;
}

unsigned status(const struct chip *chip)
{
    return word_of(chip, SCB + LQ_SCB_STATUS);
}

unsigned run_command(struct chip *chip, unsigned command)
{
    put_block(chip, 0x200, command | LQ_EL, 0xABCD);
    start_cu(chip, 0x200);
    turns_until_complete(chip, 0x200);
    return word_of(chip, 0x200);
}

struct addressing addressing_of(unsigned number)
{
    return (struct addressing){.length = (uint8_t)(number % ADDRESS_LENGTHS), .in_buffers = number >= ADDRESS_LENGTHS};
}

void put_addressing(struct chip *chip, struct addressing way, unsigned save, unsigned filter, unsigned minimum)
{
    enum { BYTES = 0x200 + LQ_CB_DATA, COUNT = 11 };
    for (uint32_t i = 0; i < COUNT; i++) put_byte(chip, BYTES + i, 0);
    put_byte(chip, BYTES + LQ_CONFIGURE_COUNT, COUNT);
    put_byte(chip, BYTES + LQ_CONFIGURE_SAVE, save);
    put_byte(chip, BYTES + LQ_CONFIGURE_ADDRESS, way.length | (way.in_buffers ? LQ_ADDRESS_LOCATION : 0u));
    put_byte(chip, BYTES + LQ_CONFIGURE_FILTER, filter);
    put_byte(chip, BYTES + LQ_CONFIGURE_MINIMUM, minimum);
}

void configure(struct chip *chip, struct addressing way, unsigned filter)
{
    put_addressing(chip, way, 0, filter, 0);
    unsigned found = run_command(chip, LQ_CMD_CONFIGURE);
    CHECK(found == (LQ_C | LQ_OK), "length %u, location %d: Configure's status is %04Xh", way.length, way.in_buffers,
          found);
}

/* the bits of so many addresses of a length from a place of memory on */
static uint64_t fold_of(const struct chip *chip, unsigned length, uint32_t place, unsigned addresses)
{
    uint64_t bits = 0;
    for (unsigned a = 0; a < addresses; a++) {
        uint8_t address[6];
        for (uint32_t i = 0; i < length; i++) address[i] = (uint8_t)byte_of(chip, place + length * a + i);
        bits |= bit_of_first(address, length);
    }
    return bits;
}

uint64_t run_mc_setup_of(struct chip *chip, unsigned length, uint32_t place, unsigned count)
{
    unsigned addresses = length == 0 ? 0 : (count & LQ_COUNT) / length;
    put_block(chip, place, LQ_CMD_MC_SETUP | LQ_EL, 0xABCD);
    put_word(chip, place + LQ_MC_COUNT, count);
    start_cu(chip, place);
    turn(chip);
    check_word(chip, place, LQ_B);
    uint64_t bits = fold_of(chip, length, place + LQ_MC_ADDRESSES, addresses);
    check_answer(turn(chip), LQ_ACCEPTED, 0, true);
    check_word(chip, place, LQ_C | LQ_OK);
    return bits;
}

uint64_t run_mc_setup(struct chip *chip, uint32_t place, unsigned count)
{
    return run_mc_setup_of(chip, 6, place, count);
}

bool is_received(struct chip *chip, const uint8_t *destination)
{
    enum { FD = 0xF00 };
    put_fd(chip, FD, 0, FD, LQ_NONE);
    start_ru(chip, FD);
    arrive(chip, destination, 60, 0);
    turn(chip);
    bool held = word_of(chip, FD) == LQ_B;
    attend(chip, LQ_EVENTS | LQ_RUC(LQ_ABORT));
    return held;
}

/* A group's first byte is odd. With one byte it is all there is, and at most 127, so never the address of everyone. */
void group_of(unsigned length, unsigned number, uint8_t *address)
{
    memset(address, 0, 6);
    address[length - 1] = (uint8_t)number;
    address[0] = (uint8_t)(length == 1 ? 2 * number + 1 : 1);
}

void check_filter_of(struct chip *chip, unsigned length, uint64_t bits)
{
    uint64_t shown = 0;
    for (unsigned number = 0; number < 64; number++) {
        uint8_t group[6];
        group_of(length, number, group);
        uint64_t bit = bit_of_first(group, length);
        bool received = is_received(chip, group);
        CHECK(received == ((bits & bit) != 0), "bit %u of the filter is %d", hash_of_first(group, length), received);
        shown |= bit;
    }
    CHECK(shown == ~(uint64_t)0, "the 64 groups do not fall on 64 bits");
}

void check_filter(struct chip *chip, uint64_t bits)
{
    check_filter_of(chip, 6, bits);
}
