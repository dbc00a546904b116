/*
 * Copies between memory and the other areas that come to the end of memory: buffers that end there, pass it, or begin at
 * its last byte, both ways, in the smallest memory and in the largest; headers of every address length and an own address,
 * at every cut. Each case says its bytes itself; of buffers and headers those beside them too, which stay.
 */
#include "setup.h"

enum { BLOCK = 0x1000, TBD = 0x1080, FD = 0x1100, RBD = 0x1180, NEXT_RBD = 0x1190, AWAY = 0x1200, BESIDE = 0xEE };

/* ---- buffers ---- */

/* So many bytes, of which the last so many lie behind the end of memory: at most 255, since the SCB begins at 256
   and the byte behind them is marked. */
struct stretch {
    unsigned length, behind;
};

static const struct stretch STRETCHES[] = {
    {1500, 0}, {200, 0}, {1, 0},     /* ends exactly at N */
    {1500, 1}, {200, 1}, {2, 1},     /* passes it by one; of two bytes one is before it */
    {200, 199}, {17, 16}, {3, 2},    /* begins at N - 1 */
    {1500, 200}, {100, 50}, {32, 15},
};

static uint32_t place_of(size_t n, struct stretch s)
{
    return (uint32_t)n - (s.length - s.behind);
}

static unsigned pattern(unsigned i)
{
    return (i * 7 + 3) & 0xFF;
}

static void mark_beside(struct chip *chip, uint32_t place, unsigned length)
{
    put_byte(chip, place - 1, BESIDE);
    put_byte(chip, place + length, BESIDE);
}

static void check_beside(const struct chip *chip, uint32_t place, unsigned length)
{
    CHECK(byte_of(chip, place - 1) == BESIDE, "the byte before the buffer was written");
    CHECK(byte_of(chip, place + length) == BESIDE, "the byte behind the buffer was written");
}

static void sent(size_t n, struct stretch s)
{
    struct chip chip = ready_chip(n);
    uint32_t place = place_of(n, s);
    begin_case("a buffer to send at the end of memory");
    mark_beside(&chip, place, s.length);
    for (unsigned i = 0; i < s.length; i++) put_byte(&chip, place + i, pattern(i));
    put_transmit(&chip, BLOCK, LQ_EL, 0, TBD);
    put_tbd(&chip, TBD, s.length | LQ_EOF, LQ_NONE, place);
    start_cu(&chip, BLOCK);
    turns(&chip, 2);
    check_answer(turn(&chip), LQ_ACCEPTED, HEADER_AFTER_RESET + s.length, true);
    const uint8_t *data = chip.lent.outgoing.bytes + HEADER_AFTER_RESET;
    for (unsigned i = 0; i < s.length; i++) CHECK(data[i] == pattern(i), "byte %u of the data sent is %u", i, data[i]);
    CHECK(data[s.length] == 0, "a byte behind the frame was written");
    chip_free(&chip);
}

/* What the buffer has no room for goes to another one, away from the end: so that no frame is short. */
static void received(size_t n, struct stretch s)
{
    enum { LEAST = 46 };
    static uint8_t frame[LQ_FRAME_MAX];
    struct chip chip = ready_chip(n);
    uint32_t place = place_of(n, s);
    unsigned data = s.length < LEAST ? LEAST : s.length;
    begin_case("a buffer to receive in at the end of memory");
    mark_beside(&chip, place, s.length);
    memset(frame, 0xFF, HEADER_AFTER_RESET);
    for (unsigned i = 0; i < data; i++) frame[HEADER_AFTER_RESET + i] = (uint8_t)pattern(i);
    put_fd(&chip, FD, LQ_EL, LQ_NONE, RBD);
    put_rbd(&chip, RBD, NEXT_RBD, place, s.length);
    put_rbd(&chip, NEXT_RBD, LQ_NONE, AWAY, LEAST);
    start_ru(&chip, FD);
    call(&chip, ARRIVAL_CALL(frame, HEADER_AFTER_RESET + data, LQ_VERDICT_GOOD));
    turns_until_complete(&chip, FD);
    check_word(&chip, FD, LQ_C | LQ_OK);
    for (unsigned i = 0; i < data; i++) {
        unsigned found = byte_of(&chip, i < s.length ? place + i : AWAY + i - s.length);
        CHECK(found == pattern(i), "byte %u of the data stored is %u", i, found);
    }
    check_beside(&chip, place, s.length);
    chip_free(&chip);
}

/* ---- headers and an own address, with the end of memory at every place in them and beside them ---- */

static const uint8_t DESTINATION[6] = {0x02, 0x11, 0x22, 0x33, 0x44, 0x55}; /* as put_transmit has it */
static const uint8_t OWN[6] = {0x02, 0x61, 0x72, 0x83, 0x94, 0xA5};

/* A command with EL at a place, run to its end. */
static void run_at(struct chip *chip, uint32_t place)
{
    start_cu(chip, place);
    turns_until_complete(chip, place);
    check_word(chip, place, LQ_C | LQ_OK);
}

static void header_sent(uint32_t place, unsigned length)
{
    struct chip chip = ready_chip(LQ_MEMORY_MIN);
    begin_case("a header to send over the end of memory");
    configure(&chip, (struct addressing){.length = (uint8_t)length}, 0);
    put_transmit(&chip, place, LQ_EL, 0, LQ_NONE);
    put_word(&chip, place + LQ_TRANSMIT_TYPE(length), 0x3412);
    run_at(&chip, place);
    const uint8_t *header = chip.lent.outgoing.bytes, *type = header + 2 * length;
    CHECK(memcmp(header, DESTINATION, length) == 0, "another destination was sent");
    CHECK(type[0] == 0x12 && type[1] == 0x34, "another type was sent");
    CHECK(header[LQ_FRAME_HEADER(length)] == 0, "a byte behind the header was written");
    chip_free(&chip);
}

static void header_received(uint32_t place, unsigned length)
{
    uint8_t frame[60];
    struct chip chip = ready_chip(LQ_MEMORY_MIN);
    uint32_t behind = place + LQ_FD_DESTINATION + LQ_FRAME_HEADER(length);
    begin_case("a header to receive over the end of memory");
    configure(&chip, (struct addressing){.length = (uint8_t)length}, length == 0 ? LQ_PROMISCUOUS : 0);
    for (unsigned i = 0; i < sizeof frame; i++) frame[i] = i < 6 ? 0xFF : (uint8_t)(0x10 + i);
    put_fd(&chip, place, LQ_EL, LQ_NONE, RBD);
    put_rbd(&chip, RBD, LQ_NONE, AWAY, sizeof frame);
    put_byte(&chip, behind, BESIDE);
    start_ru(&chip, place);
    call(&chip, ARRIVAL_CALL(frame, sizeof frame, LQ_VERDICT_GOOD));
    turns_until_complete(&chip, place);
    check_word(&chip, place, LQ_C | LQ_OK);
    for (unsigned i = 0; i < LQ_FRAME_HEADER(length); i++)
        CHECK(byte_of(&chip, place + LQ_FD_DESTINATION + i) == frame[i], "byte %u of the header is another", i);
    CHECK(byte_of(&chip, behind) == BESIDE, "the byte behind the header was written");
    chip_free(&chip);
}

static void own_address(uint32_t place)
{
    struct chip chip = ready_chip(LQ_MEMORY_MIN);
    begin_case("an own address over the end of memory");
    put_block(&chip, place, LQ_CMD_IA_SETUP | LQ_EL, 0);
    put_bytes(&chip, place + LQ_CB_DATA, OWN, 6);
    run_at(&chip, place);
    CHECK(is_received(&chip, OWN), "a frame to the own address is not received");
    chip_free(&chip);
}

void copies(void)
{
    for (size_t i = 0; i < COUNT_OF(STRETCHES); i++) {
        sent(LQ_MEMORY_MIN, STRETCHES[i]);
        sent(LQ_MEMORY_MAX, STRETCHES[i]);
        received(LQ_MEMORY_MIN, STRETCHES[i]);
        received(LQ_MEMORY_MAX, STRETCHES[i]);
    }
    for (uint32_t k = 1; k <= 24; k++) {
        for (unsigned length = 0; length < ADDRESS_LENGTHS; length++) {
            header_sent(LQ_MEMORY_MIN - k, length);
            header_received(LQ_MEMORY_MIN - k, length);
        }
        own_address(LQ_MEMORY_MIN - k);
    }
}
