/*
 * A board for the tests that are written as code: ISCP at 40h, base 0, SCB at 100h, in a memory of any size; and the
 * host's side of it, a function for each thing that a host does.
 */
#ifndef SETUP_H
#define SETUP_H

#include "harness.h"
#include "paper_hash.h"

enum { ISCP = 0x40, SCB = 0x100 };

/* SCP and ISCP, with a base; no attention was given. */
void put_scp(struct chip *chip, uint32_t iscp, uint32_t base, unsigned scb);

/* A chip that is initialised, all events acknowledged. */
struct chip ready_chip(size_t n);

/* The same chip with another size of memory, all zero. */
void resize(struct chip *chip, size_t n);

/* ---- structures in memory ---- */

void put_block(struct chip *chip, uint32_t place, unsigned command, unsigned link);
void put_transmit(struct chip *chip, uint32_t place, unsigned flags, unsigned link, unsigned buffer);
void put_tbd(struct chip *chip, uint32_t place, unsigned count, unsigned next, uint32_t buffer);
void put_fd(struct chip *chip, uint32_t place, unsigned command, unsigned link, unsigned buffer);
void put_rbd(struct chip *chip, uint32_t place, unsigned next, uint32_t buffer, unsigned size);
void put_bytes(struct chip *chip, uint32_t place, const uint8_t *bytes, size_t n);

/* ---- calls ---- */

struct answer attend(struct chip *chip, unsigned command);
struct answer turn(struct chip *chip);
void turns(struct chip *chip, unsigned n);
void start_cu(struct chip *chip, unsigned block);
void start_ru(struct chip *chip, unsigned descriptor);

/* A frame of so many bytes to an address, the rest of it counting up. */
struct answer arrive(struct chip *chip, const uint8_t *destination, size_t length, uint32_t verdict);
extern const uint8_t EVERYONE[6];

/* Turns until the block or frame descriptor is complete, at most 100; answers how many they were. */
unsigned turns_until_complete(struct chip *chip, uint32_t place);

unsigned status(const struct chip *chip);

/* One command with EL at block 200h, run to its end; answers its status. Parameters stand there already. */
unsigned run_command(struct chip *chip, unsigned command);

/* ---- every address length and location ---- */

enum { ADDRESS_LENGTHS = 7, ADDRESSINGS = 2 * ADDRESS_LENGTHS };

/* One of them, by its number. */
struct addressing addressing_of(unsigned number);

/* A Configure's bytes at block 200h: way, bits of LQ_CONFIGURE_SAVE and of LQ_CONFIGURE_FILTER, minimum. */
void put_addressing(struct chip *chip, struct addressing way, unsigned save, unsigned filter, unsigned minimum);

/* The same, run to its end, which must be A000h: bad frames are not saved, and no frame is short. */
void configure(struct chip *chip, struct addressing way, unsigned filter);

/* ---- the filter, as MC-Setup makes it and frames show it ---- */

/* An MC-Setup with EL at a place, with a count, run to its end, which must be A000h. The addresses stand there already,
   of so many bytes each, or of six; answers the bits that they set, as they are read from memory before the end turn. */
uint64_t run_mc_setup_of(struct chip *chip, unsigned length, uint32_t place, unsigned count);
uint64_t run_mc_setup(struct chip *chip, uint32_t place, unsigned count);

/* Is a good frame of 60 bytes to this address held? With the command unit not Active and the receive unit Idle, which
   is started for it at the descriptor F00h and aborted after it. Of six bytes, of which a shorter address is the first
   ones. */
bool is_received(struct chip *chip, const uint8_t *destination);

/* One of 64 groups with addresses of so many bytes, 1 to 6, that fall on 64 bits. The bytes behind are 0. */
void group_of(unsigned length, unsigned number, uint8_t *address);

/* Of these groups, those are received whose bit is set here, and no other. So it is shown which filter a chip has,
   without a look into its record. With the length that is configured, or six. */
void check_filter_of(struct chip *chip, unsigned length, uint64_t bits);
void check_filter(struct chip *chip, uint64_t bits);

#endif
