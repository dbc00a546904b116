/*
 * See paper_hash.h. Written from the text of Table 5-5, line by line, and slow on purpose: as a witness it should be
 * the program and not another way to compute the same. Of its two branches it has the one for CL = 32; `<>` is !=.
 */
#include "paper_hash.h"

unsigned paper_hash(unsigned al, const bool *x)
{
    bool a[32]; /* the CRC generator */
    bool fb;    /* feedback */
    unsigned y;

    for (unsigned i = 0; i <= 31; i++) a[i] = true; /* initialize to all ones */
    for (unsigned i = 0; i + 1 <= al * 8; i++) {    /* repeat according to the address length */
        fb = a[31] != x[i];                         /* compute feedback */
        /* shift the CRC register */
        a[31] = a[30];
        a[30] = a[29];
        a[29] = a[28];
        a[28] = a[27];
        a[27] = a[26];
        a[26] = a[25] != fb;
        a[25] = a[24];
        a[24] = a[23];
        a[23] = a[22] != fb;
        a[22] = a[21] != fb;
        a[21] = a[20];
        a[20] = a[19];
        a[19] = a[18];
        a[18] = a[17];
        a[17] = a[16];
        a[16] = a[15] != fb;
        a[15] = a[14];
        a[14] = a[13];
        a[13] = a[12];
        a[12] = a[11] != fb;
        a[11] = a[10] != fb;
        a[10] = a[9] != fb;
        a[9] = a[8];
        a[8] = a[7] != fb;
        a[7] = a[6] != fb;
        a[6] = a[5];
        a[5] = a[4] != fb;
        a[4] = a[3] != fb;
        a[3] = a[2];
        a[2] = a[1] != fb;
        a[1] = a[0] != fb;
        a[0] = fb;
    }
    /* select the 6 bits out of the CRC register */
    if (a[5]) y = 1; else y = 0;
    if (a[6]) y = y + 2;
    if (a[7]) y = y + 4;
    if (a[2]) y = y + 8;
    if (a[3]) y = y + 16;
    if (a[4]) y = y + 32;
    return y;
}

/* The program reads an address's digits from the most significant on and puts bit l of digit k at 4 * k + l, so the
   byte that is sent first is the last pair of digits typed, and its bits are x[0] to x[7]. */
unsigned hash_of_first(const uint8_t *address, unsigned bytes)
{
    bool x[48];
    for (unsigned byte = 0; byte < bytes; byte++)
        for (unsigned bit = 0; bit < 8; bit++) x[8 * byte + bit] = address[byte] >> bit & 1;
    return paper_hash(bytes, x);
}

unsigned hash_of(const uint8_t *address)
{
    return hash_of_first(address, 6);
}

uint64_t bit_of_first(const uint8_t *address, unsigned bytes)
{
    return (uint64_t)1 << hash_of_first(address, bytes);
}

uint64_t bit_of(const uint8_t *address)
{
    return bit_of_first(address, 6);
}
