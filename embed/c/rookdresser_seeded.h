/* Keys under a secret seed: a number that is SipHash-2-4 of the bytes. An attacker who doesn't know the seed can't choose texts or
 * numbers whose keys collide in the library's tables, so strangers may choose them.
 *
 *     uint64_t seed[2];                                   16 bytes that nobody can guess, from getrandom(), for the life of the cache
 *     rd_look(&cache, rd_seeded(seed, text, length), ..)
 *
 * Each pair of texts has the same key with a chance of 1 in 2^64. If that is too much for your program, keep the text with the value
 * and compare it at each hit, as named_pages.c does. The function was written by hand; it is tested, not proved. */
#ifndef ROOKDRESSER_SEEDED_H
#define ROOKDRESSER_SEEDED_H
#include <stddef.h>
#include <stdint.h>

static inline uint64_t rd_rotated(uint64_t x, int by) { return x << by | x >> (64 - by); }

static inline void rd_sip_rounds(uint64_t v[4], int rounds) {
    while (rounds--) {
        v[0] += v[1], v[2] += v[3];
        v[1] = rd_rotated(v[1], 13) ^ v[0], v[3] = rd_rotated(v[3], 16) ^ v[2];
        v[0] = rd_rotated(v[0], 32);
        v[2] += v[1], v[0] += v[3];
        v[1] = rd_rotated(v[1], 17) ^ v[2], v[3] = rd_rotated(v[3], 21) ^ v[0];
        v[2] = rd_rotated(v[2], 32);
    }
}

/* Returns the key of these bytes under the seed. */
static inline uint64_t rd_seeded(const uint64_t seed[2], const void *bytes, size_t length) {
    const unsigned char *at = (const unsigned char *)bytes;
    uint64_t v[4] = {seed[0] ^ 0x736f6d6570736575u, seed[1] ^ 0x646f72616e646f6du, seed[0] ^ 0x6c7967656e657261u,
                     seed[1] ^ 0x7465646279746573u};
    for (size_t done = 0; done <= length; done += 8) {
        uint64_t word = 0;
        for (size_t i = 0; i < 8 && done + i < length; i++)
            word |= (uint64_t)at[done + i] << 8 * i;
        /* The last word ends with the length. */
        if (length - done < 8) word |= (uint64_t)length << 56;
        v[3] ^= word;
        rd_sip_rounds(v, 2);
        v[0] ^= word;
    }
    v[2] ^= 0xff;
    rd_sip_rounds(v, 4);
    return v[0] ^ v[1] ^ v[2] ^ v[3];
}
#endif
