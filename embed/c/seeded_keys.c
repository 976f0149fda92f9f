/* rookdresser_seeded.h against the vectors that the authors of SipHash gave: seed 00 01 .. 0f, and the texts "", 00, 00 01, .. */
#include "rookdresser.h"
#include "rookdresser_seeded.h"
#include <stdio.h>
#define CHECK(x)                                                                                             \
    do {                                                                                                     \
        if (!(x)) {                                                                                          \
            printf("line %d: %s\n", __LINE__, #x);                                                           \
            return 1;                                                                                        \
        }                                                                                                    \
    } while (0)

int main(void) {
    const uint64_t seed[2] = {0x0706050403020100, 0x0f0e0d0c0b0a0908};
    static const struct {
        size_t length;
        uint64_t key;
    } rows[] = {{0, 0x726fdb47dd0e0e31}, {1, 0x74f839c593dc67fd}, {2, 0x0d6c8009d9a94f5a}, {7, 0xab0200f58b01d137},
                {8, 0x93f5f5799a932462}, {15, 0xa129ca6149be45e5}};
    unsigned char text[16];
    for (unsigned char i = 0; i < 16; i++)
        text[i] = i;
    for (size_t i = 0; i < sizeof rows / sizeof *rows; i++)
        CHECK(rd_seeded(seed, text, rows[i].length) == rows[i].key);

    /* Texts of any length as keys. */
    rd_setup setup = {.entries = 4, .window = 1, .flights = 2, .bound = 100};
    rd_cache cache = RD_CACHE_INIT;
    rd_answer a;
    static const char longer[] = "a name that is longer than the 24 bytes of an rd_name";
    CHECK(rd_open(&setup, &cache) == RD_OK);
    CHECK(rd_put(&cache, rd_seeded(seed, longer, sizeof longer - 1), (rd_token){7, 2}, 0, &a) == RD_OK);
    CHECK(rd_look(&cache, rd_seeded(seed, longer, sizeof longer - 1), 0, &a) == RD_OK && a.kind == RD_HIT && a.token == 7);
    CHECK(rd_look(&cache, rd_seeded(seed, longer, sizeof longer - 2), 0, &a) == RD_OK && a.kind == RD_ABSENT);
    CHECK(rd_close(&cache) == RD_OK);
    puts("seeded keys: ok");
    return 0;
}
