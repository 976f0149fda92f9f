/* The lines of embed/c/README.md; the header of the loading cache is compiled, too. */
#include "rookdresser_loading.h"
#include <stdio.h>

static uint64_t used;

static void use(uint64_t token) {
    used = token;
}

static int lines(uint64_t now_ms) {
    /* README */
    return 0;
}

int main(void) {
    if (lines(0)) return 1;
    printf("the token %llu\n", (unsigned long long)used);
    return 0;
}
