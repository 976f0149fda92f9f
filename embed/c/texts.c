/* The sentences of rookdresser_text.h, of each setting that is out of its range and of each cause, and those of rd_fault_text. */
#include "rookdresser_loading.h"
#include "rookdresser_text.h"
#include <stdio.h>
#define CHECK(x)                                                                                             \
    do {                                                                                                     \
        if (!(x)) {                                                                                          \
            printf("line %d: %s\n", __LINE__, #x);                                                           \
            return 1;                                                                                        \
        }                                                                                                    \
    } while (0)

static int says(rd_setup setup, const char *wanted) {
    char text[RD_TEXT];
    return rd_setup_text(&setup, text, sizeof text) == (int)strlen(wanted) && strcmp(text, wanted) == 0;
}

int main(void) {
    rd_setup setup = {.entries = 10, .window = 1, .flights = 2, .bound = 100, .after_write = 1, .after_access = 1, .refresh = UINT64_MAX};
    CHECK(says(setup, ""));
    setup.flights = 4097;
    CHECK(says(setup, "flights is 4097, and has to be from 1 to 4096"));
    setup.bound = (1ull << 48) + 1;
    CHECK(says(setup, "bound is 281474976710657, and has to be from 1 to 281474976710656"));
    setup.bound = UINT64_MAX;
    CHECK(says(setup, "bound is 18446744073709551615, and has to be from 1 to 281474976710656"));
    setup.window = 20;
    CHECK(says(setup, "window is 20, and has to be from 1 to 10, the entries"));
    setup.entries = 70000;
    CHECK(says(setup, "entries is 70000, and has to be from 1 to 65536"));
    char text[8];
    CHECK(rd_setup_text(&setup, text, sizeof text) == 47 && strcmp(text, "entries") == 0);

    static const uint64_t faults[] = {RD_OK, RD_OUT_OF_MEMORY, RD_BAD_SETUP, RD_TOO_HEAVY, RD_TOO_MANY_FLIGHTS, RD_STEPS_SPENT, RD_CLOSED,
                                      RD_OPEN_ALREADY, RD_NO_SUCH_NOTICE, RD_OTHER_KEYS, RD_NAME_TOO_LONG, RD_BUSY, RD_LOST,
                                      RD_TIMED_OUT, RD_WAITS_FOR_ITSELF, RD_LOADING_ERRORS, 6};
    enum { FAULTS = sizeof faults / sizeof *faults };
    for (size_t i = 0; i < FAULTS; i++)
        for (size_t j = 0; j < i; j++)
            CHECK(strcmp(rd_fault_text(faults[i]), rd_fault_text(faults[j])) != 0);
    CHECK(strcmp(rd_fault_text(RD_TOO_HEAVY), "the value is heavier than the bound") == 0);
    CHECK(strcmp(rd_fault_text(RD_WAITS_FOR_ITSELF), "the load of the key waits for this very call") == 0);
    CHECK(strcmp(rd_fault_text(RD_LOADING_ERRORS), "the load failed") == 0);
    CHECK(strcmp(rd_fault_text(RD_TIMED_OUT), "the load hasn't ended by the deadline") == 0);
    /* A number that isn't a fault, an error of a load, and one whose low 32 bits are a fault's. */
    static const uint64_t none[] = {6, 99, 107, 998};
    for (size_t i = 0; i < sizeof none / sizeof *none; i++) CHECK(strcmp(rd_fault_text(none[i]), "no fault has this number") == 0);
    CHECK(strcmp(rd_fault_text(UINT64_MAX), "the load failed") == 0 && strcmp(rd_fault_text(1ull << 32), "the load failed") == 0);
    CHECK(strcmp(rd_cause_text(RD_EXPLICIT), "dropped or cleared") == 0 && strcmp(rd_cause_text(RD_REPLACED), "replaced") == 0);
    CHECK(strcmp(rd_cause_text(RD_EXPIRED), "expired") == 0 && strcmp(rd_cause_text(RD_SIZE), "evicted") == 0);
    CHECK(strcmp(rd_cause_text(0), "no cause has this number") == 0 && strcmp(rd_cause_text(5), "no cause has this number") == 0);
    puts("texts: ok");
    return 0;
}
