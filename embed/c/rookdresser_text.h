/* Sentences for a log: why a setup is refused, and what a cause means. rd_fault_text of rookdresser.h says what a fault means.
 *
 *     char text[RD_TEXT];
 *     if (rd_open(&setup, &cache) == RD_BAD_SETUP) rd_setup_text(&setup, text, sizeof text), puts(text);
 *
 * prints, for example, "window is 20, and has to be from 1 to 10, the entries". Written by hand, and tested, not proved: texts.c
 * shows each call. A sentence may change with any version. */
#ifndef ROOKDRESSER_TEXT_H
#define ROOKDRESSER_TEXT_H
#include "rookdresser.h"
#include <stdio.h>

/* As many bytes are enough for each sentence of rd_setup_text. */
enum { RD_TEXT = 100 };

/* Writes the first setting that is out of its range, with its value and the range, or an empty text if there is none. It writes at
 * most size bytes, and returns how many the whole text has, as snprintf does. */
static inline int rd_setup_text(const rd_setup *setup, char *text, size_t size) {
    static const char *const form = "%s is %llu, and has to be from 1 to %llu%s";
    switch (rd_check(setup)) {
    case 1: return snprintf(text, size, form, "entries", (unsigned long long)setup->entries, 65536ull, "");
    case 2:
        return snprintf(text, size, form, "window", (unsigned long long)setup->window, (unsigned long long)setup->entries,
                        ", the entries");
    case 3: return snprintf(text, size, form, "flights", (unsigned long long)setup->flights, 4096ull, "");
    case 4: return snprintf(text, size, form, "bound", (unsigned long long)setup->bound, 1ull << 48, "");
    }
    return snprintf(text, size, "%s", "");
}

/* Returns why an entry left, by its rd_cause. */
static inline const char *rd_cause_text(uint32_t cause) {
    switch (cause) {
    case RD_EXPLICIT: return "dropped or cleared";
    case RD_REPLACED: return "replaced";
    case RD_EXPIRED: return "expired";
    case RD_SIZE: return "evicted";
    }
    return "no cause has this number";
}
#endif
