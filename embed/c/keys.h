/* The calls of rookdresser.h by a number; with -DNAMES by the name that spells it, "k" and its digits. So a test is written once for
 * both kinds of keys. */
#include "rookdresser.h"
#include <stdio.h>
#include <stdlib.h>
#ifdef NAMES
#define OPEN rd_open_names
#define CALL(of_number, of_name) of_name
static rd_name spelled(uint64_t k) {
    char text[24];
    int length = snprintf(text, sizeof text, "k%llu", (unsigned long long)k);
    return rd_name_of(text, (size_t)length);
}
#define GIVEN(k) (&(rd_name[1]){spelled(k)}[0])
#else
#define OPEN rd_open
#define CALL(of_number, of_name) of_number
#define GIVEN(k) (k)
#endif
#define LOOK CALL(rd_look, rd_look_name)
#define PEEK CALL(rd_peek, rd_peek_name)
#define SEEK CALL(rd_seek, rd_seek_name)
#define PUT CALL(rd_put, rd_put_name)
#define LAND_KEEP CALL(rd_land_keep, rd_land_keep_name)
#define LAND_LOOSE CALL(rd_land_loose, rd_land_loose_name)
#define LAND_FAILED CALL(rd_land_failed, rd_land_failed_name)
#define DROP CALL(rd_drop_key, rd_drop_key_name)
#define FORGET CALL(rd_forget, rd_forget_name)
#define LAND_KEEP_WITH_NOTICE CALL(rd_land_keep_with_notice, rd_land_keep_name_with_notice)
#define PUT_WITH_NOTICE CALL(rd_put_with_notice, rd_put_name_with_notice)
#define DROP_WITH_NOTICE CALL(rd_drop_key_with_notice, rd_drop_key_name_with_notice)

/* A notice, its key as a number. */
#ifdef NAMES
typedef rd_name_notice any_notice;
static inline rd_notice by_number(any_notice told) {
    char text[25] = {0};
    for (uint64_t j = 0; j < told.key.length && j < 24; j++)
        text[j] = (char)told.key.bytes[j];
    for (uint64_t j = told.key.length; j < 24; j++)
        if (told.key.bytes[j]) return (rd_notice){UINT64_MAX, 0, 0, 0};
    return (rd_notice){strtoull(text + 1, 0, 10), told.token, told.weight, told.cause};
}
#else
typedef rd_notice any_notice;
static inline rd_notice by_number(any_notice told) { return told; }
#endif

static inline uint64_t get_notice(rd_cache *cache, uint64_t i, rd_notice *notice) {
    any_notice told;
    uint64_t fault = CALL(rd_get_notice, rd_get_notice_name)(cache, i, &told);
    if (!fault) *notice = by_number(told);
    return fault;
}
