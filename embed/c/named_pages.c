/* The loading cache of README.md under names of any length: a key is the hash of a name, and the load gets the name by its context. */
#include "rookdresser_loading.h"
#include "rookdresser_seeded.h"
#include <stdio.h>
#include <stdlib.h>
#include <sys/random.h>

typedef struct page {
    rd_shared shared;
    char name[100]; /* whose page it is */
    char text[32];
} page;

typedef struct request {
    const char *name, *book;
} request;

static void free_page(rd_shared *shared) { free(shared); }

/* The key tells nothing of the name. */
static uint64_t load_named(void *asked, uint64_t key, rd_shared **value, uint32_t *weight) {
    const request *of = asked;
    page *p = malloc(sizeof *p);
    (void)key;
    if (!p) return RD_LOADING_ERRORS;
    snprintf(p->name, sizeof p->name, "%s", of->name);
    snprintf(p->text, sizeof p->text, "%zu bytes of %s", strlen(of->name), of->book);
    *value = &p->shared;
    *weight = 1;
    return RD_OK;
}

int main(void) {
    rd_setup setup = {.entries = 1000, .window = 10, .flights = 64, .bound = 1 << 20};
    rd_loading pages = RD_LOADING_INIT;
    rd_shared *got;
    uint64_t now_ms = 0, seed[2];
    const char *name = "a name that is longer than the 24 bytes of an rd_name", *book = "a book";
    if (getrandom(seed, sizeof seed, 0) != sizeof seed) return 1;
    if (rd_loading_open(&pages, &setup, free_page)) return 1;
    request asked = {name, book};
    uint64_t key = rd_seeded(seed, name, strlen(name));
    if (rd_loading_get(&pages, key, now_ms, load_named, &asked, &got)) return 1;
    if (strcmp(((page *)got)->name, name)) return 1; /* another name has the same hash */
    puts(((page *)got)->text);
    rd_loading_release(&pages, got);
    return rd_loading_close(&pages) != RD_OK;
}
