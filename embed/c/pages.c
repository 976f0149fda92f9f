/* The loading cache of README.md: a page that is loaded, printed, and let go. */
#include "rookdresser_loading.h"
#include <stdio.h>
#include <stdlib.h>

typedef struct page {
    rd_shared shared; /* how many have a share of it: the header counts them */
    char text[32];
} page;

static void free_page(rd_shared *shared) { free(shared); }

static uint64_t load_page(void *book, uint64_t key, rd_shared **value, uint32_t *weight) {
    page *p = malloc(sizeof *p);
    if (!p) return RD_LOADING_ERRORS;
    snprintf(p->text, sizeof p->text, "page %d of %s", (int)key, (const char *)book);
    *value = &p->shared;
    *weight = 1;
    return RD_OK;
}

int main(void) {
    rd_setup setup = {.entries = 1000, .window = 10, .flights = 64, .bound = 1 << 20};
    uint64_t now_ms = 0;
    char book[] = "a book";
    rd_loading pages = RD_LOADING_INIT;
    rd_shared *got;
    if (rd_loading_open(&pages, &setup, free_page)) return 1;
    if (rd_loading_get(&pages, 7, now_ms, load_page, book, &got)) return 1;
    puts(((page *)got)->text);
    rd_loading_release(&pages, got);
    return rd_loading_close(&pages) != RD_OK;
}
