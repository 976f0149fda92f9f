/* The loading cache of README.md with a listener and a deadline: a page that is loaded in time, and printed again as it leaves. */
#include "rookdresser_loading.h"
#include "rookdresser_text.h"
#include <stdio.h>
#include <stdlib.h>

typedef struct page {
    rd_shared shared;
    char text[32];
} page;

static void free_page(rd_shared *shared) { free(shared); }

static uint64_t load_page(void *book, uint64_t key, rd_shared **value, uint32_t *weight) {
    page *p = malloc(sizeof *p);
    if (!p) return RD_LOADING_ERRORS;
    snprintf(p->text, sizeof p->text, "page %d of %s", (int)key, (const char *)book);
    *value = &p->shared;
    *weight = 1;
    return RD_OK;
}

/* The listener. The page is whole until it returns. */
static void print_left(void *context, uint64_t key, rd_shared *value, enum rd_cause cause) {
    (void)context, (void)key;
    printf("%s: %s\n", ((page *)value)->text, rd_cause_text(cause));
}

int main(void) {
    rd_setup setup = {.entries = 1000, .window = 10, .flights = 64, .bound = 1 << 20};
    uint64_t now_ms = 0;
    char book[] = "a book";
    rd_loading pages = RD_LOADING_INIT;
    rd_shared *got;
    if (rd_loading_open(&pages, &setup, free_page)) return 1;
    struct timespec deadline;
    rd_loading_listen(&pages, print_left, NULL);
    clock_gettime(CLOCK_MONOTONIC, &deadline);
    deadline.tv_sec += 2;
    uint64_t fault = rd_loading_get_until(&pages, 7, now_ms, load_page, book, &deadline, &got);
    if (fault == RD_TIMED_OUT) return 1; /* another thread still loads the page */
    if (fault) return fprintf(stderr, "page 7: %s\n", rd_fault_text(fault)), 1;
    rd_loading_release(&pages, got);
    if (rd_loading_drop(&pages, 7, now_ms)) return 1; /* prints: page 7 of a book: dropped or cleared */
    return rd_loading_close(&pages) != RD_OK;
}
