/* A program that breaks its duty: two threads call through one caller. RD_CHECK aborts it. */
#define RD_CHECK
#include "rookdresser_shared.h"
#include <pthread.h>

static rd_caller caller = RD_CALLER_INIT;

static void *work(void *given) {
    rd_answer answer;
    for (uint64_t i = 0; i < 100000000; i++) rd_shared_look(&caller, i % 64, i, &answer);
    return given;
}

int main(void) {
    static const rd_setup setup = {.entries = 100, .window = 10, .flights = 8, .bound = 500};
    pthread_t thread;
    if (rd_shared_open(&setup, &caller) || pthread_create(&thread, 0, work, 0)) return 1;
    work(0);
    pthread_join(thread, 0);
    puts("nobody noticed");
    return 0;
}
