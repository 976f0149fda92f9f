/* Four threads share a cache of squares. Each square that is asked for often is worked out once. */
#include "rookdresser_waiting.h"
#include <stdio.h>

static rd_gate gate = RD_GATE_INIT;

static uint64_t load_square(void *context, uint64_t key, rd_token *value) {
    (void)context;
    *value = (rd_token){key * key, 1}; /* the token is the value itself */
    return RD_OK;
}

static void *work(void *given) {
    rd_caller *caller = given; /* of this thread alone */
    rd_answer answer;
    rd_token square;
    for (uint64_t i = 0; i < 100000; i++) {
        uint64_t key = i % 500;
        if (rd_shared_get(&gate, caller, key, 0, load_square, 0, &square, &answer) || square.token != key * key) return caller;
    }
    return 0;
}

int main(void) {
    rd_setup setup = {.entries = 1000, .window = 10, .flights = 64, .bound = 1 << 20};
    rd_caller callers[4] = {RD_CALLER_INIT, RD_CALLER_INIT, RD_CALLER_INIT, RD_CALLER_INIT};
    pthread_t threads[4];
    void *wrong = 0;
    if (rd_shared_open(&setup, &callers[0])) return 1;
    for (int t = 1; t < 4; t++)
        if (rd_shared_another(&callers[0], &callers[t])) return 1;
    for (int t = 0; t < 4; t++)
        if (pthread_create(&threads[t], 0, work, &callers[t])) return 1;
    for (int t = 0; t < 4; t++)
        if (pthread_join(threads[t], &wrong) || wrong) return 1;
    for (int t = 0; t < 4; t++) rd_shared_close(&callers[t]);
    puts("400000 squares by four threads");
    return 0;
}
