/* Entries with a life of their own in rookdresser_loading.h. */
#include "values.h"

typedef struct lived {
    int number; /* of the value to load, or 0 if the load fails */
    uint32_t life;
    int made;
} lived;

static uint64_t load_for(void *context, uint64_t key, rd_shared **got, uint32_t *weight, uint32_t *life) {
    lived *of = context;
    (void)key;
    CHECK(*life == 0);
    of->made++;
    *life = of->life;
    if (!of->number) return DOWN;
    *got = new_value(of->number);
    *weight = 1;
    return RD_OK;
}

static rd_loading l = RD_LOADING_INIT;

static int got(uint64_t key, uint64_t now, int number, uint32_t life) {
    lived of = {number, life, 0};
    rd_shared *value;
    uint64_t fault = rd_loading_get_for(&l, key, now, load_for, &of, &value);
    int told = value ? number_of(value) : 0;
    CHECK(!value == (fault != RD_OK));
    rd_loading_release(&l, value);
    return told;
}

static void put(uint64_t key, int number, uint32_t life, uint64_t now) {
    CHECK(rd_loading_put_for(&l, key, new_value(number), 1, life, now) == RD_OK);
}

static void test_by_hand(void) {
    const rd_setup setup = {.entries = 8, .window = 1, .flights = 4, .bound = 100, .refresh = 20};
    CHECK(rd_loading_open(&l, &setup, destroy) == RD_OK);
    put(1, 11, 5, 100);
    put(2, 12, 0, 100);
    CHECK(looked(&l, 1, 104) == 11 && looked(&l, 1, 105) == 0 && looked(&l, 2, 105) == 12);
    /* A replacement lengthens a life, shortens it, and ends it. */
    put(3, 13, 5, 105);
    put(3, 14, 50, 107);
    CHECK(looked(&l, 3, 120) == 14);
    put(3, 15, 5, 120);
    CHECK(looked(&l, 3, 124) == 15 && looked(&l, 3, 125) == 0);
    put(3, 16, 5, 125);
    CHECK(rd_loading_put(&l, 3, new_value(17), 1, 125) == RD_OK && looked(&l, 3, 1000) == 17);
    /* A load, a refresh, and one that fails. */
    CHECK(got(4, 1000, 18, 30) == 18 && got(4, 1019, 0, 0) == 18 && got(4, 1020, 19, 9) == 19);
    CHECK(looked(&l, 4, 1028) == 19 && looked(&l, 4, 1029) == 0 && got(4, 1029, 0, 99) == 0);
    put(5, 20, 30, 1029);
    CHECK(got(5, 1049, 0, 99) == 20 && looked(&l, 5, 1058) == 20 && looked(&l, 5, 1059) == 0);
    /* A load without a life, in place of one that had one. */
    put(6, 21, 5, 1059);
    CHECK(got(6, 1064, 22, 0) == 22 && looked(&l, 6, 5000) == 22);
    struct timespec past = {0, 0};
    rd_shared *value;
    lived of = {23, 5, 0};
    CHECK(rd_loading_get_for_until(&l, 7, 5000, load_for, &of, &past, &value) == RD_OK && number_of(value) == 23 && of.made == 1);
    rd_loading_release(&l, value);
    CHECK(looked(&l, 7, 5004) == 23 && looked(&l, 7, 5005) == 0);
    CHECK(rd_loading_life(0) == 1 && rd_loading_life(1) == 1 && rd_loading_life(UINT32_MAX) == UINT32_MAX && rd_loading_life(1ull << 32) == 0
          && rd_loading_life(UINT64_MAX) == 0);
    CHECK(rd_loading_close(&l) == RD_OK && live == 0);
}

static void test_beside_deadlines(void) {
    enum { KEYS = 100, WRITE = 300, TURNS = 100000 };
    const rd_setup setup = {.entries = 2 * KEYS, .window = 1, .flights = 4, .bound = 1000, .after_write = WRITE};
    static struct { int number; uint64_t until; } model[KEYS];
    uint64_t now = 0, hits = 0;
    unsigned seed = 70;
    CHECK(rd_loading_open(&l, &setup, destroy) == RD_OK);
    for (int turn = 1; turn <= TURNS; turn++) {
        now += turn % 7 == 0;
        uint64_t key = (uint64_t)rand_r(&seed) % KEYS;
        uint32_t life = rand_r(&seed) % 2 ? (uint32_t)rand_r(&seed) % (2 * WRITE) : 0;
        bool there = now < model[key].until;
        int what = rand_r(&seed) % 4;
        if (what > 1) {
            CHECK(looked(&l, key, now) == (there ? model[key].number : 0));
            hits += there;
            continue;
        }
        if (what == 0) put(key, turn, life, now);
        else CHECK(got(key, now, turn, life) == (there ? model[key].number : turn));
        if (what == 1 && there) continue;
        model[key].number = turn;
        model[key].until = now + (life && life < WRITE ? life : WRITE);
    }
    CHECK(hits > TURNS / 10 && rd_loading_close(&l) == RD_OK && live == 0);
}

int main(void) {
    test_by_hand();
    test_beside_deadlines();
    puts("loading lives: ok");
    return 0;
}
