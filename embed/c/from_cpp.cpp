// The headers from C++: a cache of numbers and one of names, a loading one, one whose window follows, and a shared one.
#include "rookdresser_adaptive.h"
#include "rookdresser_loading.h"
#include "rookdresser_seeded.h"
#include "rookdresser_text.h"
#include "rookdresser_waiting.h"
#include <cstdio>

int main() {
    rd_setup setup = {};
    setup.entries = 4;
    setup.window = 1;
    setup.flights = 2;
    setup.bound = 100;
    rd_cache cache = RD_CACHE_INIT, names = RD_CACHE_INIT;
    rd_answer a;
    rd_name alice = rd_name_of("alice", 5);
    char text[RD_TEXT];
    bool ok = rd_setup_text(&setup, text, sizeof text) == 0 && rd_cause_text(RD_SIZE) != rd_fault_text(RD_CLOSED);
    ok = ok && rd_open(&setup, &cache) == RD_OK && rd_open_names(&setup, &names) == RD_OK;
    ok = ok && rd_put(&cache, 1, rd_token{7, 2}, 0, &a) == RD_OK && a.kind == RD_STORED;
    ok = ok && rd_look(&cache, 1, 0, &a) == RD_OK && a.kind == RD_HIT && a.token == 7;
    ok = ok && rd_put_name(&names, &alice, rd_token{8, 2}, 0, &a) == RD_OK && a.kind == RD_STORED;
    ok = ok && rd_look_name(&names, &alice, 0, &a) == RD_OK && a.kind == RD_HIT && a.token == 8;
    ok = ok && rd_close(&cache) == RD_OK && rd_close(&names) == RD_OK;
    rd_loading loading = RD_LOADING_INIT;
    rd_shared *got;
    const uint64_t seed[2] = {1, 2};
    ok = ok && rd_loading_open(&loading, &setup, [](rd_shared *value) { delete value; }) == RD_OK;
    ok = ok && rd_loading_put(&loading, rd_seeded(seed, "alice", 5), new rd_shared(), 1, 0) == RD_OK;
    ok = ok && rd_loading_look(&loading, rd_seeded(seed, "alice", 5), 0, &got) == RD_OK && got;
    rd_loading_release(&loading, got);
    int left = 0;
    const timespec past = {0, 1};
    const auto load = [](void *, uint64_t, rd_shared **value, uint32_t *) -> uint64_t { return *value = new rd_shared(), RD_OK; };
    rd_loading_listen(&loading, [](void *context, uint64_t, rd_shared *, rd_cause cause) { *static_cast<int *>(context) += cause; }, &left);
    ok = ok && rd_loading_get_until(&loading, 2, 0, load, nullptr, &past, &got) == RD_OK && got;
    rd_loading_release(&loading, got);
    ok = ok && rd_loading_close(&loading) == RD_OK && left == 2 * RD_EXPLICIT;
    rd_follower follower = RD_FOLLOWER_INIT;
    setup.entries = 512;
    ok = ok && rd_open_follower(&setup, &follower) == RD_OK && setup.window == 51 && rd_open(&setup, &cache) == RD_OK;
    ok = ok && rd_look(&cache, 1, 0, &a) == RD_OK && rd_follow(&follower, &cache, 1) == RD_OK;
    ok = ok && rd_close_follower(&follower) == RD_OK && rd_close(&cache) == RD_OK;
    rd_gate gate = RD_GATE_INIT;
    rd_caller caller = RD_CALLER_INIT;
    uint64_t fault = RD_OK;
    ok = ok && rd_shared_open(&setup, &caller) == RD_OK;
    RD_WAITING(&gate, fault, rd_shared_put(&caller, 1, rd_token{7, 2}, 0, &a));
    ok = ok && fault == RD_OK && a.kind == RD_STORED && rd_shared_close(&caller) == RD_OK;
    std::puts(ok ? "from C++: ok" : "from C++: wrong");
    return ok ? 0 : 1;
}
