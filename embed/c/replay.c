/* Replays a trace of wt_replay's (docs/FORMATS.md; no bad lines) through rookdresser.h, and writes the same report. Keys are
 * numbers; with -DNAMES they are names that spell a number, as k12. */
#include "keys.h"
#include <string.h>
typedef unsigned long long ull;
#ifdef NAMES
#define SHOWN "k%llu"
/* the 64-bit FNV-1a of the name's bytes */
static uint64_t word(uint64_t k) {
    rd_name name = spelled(k);
    uint64_t word = 0xcbf29ce484222325;
    for (uint64_t i = 0; i < name.length; i++)
        word = (word ^ name.bytes[i]) * 0x100000001b3;
    return word;
}
#else
#define SHOWN "%llu"
static uint64_t word(uint64_t k) { return k; }
#endif
static struct { uint64_t id, key; } open_loads[4096];
static int loads;
static rd_cache cache = RD_CACHE_INIT;
static char left[1 << 22];
static size_t used;
static uint64_t mod = 1, fail_mod = 0;
static void notices(const rd_answer *a) {
    static const char *causes[] = {"", "explicit", "replaced", "expired", "size"};
    for (uint64_t i = 0; i < a->notices; i++) {
        rd_notice n;
        if (get_notice(&cache, i, &n)) exit(9);
        used += sprintf(left + used, " " SHOWN ":%llu:%s", (ull)n.key, (ull)n.token, causes[n.cause]);
    }
}
static void land(uint64_t id, uint64_t key, uint64_t now, uint64_t line, const char *kept,
                 const char *loose) {
    rd_answer a;
    uint64_t f;
    if (fail_mod && word(key) % fail_mod == 0)
        f = LAND_FAILED(&cache, id, GIVEN(key), now, &a);
    else
        f = LAND_KEEP(&cache, id, GIVEN(key), (rd_token){line, 1 + word(key) % mod}, now, &a);
    if (f) exit(8);
    if (a.kind == RD_FAILED)
        printf("fail 7");
    else if (a.kind == RD_KEPT) {
        if (strcmp(kept, "load") == 0)
            printf("load");
        else
            printf("%s %llu", kept, (ull)a.number);
    } else
        printf("%s %llu", loose, (ull)a.number);
    notices(&a);
    int j = 0;
    while (open_loads[j].id != id)
        j++;
    memmove(open_loads + j, open_loads + j + 1, (--loads - j) * sizeof *open_loads);
}
int main(int argc, char **argv) {
    rd_setup s = {.entries = 1024, .flights = 32, .bound = 1ull << 48};
    for (int i = 1; i + 1 < argc; i += 2) {
        uint64_t v = strtoull(argv[i + 1], 0, 10);
        char *o = argv[i] + 2;
        if (!strcmp(o, "entries"))
            s.entries = v;
        else if (!strcmp(o, "window"))
            s.window = v;
        else if (!strcmp(o, "weight"))
            s.bound = v;
        else if (!strcmp(o, "mod"))
            mod = v;
        else if (!strcmp(o, "write"))
            s.after_write = v;
        else if (!strcmp(o, "access"))
            s.after_access = v;
        else if (!strcmp(o, "refresh"))
            s.refresh = v;
        else if (!strcmp(o, "fail-mod"))
            fail_mod = v;
        else if (!strcmp(o, "flights"))
            s.flights = v;
        else
            return 7;
    }
    if (!s.window) s.window = s.entries / 100 ? s.entries / 100 : 1;
    if (OPEN(&s, &cache)) return 6;
    char text[80];
    uint64_t line = 0;
    while (fgets(text, sizeof text, stdin)) {
        ull now, k = 0;
        char what;
        if (!line && !strcmp(text, "wt 2\n")) {
            line++;
            continue;
        }
        if (sscanf(text, "%llu %c " SHOWN, &now, &what, &k) < 2) return 5;
        rd_answer a;
        uint64_t f;
        used = 0;
        left[0] = 0;
        printf("%llu ", (ull)++line);
        switch (what) {
        case 'L':
            f = LOOK(&cache, GIVEN(k), now, &a);
            if (f) return 4;
            if (a.kind == RD_HIT)
                printf("hit %llu", (ull)a.token);
            else
                printf("absent");
            notices(&a);
            break;
        case 'S':
        case 'G':
            f = SEEK(&cache, GIVEN(k), now, &a);
            if (f == RD_TOO_MANY_FLIGHTS) {
                printf("full");
                break;
            }
            if (f) return 4;
            notices(&a);
            if (a.kind == RD_HIT || a.kind == RD_HIT_LEAD) printf("hit %llu", (ull)a.token);
            if (a.kind == RD_JOIN) printf("join %llu", (ull)a.number);
            if (a.kind == RD_HIT_LEAD) printf(" ");
            if (a.kind == RD_LEAD || a.kind == RD_HIT_LEAD) {
                open_loads[loads].id = a.number;
                open_loads[loads++].key = k;
                if (what == 'S')
                    printf("lead %llu", (ull)a.number);
                else
                    land(a.number, k, now, line, "load", "loose");
            }
            break;
        case 'E': {
            int j = 0;
            while (j < loads && open_loads[j].key != k)
                j++;
            if (j == loads)
                printf("none");
            else
                land(open_loads[j].id, k, now, line, "land", "loose");
            break;
        }
        case 'P':
            f = PUT(&cache, GIVEN(k), (rd_token){line, 1 + word(k) % mod}, now, &a);
            if (f == RD_TOO_HEAVY) {
                printf("heavy");
                break;
            }
            if (f) return 4;
            printf("put");
            notices(&a);
            break;
        case 'D':
            f = DROP(&cache, GIVEN(k), now, &a);
            if (f) return 4;
            printf(a.number ? "drop" : "absent");
            notices(&a);
            break;
        case 'F':
            f = FORGET(&cache, GIVEN(k), now, &a);
            if (f) return 4;
            printf(a.number ? "forget" : "none");
            notices(&a);
            break;
        case 'C':
            f = rd_clean(&cache, now, &a);
            if (f) return 4;
            printf("clean");
            notices(&a);
            break;
        case 'X':
            f = rd_clear(&cache, now, &a);
            if (f) return 4;
            printf("clear");
            notices(&a);
            break;
        default:
            return 3;
        }
        printf("%s\n", left);
    }
    rd_numbers t;
    if (rd_get_numbers(&cache, &t)) return 2;
    printf(
        "lookups %llu hits %llu misses %llu loads %llu failed %llu evicted %llu entries %llu weight %llu\n",
        (ull)t.lookups, (ull)t.hits, (ull)t.misses, (ull)t.loads, (ull)t.failed, (ull)t.evicted,
        (ull)t.entries, (ull)t.weight);
    return rd_close(&cache) != 0;
}
