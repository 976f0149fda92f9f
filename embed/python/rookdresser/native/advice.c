/* How the windows follow the look-ups:
 *
 *     look, seek ──► 64 are noted ──► the adviser sees them ──► a share for each shard
 *     look, seek, put, landing ──► ahead of it, up to four slides move the shard's window towards its share
 *
 * All of it stands in steps, in which no code of Python runs. So the adviser sees each look-up of the library once, in their order, and a
 * forked child has both as they were. If memory is refused, no call fails: a slide is made ahead of a later call, and a key that was missed
 * by the adviser stays missed. */
#include "native.h"

/* Shows the adviser what was noted. The window that it then wants is shared out as the setting is: parts differ by one at most, and each
 * shard has one entry at least. */
static SELDOM void show(Table *self) {
    Advice *advice = self->advice;
    uint32_t wanted, noted = advice->noted;
    advice->noted = 0;
    rd_advise(&advice->adviser, advice->keys, noted, &wanted);
    advice->share = (uint32_t)(wanted / self->shards), advice->one_more = (uint32_t)(wanted % self->shards);
    if (!advice->share) advice->share = 1, advice->one_more = 0;
}

/* How many entries the window of a shard should hold. */
uint32_t share_of(const Advice *advice, uint64_t shard) { return advice->share + (shard < advice->one_more); }

/* Opens the adviser for all entries of the table together. Returns a fault, or 0. */
uint64_t open_adviser(Table *self, uint32_t entries) {
    uint64_t fault = rd_open_adviser(entries, &self->advice->adviser);
    if (!fault) show(self);
    return fault;
}

/* Notes a look-up that the library has made. */
void note(Table *self, uint64_t number) {
    Advice *advice = self->advice;
    advice->keys[advice->noted++] = number;
    if (advice->noted == BATCH) show(self);
}

static SELDOM void slide(rd_cache *cache, uint32_t *window, uint32_t share, uint64_t now) {
    rd_answer answer;
    for (int made = 0; made < SLIDES && *window != share; made++) {
        int wider = *window < share;
        if (rd_slide(cache, wider, now, &answer) || !answer.number) return;
        *window += wider ? 1 : -1;
    }
}

/* Moves the window of a shard towards its share, at the moment of the call that follows. A slide empties the list of notices, so none is
 * made between a call and the reading of its notices. */
void follow(Table *self, rd_cache *cache, uint64_t now) {
    Advice *advice = self->advice;
    uint64_t shard = (uint64_t)(cache - self->caches);
    uint32_t share = share_of(advice, shard), *window = &advice->windows[shard];
    if (*window != share) slide(cache, window, share, now);
}

/* How many entries the windows may hold now, of all shards together. */
uint64_t windows_of(Table *self) {
    if (!self->advice) return self->windows;
    uint64_t sum = 0;
    for (uint64_t i = 0; i < self->shards; i++) sum += self->advice->windows[i];
    return sum;
}
