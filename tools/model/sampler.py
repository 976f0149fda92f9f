"""Which hits of a caller's reads the policy hears of: the first 8 after a read that found nothing, by chance one in 16 of the next 1,024,
and one in 256 of all others."""

AFTER_MISS = 8
ALL_HIT = AFTER_MISS + 1024
OFTEN, SELDOM = 16, 256
STEP, FACTOR, WORD = 0x9E3779B97F4A7C15, 0xBF58476D1CE4E5B9, 2 ** 64


class Sampler:
    def __init__(self):
        self.hits, self.draws = AFTER_MISS, 0

    def missed(self):
        self.hits = 0

    def is_told(self):
        hits = self.hits
        self.hits = min(hits + 1, ALL_HIT)
        if hits < AFTER_MISS:
            return True
        self.draws = (self.draws + STEP) % WORD
        drawn = (self.draws ^ self.draws >> 30) * FACTOR % WORD
        return drawn * (OFTEN if hits < ALL_HIT else SELDOM) // WORD == 0
