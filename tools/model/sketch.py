"""How often keys were counted, about: four rows of counters that stop at 15 and are halved from time to time."""

ROW_FACTORS = (0x9E3779B97F4A7C15, 0xBF58476D1CE4E5B9, 0x94D049BB133111EB, 0xD6E8FEB86659FD93)


class Sketch:
    def __init__(self, entries):
        self.bits = 6
        while 2 ** self.bits < entries:
            self.bits += 1
        self.full = 10 * entries
        self.additions = 0
        self.rows = [[0] * 2 ** self.bits for _ in ROW_FACTORS]

    def places(self, word):
        return [(factor * word) % 2 ** 64 >> 64 - self.bits for factor in ROW_FACTORS]

    def estimate(self, word):
        return min(row[place] for row, place in zip(self.rows, self.places(word)))

    def count(self, word):
        rose = False
        for row, place in zip(self.rows, self.places(word)):
            if row[place] < 15:
                row[place] += 1
                rose = True
        if rose:
            self.additions += 1
            if self.is_time_to_halve():
                self.halve()

    def is_time_to_halve(self):
        return self.additions == self.full

    def halve(self):
        self.additions //= 2
        self.rows = [[counter // 2 for counter in row] for row in self.rows]
