"""Numbers at random, at the edges of what fields hold and near other numbers."""
import random

# Numbers at the edges of what fields hold.
EDGES = [0, 1, 2, 3, 7, 8, 15, 16, 24, 63, 64, 127, 128, 255, 256, 0xFF00, 0xFFF1, 0xFFFF, 0x10000, 2**31 - 1, 2**31]
EDGES += [2**32 - 8, 2**32 - 1, 2**32, 2**63 - 1, 2**63, 2**64 - 8, 2**64 - 1]

STEPS = [-8, -4, -2, -1, 0, 1, 2, 4, 8, 16]


class Chance(random.Random):
    """Chances of an input. What is likely to be refused at once is rare in most inputs, so that they are read further."""

    def __init__(self, seed):
        super().__init__(seed)
        self.care = self.choice([1, 10, 50, 200, 1000])

    def randrange(self, start, stop=None):
        """One of a range, by the one call that gives the same in each version of Python."""
        if stop is None:
            return int(self.random() * start)
        return start + int(self.random() * (stop - start))

    def choice(self, of):
        return of[int(self.random() * len(of))]

    def one_in(self, count):
        return self.random() * count < 1

    def bad(self, count):
        """One in so many, or fewer with care."""
        return self.random() * count * self.care < 1

    def near(self, held, limits, size):
        """A number of a field of so many bytes: near the one that it holds, near a limit, or at an edge."""
        kind = self.randrange(6)
        if kind < 2:
            found = held + self.choice(STEPS)
        elif kind < 4 and limits:
            found = self.choice(limits) + self.choice(STEPS)
        elif kind < 5:
            found = self.choice(EDGES)
        else:
            found = self.getrandbits(8 * size)
        return found % 2 ** (8 * size)

    def some(self, most):
        """A number of things: often few, at most so many."""
        return min(most, self.choice([0, 1, 1, 2, 2, 3, 4, 6, 10]))
