"""01's draws, for matrices that both sides compute and for the cases' own choices."""


class Draws:
    def __init__(self, seed):
        self.state = seed

    def pick(self, low, high):
        """Moves the state on, and draws from low to high."""
        x = self.state
        x ^= x << 13 & 0xFFFFFFFFFFFFFFFF
        x ^= x >> 7
        x ^= x << 17 & 0xFFFFFFFFFFFFFFFF
        self.state = x
        return low + x % (high - low + 1)

    def one_of(self, these):
        return these[self.pick(0, len(these) - 1)]

    def shuffled(self, these):
        these = list(these)
        for k in range(len(these) - 1, 0, -1):
            i = self.pick(0, k)
            these[k], these[i] = these[i], these[k]
        return these
