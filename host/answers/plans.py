"""Matrices by the rules that the program replay knows too, and lists."""
from draws import Draws

STORED, DRAWN, POINTS = 0, 1, 2


class Matrix:
    """Its rule, the rule's numbers, and the cells."""

    def __init__(self, rule, n, cells, low=0, high=0, diagonal=0, seed=0):
        self.rule, self.n, self.cells = rule, n, cells
        self.low, self.high, self.diagonal, self.seed = low, high, diagonal, seed

    def leg(self, a, b):
        return self.cells[a * self.n + b]


def by_legs(n, diagonal, leg):
    """The cells, where `leg` gives the time of each pair a < b in row order."""
    cells = [diagonal] * (n * n)
    for a in range(n):
        for b in range(a + 1, n):
            cells[a * n + b] = cells[b * n + a] = leg(a, b)
    return cells


def stored(n, cells):
    return Matrix(STORED, n, cells)


def drawn(n, low, high, seed, diagonal=65535):
    """Each leg is a draw from low to high."""
    draws = Draws(seed)
    return Matrix(DRAWN, n, by_legs(n, diagonal, lambda a, b: draws.pick(low, high)), low, high, diagonal, seed)


def points(n, high, seed, diagonal=65535):
    """Each stop is a point, x and y drawn from 0 to high; a leg goes along both axes."""
    draws = Draws(seed)
    at = [(draws.pick(0, high), draws.pick(0, high)) for _ in range(n)]
    way = lambda a, b: abs(at[a][0] - at[b][0]) + abs(at[a][1] - at[b][1])
    return Matrix(POINTS, n, by_legs(n, diagonal, way), 0, high, diagonal, seed)


def nearest(matrix, count):
    """The nearest others, ascending; where there are too few, the last is repeated."""
    entries = []
    for stop in range(matrix.n):
        others = sorted((other for other in range(matrix.n) if other != stop), key=lambda other: matrix.leg(stop, other))
        entries += [others[min(i, len(others) - 1)] for i in range(count)]
    return entries


def any_others(n, count, draws):
    """Any others, repeats allowed."""
    return [(stop + draws.pick(1, n - 1)) % n for stop in range(n) for _ in range(count)]
