"""Kicks of each kind, several in a row after a load, with commits and undos among them."""
from draws import Draws
from plans import any_others, drawn, nearest, points
from sessions import Session

SIZES = [2, 3, 4, 5, 6, 7, 8, 9, 31, 32, 33, 128, 600, 1000]
SEED = 5000


def matrix_of(n, kind, seed):
    return [points(n, 9000, seed), drawn(n, 0, 65535, seed), drawn(n, 1, 9, seed)][kind]


def kicks(oracle, records):
    for n in SIZES:
        for kind in range(3):
            sequence(oracle, records, n, kind, SEED + 3 * n + kind)
    journal_filled(oracle, records)


def sequence(oracle, records, n, kind, seed):
    draws = Draws(seed)
    matrix = matrix_of(n, kind, seed)
    k, ka = 1 + kind, n % 3
    session = Session(oracle, records, matrix, k, any_others(n, k, draws), ka, any_others(n, ka, draws), 2560 + n % 5, seed)
    session.load(draws.shuffled(range(n)))
    for _ in range(3):
        session.kick(kind)
    session.commit()
    session.kick(kind)
    session.kick((kind + 1) % 3)
    session.undo()
    # An empty queue's head stays where it is put, and the stops that are pushed go round the end of the ring.
    session.put("head", n - 1)
    session.kick(kind)
    session.kick((kind + 2) % 3)
    session.commit()
    session.undo()
    session.kick(kind)
    session.load(draws.shuffled(range(n)))
    session.undo()


def journal_filled(oracle, records):
    """Kicks until fewer than 30 entries are free, then an undo of all of them."""
    for n in (7, 32, 128):
        matrix = drawn(n, 0, 500, SEED + n)
        session = Session(oracle, records, matrix, 1, nearest(matrix, 1), words=2564, draw=SEED + n)
        session.load(range(n))
        for turn in range(60 if n == 7 else 20):
            session.kick(2)
        session.undo()
        session.kick(2)
