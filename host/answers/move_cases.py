"""Single moves: flip, or_move and improve, the whole state after each. They join the list once `replay` knows the calls."""
from draws import Draws
from plans import drawn, nearest, points
from sessions import Session

SIZES = [2, 3, 4, 5, 6, 7, 8, 9, 31, 32, 128]
SEED = 6000


def moves(oracle, records):
    for n in SIZES:
        for turn in range(2):
            sequence(oracle, records, n, turn, SEED + 2 * n + turn)


def sequence(oracle, records, n, turn, seed):
    draws = Draws(seed)
    matrix = points(n, 3000, seed) if turn else drawn(n, 0, 20, seed)
    k = min(6, n - 1)
    session = Session(oracle, records, matrix, k, nearest(matrix, k), draw=seed)
    session.load(draws.shuffled(range(n)))
    session.put("head", n - 1)
    for _ in range(6):
        flip(session, draws, n)
        if n >= 3:
            or_move(session, draws, n)
    session.commit()
    for _ in range(12):
        session.improve(draws.pick(0, 1) == 1, draws.pick(0, n - 1))
    session.undo()


def flip(session, draws, n):
    """t2 is beside t1, on either side; t3 is any stop but t1."""
    now = session.now
    t1 = draws.pick(0, n - 1)
    beside = draws.one_of([1, -1])
    t2 = now["round"][(now["places"][t1] + beside) % n]
    t3 = draws.one_of([stop for stop in range(n) if stop != t1])
    session.flip(t1, t2, t3)


def or_move(session, draws, n):
    """Three legs of the round, in any order."""
    now = session.now
    forward = draws.pick(0, 1) == 1
    cuts = draws.shuffled(range(n))[:3]
    stops = []
    for place in cuts:
        before, after = now["round"][place - 1], now["round"][place]
        stops += [before, after] if forward else [after, before]
    session.or_move(forward, *stops)
