"""Sequences of calls: each line goes to the oracle, and what it shows goes into a record that the program replay runs."""
import json
import struct
import subprocess

SET_UP, DAMAGE, CALL = 3, 4, 5
LOAD, KICK, DESCEND, COMMIT, UNDO, SEARCH, FLIP, OR_MOVE, IMPROVE = range(1, 10)
SLICES = ["matrix", "near", "alpha", "round", "places", "queue", "flags", "scratch", "journal"]
NUMBERS = ["n", "k", "ka", "head", "count", "held", "time", "draw"]


def record(kind, payload):
    return struct.pack("<BI", kind, len(payload)) + payload


def halves(words):
    return struct.pack("<%dH" % len(words), *words)


class Oracle:
    """The oracle's `calls`, line by line."""

    def __init__(self, program):
        self.process = subprocess.Popen([program, "calls"], stdin=subprocess.PIPE, stdout=subprocess.PIPE, text=True)

    def tell(self, *words):
        self.process.stdin.write(" ".join(map(str, words)) + "\n")

    def ask(self, *words):
        self.tell(*words)
        self.process.stdin.flush()
        line = self.process.stdout.readline()
        if not line:
            raise SystemExit("store-answers: the oracle refuses the line %s" % " ".join(map(str, words))[:200])
        return None if line == "---\n" else json.loads(line)

    def close(self):
        self.process.stdin.close()
        self.process.wait()


class Session:
    """What is lent is set up; then calls and damage, each of which leaves a record in `records`."""

    def __init__(self, oracle, records, matrix, k, near, ka=0, alpha=(), words=2560, draw=1):
        self.oracle, self.records = oracle, records
        n = matrix.n
        head = struct.pack("<11I2Q", n, k, ka, len(matrix.cells), len(near), len(alpha), words, matrix.rule, matrix.low,
                           matrix.high, matrix.diagonal, matrix.seed, draw)
        cells = matrix.cells if matrix.rule == 0 else []
        self.records.append(record(SET_UP, head + halves(cells + list(near) + list(alpha))))
        oracle.ask("---")
        oracle.tell("n", n)
        oracle.tell("k", k)
        oracle.tell("ka", ka)
        oracle.tell("room", words // 5, words % 5)
        oracle.tell("draw", draw)
        oracle.tell("matrix", *matrix.cells)
        oracle.tell("near", *near)
        oracle.tell("alpha", *alpha)
        self.matrix = matrix
        # A line that changes nothing, so that what was set up is shown.
        self.now = oracle.ask("put draw", draw)

    # Damage.

    def set(self, name, index, value):
        self.damage(1, SLICES.index(name), index, value, "set", name, index, value)

    def size(self, name, length):
        self.damage(2, SLICES.index(name), length, 0, "size", name, length)

    def put(self, name, value):
        self.damage(3, NUMBERS.index(name), 0, value, "put", name, value)

    def damage(self, op, name, index, value, *line):
        self.records.append(record(DAMAGE, struct.pack("<3IQ", op, name, index, value)))
        self.now = self.oracle.ask(*line)

    # Calls.

    def load(self, start):
        return self.call(LOAD, [], "load", *start, start=start)

    def kick(self, kind):
        return self.call(KICK, [kind], "kick", kind)

    def descend(self, kept, step, budget):
        return self.call(DESCEND, [int(kept), step, budget], "descend", "kept" if kept else "committed", step, budget)

    def commit(self):
        return self.call(COMMIT, [], "commit")

    def undo(self):
        return self.call(UNDO, [], "undo")

    def flip(self, t1, t2, t3):
        return self.call(FLIP, [t1, t2, t3], "flip", t1, t2, t3)

    def or_move(self, forward, *stops):
        return self.call(OR_MOVE, [int(forward), *stops], "or_move", "forward" if forward else "backward", *stops)

    def improve(self, forward, t1):
        return self.call(IMPROVE, [int(forward), t1], "improve", "forward" if forward else "backward", t1)

    def call(self, kind, arguments, *line, start=()):
        """Makes a call, stores its record, and gives its number."""
        before, now = self.now, self.oracle.ask(*line)
        self.now = now
        arguments = arguments + [0] * (7 - len(arguments))
        change = now["change"]
        given = [now[name] for name in ("head", "count", "held", "time")] + [max(change, 0), max(-change, 0)]
        given += [now[name] for name in ("gain", "units", "ended", "kicks")]
        if now["number"]:
            given = [0] * 10
        payload = struct.pack("<10I", kind, *arguments, now["number"], len(start))
        payload += struct.pack("<10IQ", *given, 0 if now["number"] else now["draw"]) + halves(start)
        if now["number"]:
            self.unchanged(before)
        else:
            payload += halves(now["round"]) + halves(self.waiting()) + halves(self.entries(before))
        self.records.append(record(CALL, payload))
        return now["number"]

    def unchanged(self, before):
        for name in NUMBERS + ["round", "places", "queue", "flags", "journal", "sizes"]:
            assert self.now[name] == before[name], name

    def waiting(self):
        """The stops that wait, in order; flags and places say nothing else than queue and round."""
        now, n = self.now, self.now["n"]
        stops = [now["queue"][(now["head"] + i) % n] for i in range(now["count"])]
        assert now["flags"] == [int(stop in set(stops)) for stop in range(n)]
        assert all(now["places"][stop] == place for place, stop in enumerate(now["round"]))
        return stops

    def entries(self, before):
        """The words of the journal entries that are new; the others are as they were."""
        old = 5 * min(before["held"], self.now["held"])
        assert self.now["journal"][:old] == before["journal"][:old]
        return self.now["journal"][old:]
