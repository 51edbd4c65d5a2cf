#!/usr/bin/env python3
"""Writes a random script for `slots`, with damaged lines of every sort: scripts.py SEED [LINES]."""
import itertools
import random
import sys

TOP_BALLOT = 16777214
# How often each command comes within a round, while offices outbid each other until the post is full, and while it
# empties, which takes long since late frames are answered. No line is read as `restart` yet: it is bad.
CALM = {"prepare": 1, "accept": 2, "abandon": 1, "deliver": 90, "read": 6, "restart": 3}
CROWD = {"prepare": 25, "accept": 15, "abandon": 4, "deliver": 30, "read": 20, "restart": 2}
QUIET = {"deliver": 97, "read": 3}
# What no number is, and what no name is.
NO_NUMBER = [b"-1", b"+1", b"1.0", b"1a", b"0x1", b"x", b"000000000", b"123456789", b"1\t", b"1\r", b"\xc2\xb2", b"\xff"]
NO_NAME = [b"Read", b"read:", b"READ", b"rea", b"reads", b"0", b"\xef\xbb\xbfread", b"\tread", b"x" * 8]


class Script:
    def __init__(self, seed):
        self.random = random.Random(seed)
        self.n, self.cells = self.random.randrange(2, 8), self.one_of(1, 2, 5, 20, 64)
        self.highest, self.bidder, self.busy = {}, {}, [0]

    def chance(self, percent):
        return self.random.randrange(100) < percent

    def one_of(self, *choices):
        return self.random.choice(choices)

    def office(self):
        return self.one_of(self.n, 7, 8, 255, 99999999) if self.chance(2) else self.random.randrange(self.n)

    def cell(self):
        return self.one_of(self.cells, 64, 255, 256, 99999999) if self.chance(1) else self.one_of(*self.busy)

    def ballot(self, p, c):
        highest = self.highest.get(c, -self.n)
        if self.chance(5):
            # any, often another's, and p's first one that is too high
            return self.one_of(self.random.randrange(highest + 3 * self.n), TOP_BALLOT + 1 + (p - TOP_BALLOT - 1) % self.n, 99999999)
        return max(0, highest // self.n + self.one_of(0, 1, 1, 1, 2)) * self.n + p

    def prepare(self, p, c, b):
        if b <= TOP_BALLOT and b % self.n == p:
            self.highest[c], self.bidder[c] = max(b, self.highest.get(c, 0)), p
        return self.line("prepare", p, c, b)

    def accept(self, c):
        p = self.office() if self.chance(20) else self.bidder.get(c, 0)
        v = self.one_of(65534, 65534, 65535, 65536, 99999999) if self.chance(10) else self.random.randrange(65535)
        return self.line("accept", p, c, v)

    def any_of(self, weights):
        name = self.random.choices(list(weights), list(weights.values()))[0]
        p, c = self.office(), self.cell()
        if name == "prepare":
            return self.prepare(p, c, self.ballot(p, c))
        if name == "accept":
            return self.accept(c)
        if name == "deliver":
            return self.line(name, p, self.one_of(0, 0, 0, 0, 0, 0, 0, 1, 2, self.random.randrange(70)))
        return self.line(name, p) if name == "restart" else self.line(name, p, c)

    # the words of a command, whose numbers may begin with zeros
    def line(self, name, *numbers):
        words = [name.encode()] + [b"%0*d" % (self.random.randrange(9) if self.chance(30) else 1, x) for x in numbers]
        return self.damaged(words) if self.chance(4) else b" ".join(words)

    def damaged(self, words):
        i = self.random.randrange(1, len(words))
        line = b" ".join(words)
        return self.one_of(
            b"",
            b"x" * self.one_of(80, 81, 82, 300),
            line + b" " * 80,
            b" ".join(words[:-1]),
            line + b" 0",
            b" ".join([self.one_of(*NO_NAME)] + words[1:]),
            b" ".join(words[:i] + [self.one_of(*NO_NUMBER)] + words[i + 1 :]),
            b" " + line,
            line + b" ",
            line.replace(b" ", b"  ", 1),
            line.replace(b" ", b"\t", 1),
            line + b"\r",
            line + b"\xe9",
            b"new %d %d" % (self.n, self.cells),
        )

    # what comes before a register is set up, and how that is refused
    def beginning(self):
        yield from (self.any_of(CROWD) for _ in range(5))
        yield from [b"new 1 1", b"new 8 1", b"new %d 0" % self.n, b"new %d 65" % self.n, b"new 99999999 1", b"new"]
        yield b"new %d %d" % (self.n, self.cells)

    # a round that may end, with some commands of others; the first of a cell is often of ballot 0
    def round(self):
        c = self.cell()
        p = self.office() if c in self.highest or self.chance(50) else 0
        yield self.prepare(p, c, self.ballot(p, c))
        yield from (self.any_of(CALM) for _ in range(4 * self.n))
        yield self.accept(c)
        yield from (self.any_of(CALM) for _ in range(4 * self.n))
        yield from (self.line("read", q, c) for q in range(self.n))

    def all_lines(self):
        yield from self.beginning()
        while True:
            self.busy = [self.random.randrange(self.cells) for _ in range(self.one_of(1, 2, 3))]
            if self.chance(10):
                yield from (self.any_of(CROWD) for _ in range(self.one_of(20, 40, 120)))
                yield from (self.any_of(QUIET) for _ in range(self.one_of(0, 100, 200)))
                # no round follows the highest ballots of a cell, so there have to be many cells
                if self.cells > 5:
                    p, c = self.office(), self.cell()
                    yield self.prepare(p, c, TOP_BALLOT - (TOP_BALLOT - p) % self.n)
            else:
                yield from self.round()


def main():
    args = sys.argv[1:]
    count = int(args[1]) if len(args) > 1 else 3000
    lines = itertools.islice(Script(int(args[0])).all_lines(), count)
    # the last line of every second script has no newline
    sys.stdout.buffer.write(b"\n".join(lines) + b"\n" * (int(args[0]) % 2))


main()
