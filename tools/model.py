#!/usr/bin/env python3
"""A plain model of `slots`, written apart from the library: a script on standard input, its answers on standard output."""
import re
import sys

TOP_BALLOT = 16777214
ROOM = 64
NUMBERS = {b"new": 2, b"prepare": 3, b"accept": 3, b"abandon": 2, b"deliver": 2, b"read": 2}


class Session:
    def __init__(self):
        self.n = None

    def answer(self, line):
        words = line.split(b" ")
        if len(line) > 80 or NUMBERS.get(words[0]) != len(words) - 1:
            return "bad"
        if not all(re.fullmatch(rb"[0-9]{1,8}", word) for word in words[1:]):
            return "bad"
        numbers = [int(word) for word in words[1:]]
        if (self.n is None) != (words[0] == b"new"):
            return "bad"
        return getattr(self, words[0].decode())(*numbers)

    def new(self, n, cells):
        if not 2 <= n <= 7 or not 1 <= cells <= 64:
            return "no 1"
        self.n, self.cells, self.items, self.held = n, cells, [], {}
        # an entry is (promise, vote, value)
        self.rows = {(p, c): [(-1, -1, 0)] * n for p in range(n) for c in range(cells)}
        return "ok"

    def put(self, sender, cell, to):
        kept = to[: max(0, ROOM - len(self.items))]
        self.items += [(q, (sender, cell, list(self.rows[sender, cell]))) for q in kept]
        return len(kept)

    def others(self, p):
        return [q for q in range(self.n) if q != p]

    def prepare(self, p, c, b):
        if (p, c) not in self.rows:
            return "no 2"
        if b > TOP_BALLOT or b % self.n != p:
            return "no 4"
        row = self.rows[p, c]
        if b <= row[p][0]:
            return "no 5"
        row[p] = (b, *row[p][1:])
        self.held[p, c] = b
        return f"ok {self.put(p, c, self.others(p))}"

    def accept(self, p, c, v):
        if (p, c) not in self.held:
            return "no 0"
        if v > 65534:
            return "no 13"
        b, row = self.held[p, c], self.rows[p, c]
        if row[p][0] != b:
            return "no 6"
        if row[p][1] == b:
            return "no 7"
        if 2 * sum(promise == b for promise, _, _ in row) <= self.n:
            return "no 8"
        leader = max(row, key=lambda entry: entry[1])
        value = leader[2] if leader[1] >= 0 else v
        row[p] = (b, b, value)
        del self.held[p, c]
        return f"ok {value} {self.put(p, c, self.others(p))}"

    def abandon(self, p, c):
        return "no 0" if self.held.pop((p, c), None) is None else "ok"

    def deliver(self, q, k):
        if q >= self.n:
            return "no 2"
        mine = [i for i, (to, _) in enumerate(self.items) if to == q]
        if k >= len(mine):
            return "no 9"
        _, (sender, c, frame) = self.items.pop(mine[k])
        s, t, row = frame[sender], frame[q], self.rows[q, c]
        view, own = row[sender], row[q]
        row[sender] = (max(view[0], s[0]), *(s[1:] if s[1] > view[1] else view[1:]))
        row[q] = (max(own[0], s[0]), *(s[1:] if own[0] <= s[1] else own[1:]))
        behind = t[0] < row[q][0] or t[1] < row[q][1]
        return f"ok {self.put(q, c, [sender]) if behind else 0}"

    def read(self, p, c):
        if (p, c) not in self.rows:
            return "no 2"
        row = self.rows[p, c]
        for b in sorted({vote for _, vote, _ in row if vote >= 0}, reverse=True):
            values = [value for _, vote, value in row if vote == b]
            if 2 * len(values) > self.n:
                return f"ok {b} {values[0]}"
        return "open"


def main():
    lines = sys.stdin.buffer.read().split(b"\n")
    if lines[-1] == b"":
        lines.pop()
    session = Session()
    sys.stdout.write("".join(session.answer(line) + "\n" for line in lines))


main()
