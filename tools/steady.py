#!/usr/bin/env python3
"""Writes a script for 7 offices and 64 cells in which nearly every step is taken: steady.py SEED LINES.

Eight rounds are under way at any time, each in a cell of its own. Of a round the six others get the prepare and then
the accept, each answers, and then all seven are read out. Its frames are delivered in any order among those of the
other rounds, so that some twenty items wait in the post, at most 48. One line in a hundred is refused.
"""
import itertools
import random
import sys

OFFICES, CELLS, ROUNDS = 7, 64, 8


class Round:
    def __init__(self, p, c, b):
        self.p, self.c, self.b, self.acks, self.accepted = p, c, b, 0, False


class Script:
    def __init__(self, seed):
        self.random = random.Random(seed)
        # an item is (addressee, its round, whether it is an ack)
        self.items, self.rounds, self.highest = [], [], [0] * CELLS

    def one_of(self, choices):
        return choices[int(self.random.random() * len(choices))]

    def send(self, a_round):
        self.items += [(q, a_round, False) for q in range(OFFICES) if q != a_round.p]

    def prepare(self):
        p = self.one_of(range(OFFICES))
        c = self.one_of([c for c in range(CELLS) if all(c != other.c for other in self.rounds)])
        self.highest[c] += 1
        a_round = Round(p, c, self.highest[c] * OFFICES + p)
        self.rounds.append(a_round)
        self.send(a_round)
        return f"prepare {p} {c} {a_round.b}"

    def deliver(self):
        at = int(self.random.random() * len(self.items))
        q, a_round, is_ack = self.items[at]
        k = sum(to == q for to, _, _ in self.items[:at])
        del self.items[at]
        yield f"deliver {q} {k}"
        if not is_ack:
            self.items.append((a_round.p, a_round, True))
            return
        a_round.acks += 1
        if a_round.acks == OFFICES - 1:
            yield from self.all_answered(a_round)

    def all_answered(self, a_round):
        if a_round.accepted:
            yield from (f"read {q} {a_round.c}" for q in range(OFFICES))
            self.rounds.remove(a_round)
        else:
            yield f"accept {a_round.p} {a_round.c} {self.random.randrange(65535)}"
            a_round.acks, a_round.accepted = 0, True
            self.send(a_round)

    def refused(self):
        p, c, a_round = self.one_of(range(OFFICES)), self.one_of(range(CELLS)), self.one_of(self.rounds)
        return self.one_of([
            f"prepare {a_round.p} {a_round.c} {a_round.b}",
            f"prepare {p} {c} {p + 1}",
            f"accept {p} {c} 65535",
            f"deliver {p} 64",
            f"read {p} 64",
            f"reads {p} {c}",
        ])

    def all_lines(self):
        yield f"new {OFFICES} {CELLS}"
        while True:
            while len(self.rounds) < ROUNDS:
                yield self.prepare()
            yield from self.deliver()
            luck = self.random.random()
            if luck < 0.013:
                yield self.refused()


def main():
    seed, count = map(int, sys.argv[1:])
    sys.stdout.writelines(line + "\n" for line in itertools.islice(Script(seed).all_lines(), count))


main()
