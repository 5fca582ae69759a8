#!/usr/bin/env python3
"""Makes three inputs of layplan: the scope paper's main case and two weeks of
a cooperative mill. The same bytes at every run; from any directory:

    python3 examples/make_weeks.py

An input is lines of numbers, each right-justified in 11 columns:

    RR SR RW            prices of a random read, a sequential read, a random write
    R U                 read limit and insert limit
    B M Q               block length, number of deliveries, number of calls
    grower weight yield                       M lines, growers never falling
    kind grower/lo weight/hi yield newgrower  Q lines, unused numbers 0

main-case.txt     Eight growers, five finds and an insert.
harvest-week.txt  The mill runs day and night: mostly inserts, finds at the
                  gate, a few corrections. Inserts ripple through every later
                  partition, so the plan has few.
payment-week.txt  The season is over: finds by member, ranges by village, a few
                  late loads. The plan has many partitions.

Beside each input NAME.txt, NAME.out is the output that is expected. That of
the main case is the paper's; the other two are the second implementation's,
and tests/programs holds the program to all three:

    second-layplan <examples/harvest-week.txt >examples/harvest-week.out

A member's number is the village's times 1,000 plus one of up to 450, so that a
range of a thousand is a village. The prices are the factory card.
"""

import os

FIND, RANGE, INSERT, DELETE, MOVE = 1, 2, 3, 4, 5
PRICES = (3, 1, 2)
BLOCKS = 64
VILLAGES = range(11, 19)


class Random:
    """splitmix64, since Python's own random numbers may change with its version."""

    def __init__(self, seed):
        self.state = seed

    def below(self, n):
        mask = (1 << 64) - 1
        self.state = (self.state + 0x9E3779B97F4A7C15) & mask
        z = self.state
        z = ((z ^ (z >> 30)) * 0xBF58476D1CE4E5B9) & mask
        z = ((z ^ (z >> 27)) * 0x94D049BB133111EB) & mask
        return (z ^ (z >> 31)) % n

    def within(self, lo, hi):
        return lo + self.below(hi - lo + 1)

    def pick(self, items):
        return items[self.below(len(items))]


def load(r, member):
    """A trailer of olives: the weighbridge shows steps of 5 kg."""
    return (member, 5 * r.within(30, 900), r.within(1400, 2400))


def members(r, count):
    numbers = {r.pick(VILLAGES) * 1000 + r.within(1, 400) for _ in range(count)}
    return sorted(numbers)


def deliveries(r, of, most):
    """One to `most` loads of each member, sorted by member."""
    return [load(r, m) for m in of for _ in range(r.within(1, most))]


def open_ends(growers, block):
    """Block ends where the grower changes."""
    starts = range(block, len(growers), block)
    return sum(growers[s - 1] != growers[s] for s in starts)


def block_length(growers):
    """The block length with the most ends open to a partition.

    No end may part equal growers, and ends fall at multiples of the block
    length only. With several loads a member most multiples fall inside a
    member's run: a length taken for its roundness can leave the planner with
    next to no end, and then one partition, whatever the week was. So the
    lengths from the least that keeps to 64 blocks to four times that are tried;
    of equal ones the shortest.
    """
    least = -(-len(growers) // BLOCKS)
    return max(range(least, 4 * least), key=lambda b: open_ends(growers, b))


def correction(r, held):
    """A load that was booked wrongly: taken out, or moved to another member."""
    member, weight, oil_yield = r.pick(held)
    if r.below(2) == 0:
        return (DELETE, member, weight, oil_yield, 0)
    return (MOVE, member, weight, oil_yield, r.pick(held)[0])


def harvest_week():
    r = Random(1)
    of = members(r, 210)
    held = deliveries(r, of, 4)
    calls = []
    while len(calls) < 900:
        # A member comes with one to three trailers; some are new this year.
        member = r.pick(of) if r.below(12) else r.pick(VILLAGES) * 1000 + r.within(401, 450)
        trailers = [load(r, member) for _ in range(r.within(1, 3))]
        calls += [(INSERT, *d, 0) for d in trailers]
        if r.below(2) == 0:
            calls.append((FIND, member, 0, 0, 0))
        if r.below(10) == 0:
            # A slip of the weighbridge: this load, weighed again. The recorder
            # knows only the set of the week's start and enters a find.
            calls.append((DELETE, *trailers[-1], 0))
            calls.append((INSERT, *load(r, member), 0))
        if r.below(8) == 0:
            calls.append(correction(r, held))
        if r.below(30) == 0:
            village = r.pick(VILLAGES) * 1000
            calls.append((RANGE, village, village + 999, 0, 0))
    return (40, 60), held, calls[:900]


def payment_week():
    r = Random(2)
    of = members(r, 260)
    held = deliveries(r, of, 6)
    calls = []
    while len(calls) < 1000:
        # The desk pays a village at a time: its total, then its members.
        village = r.pick(VILLAGES) * 1000
        calls.append((RANGE, village, village + 999, 0, 0))
        there = [m for m in of if village <= m < village + 1000]
        for _ in range(r.within(8, 16)):
            first = r.below(len(there))
            calls.append((FIND, there[first], 0, 0, 0))
            if r.below(3) == 0:
                # A family's numbers follow one another.
                last = min(first + r.within(1, 3), len(there) - 1)
                calls.append((RANGE, there[first], there[last], 0, 0))
            if r.below(16) == 0:
                calls.append(correction(r, held))
            if r.below(12) == 0:
                calls.append((INSERT, *load(r, r.pick(of)), 0))
    return (40, 150), held, calls[:1000]


def main_case():
    held = [(g, 100, 2000) for g in range(10, 90, 10)]
    calls = 5 * [(FIND, 30, 0, 0, 0)] + [(INSERT, 15, 100, 2000, 0)]
    return (100, 100), held, calls


def write(name, week, block=None):
    limits, held, calls = week
    block = block or block_length([d[0] for d in held])
    lines = [PRICES, limits, (block, len(held), len(calls)), *held, *calls]
    text = "".join("".join(f"{n:>11}" for n in line) + "\n" for line in lines)
    path = os.path.join(os.path.dirname(os.path.abspath(__file__)), name)
    with open(path, "w", encoding="ascii", newline="\n") as file:
        file.write(text)


if __name__ == "__main__":
    write("main-case.txt", main_case(), block=2)
    write("harvest-week.txt", harvest_week())
    write("payment-week.txt", payment_week())
