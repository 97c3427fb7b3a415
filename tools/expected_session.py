#!/usr/bin/env python3
"""Computes what a session is expected to answer to the text on standard input. The most bytes that a text may have can be named.

    python3 tools/expected_session.py 4096 < crates/monitor/stdin | diff - crates/monitor/stdout

It shares nothing with the monitor: it has no nodes and no journal. Records are found by the grammar written as regular expressions. The
stations are a list, a trial remembers a copy of it, and the sets of a trial are counted. A figure goes through every state of the stations
asked about; where these are too many, through groups of states, which are first held against all states on short lists. Runs are read off
the statuses, and the largest whole blocks are counted by their definition.
"""
from bisect import bisect_left
from collections import namedtuple
from itertools import product
import random
import sys

from expected_figures import NONE, costs, counts, figures, grouped, height, joins, residues, runs
from expected_stations import RECORD, STATUSES, can_go_on, fields_of, label_is_good, meaning, number

MOST_BYTES = 65_536
MOST_STATIONS = 32
MOST_ENTRIES = 32
MOST_BY_STATES = 10
MOST_DIGITS = 20
MOST_COUNT = 1_000_000_000
MODULI = range(2, 2**31)
IN_A_ROW = range(1, 5)

# What a line is about: which codes it takes, the two figures of stations as a window or as a ring, and the fewest stations of a ring.
Kind = namedtuple("Kind", "takes figures shortest_ring")


class Refused(Exception):
    """A refusal's number, and how many bytes behind the record's first one it is found."""

    def __init__(self, number, offset=0):
        super().__init__(number, offset)
        self.number = number
        self.offset = offset


def sums(semiring, k, stations, ring):
    sums_of = figures if len(stations) <= MOST_BY_STATES else grouped
    return sums_of(semiring, k, stations, ring)


def weights_kind(semiring, greatest, k):
    """Codes are members where they are at most the greatest one."""
    return Kind(takes=lambda up, down: max(up, down) <= greatest,
                figures=lambda stations, ring: sums(semiring, k, stations, ring),
                shortest_ring=k)


def kind_of(word, k, m):
    if word == "runs" and k == m == 0:
        return Kind(takes=lambda up, down: True, figures=runs, shortest_ring=1)
    if word == "counts" and k in IN_A_ROW and m == 0:
        return weights_kind(counts(), MOST_COUNT, k)
    if word == "residues" and k in IN_A_ROW and m in MODULI:
        return weights_kind(residues(m), m - 1, k)
    if word == "costs" and k in IN_A_ROW and m == 0:
        return weights_kind(costs(), NONE, k)
    raise Refused(1)


def number_column(column):
    value = number(column) if len(column) <= MOST_DIGITS else None
    if value is None:
        raise Refused(22)
    return value


def word_column(words):
    def read(column):
        if column not in words:
            raise Refused(23)
        return column.decode()
    return read


def label_column(column):
    return column


kind_column = word_column((b"runs", b"counts", b"residues", b"costs"))
status_column = word_column(STATUSES)

# The columns behind each verb.
VERBS = {"line": (kind_column, number_column, number_column),
         "add": (label_column, status_column, number_column, number_column),
         "close": (),
         "set": (number_column, status_column, number_column, number_column),
         "try": (),
         "keep": (),
         "back": (),
         "ask": (number_column, number_column),
         "ring": ()}


class Session:
    """The line's kind, the stations that stand, those that a trial remembers, and how many sets the trial accepted."""

    def __init__(self):
        self.kind = None
        self.stations = []
        self.closed = False
        self.remembered = None
        self.sets = 0

    def takes_verb(self, verb):
        if self.kind is None:
            return verb == "line"
        if not self.closed:
            return verb in ("add", "close")
        return verb not in ("line", "add", "close")

    def answer(self, row):
        """The answer to a record, without its end."""
        (_, word), *fields = [(offset, meaning(field)) for offset, field in fields_of(row)]
        verb = word.decode()
        if verb not in VERBS or len(fields) != len(VERBS[verb]):
            raise Refused(21)
        if not self.takes_verb(verb):
            raise Refused(24)
        return getattr(self, "do_" + verb)(*map(read_column, VERBS[verb], fields))

    def do_line(self, word, k, m):
        self.kind = kind_of(word, k, m)
        return done(0)

    def do_add(self, label, status, up, down):
        if len(self.stations) == MOST_STATIONS:
            raise Refused(2)
        if not label_is_good(label):
            raise Refused(4)
        if not self.kind.takes(up, down):
            raise Refused(5)
        self.stations.append((label, status, up, down))
        return done(len(self.stations))

    def do_close(self):
        if not self.stations:
            raise Refused(7)
        self.closed = True
        return done(2 ** height(len(self.stations)) - 1)

    def do_set(self, place, status, up, down):
        if not 1 <= place <= len(self.stations):
            raise Refused(6)
        if not self.kind.takes(up, down):
            raise Refused(5)
        if self.remembered is not None:
            if self.sets == MOST_ENTRIES:
                raise Refused(11)
            self.sets += 1
        label = self.stations[place - 1][0]
        self.stations[place - 1] = (label, status, up, down)
        return done(height(len(self.stations)))

    def do_try(self):
        if self.remembered is not None:
            raise Refused(9)
        self.remembered = list(self.stations)
        self.sets = 0
        return done(0)

    def do_keep(self):
        if self.remembered is None:
            raise Refused(10)
        self.remembered = None
        return done(self.sets)

    def do_back(self):
        if self.remembered is None:
            raise Refused(10)
        self.stations, self.remembered = self.remembered, None
        return done(self.sets)

    def do_ask(self, first, last):
        if not 1 <= first <= last <= len(self.stations):
            raise Refused(6)
        return self.told("ask", self.stations[first - 1:last], joins(len(self.stations), first, last))

    def do_ring(self):
        n = len(self.stations)
        if n < self.kind.shortest_ring:
            raise Refused(8)
        return self.told("ring", self.stations, joins(n, 1, n))

    def told(self, verb, stations, made):
        first, second = self.kind.figures(stations, verb == "ring")
        return f"{verb},{first},{second},{made}"


def done(value):
    return f"ok,{value}"


def read_column(read, field):
    """What a field says; where it says nothing, it is told by the field's first byte."""
    offset, content = field
    try:
        return read(content)
    except Refused as refused:
        raise Refused(refused.number, offset)


def refusal(number, record, byte):
    layer = 1 if number in (20, 25) else 2 if number == 1 or 21 <= number <= 24 else 3
    return f"no,{number},{layer},{record},{byte}"


def answers(text, limit=MOST_BYTES):
    """The answers to the records of a text, as lines without their ends."""
    if len(text) > limit:
        return [refusal(25, 1, 1)]
    session, told, at = Session(), [], 0
    while at < len(text):
        match = RECORD.match(text, at)
        try:
            if not match:
                raise Refused(20, first_impossible(text[at:]))
            told.append(session.answer(match.group(1)))
            at = match.end()
        except Refused as refused:
            byte = at + refused.offset
            told.append(refusal(refused.number, len(told) + 1, byte + 1))
            at = match.end() if match else going_on(text, byte)
    return told


def first_impossible(rest):
    """The first byte with which the text cannot be continued, or one past its end. More bytes mend nothing, so it is found by halving."""
    return bisect_left(range(len(rest)), True, key=lambda place: not can_go_on(rest[:place + 1]))


def going_on(text, byte):
    crlf = text.find(b"\r\n", byte)
    return len(text) if crlf < 0 else crlf + 2


def answer_text(text, limit=MOST_BYTES):
    return b"".join(line.encode() + b"\r\n" for line in answers(text, limit))


def random_stations(chance, codes):
    statuses = [status.decode() for status in STATUSES]
    return [("", chance.choice(statuses), chance.choice(codes), chance.choice(codes)) for _ in range(chance.randint(0, 8))]


def hold_groups_against_states():
    """The sums over groups of states are those over all states, on short lists, ordinary codes and extreme ones."""
    chance = random.Random(4180)
    for k, ring, (semiring, codes) in product(IN_A_ROW, (False, True), (
            (counts(), (0, 1, 2, 3, 5, 40_000, MOST_COUNT)),
            (residues(97), (0, 1, 2, 3, 48, 95, 96)),
            (costs(), (0, 1, 2, 7, 50, 600_000_000_000, NONE - 1, NONE)))):
        for _ in range(2):
            stations = random_stations(chance, codes)
            if grouped(semiring, k, stations, ring) != figures(semiring, k, stations, ring):
                sys.exit(f"sums over groups of states differ: {k}, {stations}, {ring}")


def main():
    hold_groups_against_states()
    limit = int(sys.argv[1]) if sys.argv[1:] else MOST_BYTES
    sys.stdout.buffer.write(answer_text(sys.stdin.buffer.read(), limit))


if __name__ == "__main__":
    main()
