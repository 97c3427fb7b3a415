#!/usr/bin/env python3
"""Computes what the program `figures` must print, going through every state of the stations one by one.

It shares nothing with the monitor: it knows no matrix and joins nothing. Its output is crates/figures/stdout:

    python3 tools/expected_figures.py | diff - crates/figures/stdout

The states of 300 stations are too many for that. The long main's figures are sums over groups of states, which are first held against
the sums over all states of short lists; the joins of its tree are counted among all nodes, by the definition of a largest whole block.

With --stretches it prints the tables that the tests in crates/cases/src/stretches.rt hold the monitor against, and with --trees the
nodes and joins that those in crates/cases/src/trees.rt do.
"""
from itertools import count, product
import sys

NONE = 1_000_000_000_001


def counts():
    top = 1_000_000_000
    return dict(zero=0, one=1, sum=lambda x, y: min(x + y, top), times=lambda x, y: min(x * y, top))


def residues(m):
    return dict(zero=0, one=1, sum=lambda x, y: (x + y) % m, times=lambda x, y: x * y % m)


def costs():
    return dict(zero=NONE, one=0, sum=min, times=lambda x, y: NONE if NONE in (x, y) else min(x + y, 1_000_000_000_000))


def first_decides():
    return dict(zero=0, one=2, sum=max, times=lambda x, y: 0 if 0 in (x, y) else y if x == 2 else x)


def weights(s, station):
    _, status, up, down = station
    return {"judged": (up, down), "down": (s["zero"], down), "up": (up, s["zero"]), "bypass": (s["one"], s["zero"])}[status]


def longest_run(state, ring):
    """The longest run of True; around the ring a station counts once."""
    n = len(state)
    best = 0
    for start in range(n):
        length = 0
        while length < n and (ring or start + length < n) and state[(start + length) % n]:
            length += 1
        best = max(best, length)
    return best


def figures(s, k, stations, ring):
    """The sums over the failing states and over the others."""
    failing = working = s["zero"]
    for state in product([False, True], repeat=len(stations)):
        weight = s["one"]
        for down, station in zip(state, stations):
            weight = s["times"](weight, weights(s, station)[down])
        if longest_run(state, ring) >= k:
            failing = s["sum"](failing, weight)
        else:
            working = s["sum"](working, weight)
    return failing, working


def runs(stations, ring):
    """Longest and front run of a window; longest run around the ring and the run across the seam."""
    down = [status == "down" for _, status, _, _ in stations]
    n = len(down)
    front = next((i for i in range(n) if not down[i]), n)
    back = next((i for i in range(n) if not down[n - 1 - i]), n)
    if not ring:
        return longest_run(down, False), front
    return longest_run(down, True), n if front == n else back + front


def grouped(s, k, stations, ring):
    """The same sums as `figures`, over groups of states that no further station can tell apart.

    A group has the states with the same run at the front and the same run at the end, each up to k, which are both the whole list while
    all are down (whole), and which fail or do not (failed).
    """
    groups = {(0, 0, True, False): s["one"]}
    for station in stations:
        up, down = weights(s, station)
        longer = {}
        for (front, end, whole, failed), weight in groups.items():
            run = min(end + 1, k)
            with_up = (front, 0, False, failed)
            with_down = (run if whole else front, run, whole, failed or run == k)
            for group, factor in (with_up, up), (with_down, down):
                longer[group] = s["sum"](longer.get(group, s["zero"]), s["times"](weight, factor))
        groups = longer
    failing = working = s["zero"]
    for (front, end, whole, failed), weight in groups.items():
        if failed or ring and not whole and front + end >= k:
            failing = s["sum"](failing, weight)
        else:
            working = s["sum"](working, weight)
    return failing, working


def check_grouped():
    """The sums over groups of states are those over all states."""
    for k, n in product((1, 2, 3, 4), range(len(MIXED))):
        for s in counts(), residues(97), costs(), first_decides():
            for stations in MIXED[:n], MIXED[len(MIXED) - n:], MIXED[6:] + MIXED[:n], [judged(1, 1 + place % 2) for place in range(n)]:
                for ring in False, True:
                    assert grouped(s, k, stations, ring) == figures(s, k, stations, ring), (k, stations, ring)


def height(n):
    """The least h with 2^h at least n."""
    return next(h for h in count() if 2 ** h >= n)


def joins(n, first, last):
    """How many largest whole blocks the window has, less one: of all blocks those in the window that lie in no greater one in it."""
    h = height(n)

    def inside(j, b):
        """Whether block b, from 0, of 2^j leaves is one of the tree's and lies in the window."""
        return j <= h and first <= b * 2 ** j + 1 and (b + 1) * 2 ** j <= last

    blocks = [(j, b) for j in range(h + 1) for b in range(2 ** (h - j)) if inside(j, b) and not inside(j + 1, b // 2)]
    places = sorted(place for j, b in blocks for place in range(b * 2 ** j + 1, (b + 1) * 2 ** j + 1))
    assert places == list(range(first, last + 1)), (n, first, last)
    return len(blocks) - 1


def both(name, calls, n, shortest):
    print(name)
    answer("window", calls(False), joins(n, 1, n))
    if n < shortest:
        print("  ring: refused, 8")
    else:
        answer("ring", calls(True), joins(n, 1, n))


def answer(name, figures, joins):
    first, second = figures
    print(f"  {name}: {first}, {second}, {joins}")


def weights_row(name, s, k, stations):
    both(name, lambda ring: figures(s, k, stations, ring), len(stations), k)


def ring_main(stations):
    for place, (label, status, up, down) in enumerate(stations, 1):
        print(f"{place:>2} {label}: {status}, up {up}, down {down}")
    print(f"cheapest break of places 2 to 9: {figures(costs(), 4, stations[1:9], False)[0]}")
    print(f"cheapest break of the ring: {figures(costs(), 4, stations, True)[0]}")
    print(f"longest run down in places 2 to 9: {runs(stations[1:9], False)[0]}")
    print(f"longest run down on the ring: {runs(stations, True)[0]}")


MAIN = [("Weir Lane", "down", 0, 0), ("Mill Race", "judged", 0, 35), ("Old Quarry", "judged", 0, 42), ("Chapel Hill", "judged", 0, 18),
        ("Market Cross", "down", 0, 0), ("Tannery", "judged", 0, 27), ("Station Road", "down", 0, 0), ("Bell Foundry", "judged", 0, 61),
        ("Canal Wharf", "bypass", 0, 0), ("East Gate", "judged", 0, 54), ("Reservoir", "down", 0, 0), ("Hilltop", "down", 0, 0)]


def judged(up, down):
    return ("", "judged", up, down)


# Each status, small codes, and runs at both ends.
MIXED = [("", "down", 2, 1), ("", "judged", 3, 5), ("", "judged", 4, 2), ("", "bypass", 6, 6), ("", "judged", 1, 3), ("", "up", 5, 4),
         ("", "judged", 2, 6), ("", "judged", 6, 1), ("", "down", 3, 2)]


def stretches():
    """For each k the window's and the ring's figures of the mixed stations, and for each stretch of statuses its runs."""
    for name, s in ("counts", counts()), ("residues by 97", residues(97)), ("costs", costs()):
        print(name)
        for k in 1, 2, 3, 4:
            print(f"    ({k}, {figures(s, k, MIXED, False)}, {figures(s, k, MIXED, True)}),")
    print("first decides, k 2, two stations in both orders")
    sharp, mild = judged(2, 3), judged(2, 1)
    for pair in [sharp, mild], [mild, sharp]:
        print(f"    {figures(first_decides(), 2, pair, False)}, {figures(first_decides(), 2, pair, True)}")
    print("runs")
    for text in "d", "u", "dd", "ud", "du", "ddd", "dud", "uddud", "dduddd", "udddu", "ddddd":
        line = [("", "down" if c == "d" else "up", 0, 0) for c in text]
        print(f'    (b"{text}", {runs(line, False)}, {runs(line, True)}),')


# Of the long main: its windows, and what stands at a place after the change.
WINDOWS = [(1, 1), (2, 299), (25, 122), (57, 203), (128, 256), (129, 256)]
CHANGES = {28: dict(status="down"), 121: dict(status="up"), 200: dict(down=1), 299: dict(status="down"), 300: dict(status="down")}


def long_stations(changes):
    stations = []
    for place in range(1, 301):
        status = "down" if place // 3 % 8 == 0 else "up" if place % 13 == 0 else "bypass" if place % 17 == 0 else "judged"
        change = changes.get(place, {})
        stations.append(("", change.get("status", status), place % 5 + 1, change.get("down", place * 37 % 90 + 10)))
    return stations


def beside(name, figures_of, stations, ring, tree_joins):
    """The tree's figures and the plain ones are the same sums. Joined one by one, each station is a join, the first to the empty element."""
    first, second = figures_of(stations, ring)
    print(f"  {name}: tree: {first}, {second}, joins {tree_joins}; plain: {first}, {second}, joins {len(stations)}")


def windows_and_whole(figures_of, stations):
    n = len(stations)
    for first, last in WINDOWS:
        beside(f"places {first} to {last}", figures_of, stations[first - 1:last], False, joins(n, first, last))
    beside("all places", figures_of, stations, False, joins(n, 1, n))
    beside("ring", figures_of, stations, True, joins(n, 1, n))


def long_main():
    print("Long main of 300 stations, broken by 4 neighbours down in a row")
    for name, s in ("costs", costs()), ("residues by 1000000007", residues(1_000_000_007)), ("runs", None):
        def figures_of(stations, ring):
            return grouped(s, 4, stations, ring) if s else runs(stations, ring)

        print(f"{name}: filled, joins {2 ** height(300) - 1}")
        windows_and_whole(figures_of, long_stations({}))
        for place in CHANGES:
            print(f"  place {place} changed, joins {height(300)}")
        windows_and_whole(figures_of, long_stations(CHANGES))


LONG_WINDOWS = [(1, 1), (4096, 4096), (2048, 2049), (1, 2048), (1, 4095), (2, 4096), (1366, 2731), (2, 4095), (1, 4096)]


def node_cells(line):
    """What each node of a line of runs holds: of the stations under it whether all are down, front, back and longest run."""
    n, h = len(line), height(len(line))
    cells = []
    for i in range(1, 2 ** (h + 1)):
        size = 2 ** (h - i.bit_length() + 1)
        under = line[i * size - 2 ** h:(i + 1) * size - 2 ** h]
        longest, front = runs(under, False)
        cells.append((front == len(under), front, runs(under[::-1], False)[1], longest))
    return cells


def trees():
    """The nodes of some lines, d for down and u for up; the joins of each window of a line of 5, and of some of a line of 4096."""
    for text in "d", "ud", "dud", "ddud", "dddud":
        line = [("", "down" if c == "d" else "up", 0, 0) for c in text]
        cells = ", ".join(f"({str(whole).lower()}, {a}, {b}, {c})" for whole, a, b, c in node_cells(line))
        n = len(line)
        print(f'    (b"{text}", {2 ** height(n) - 1}, {height(n)}, {joins(n, 1, n)}, {runs(line, False)}, &[{cells}]),')
    for n, windows in (5, [(a, b) for a in range(1, 6) for b in range(a, 6)]), (4096, LONG_WINDOWS):
        print(f"{n} stations, filled in {2 ** height(n) - 1} joins, a place written in {height(n)}")
        for first, last in windows:
            print(f"    ({first}, {last}, {joins(n, first, last)}),")


def main():
    check_grouped()
    print("Ring main, broken by 4 neighbours down in a row")
    ring_main(MAIN)
    print("The same with place 11 marked up")
    ring_main(MAIN[:10] + [("Reservoir", "up", 0, 0)] + MAIN[11:])
    long_main()
    print("Example rows: failing, working and joins, or longest run, front run and joins")
    for k, n in (2, 1), (1, 1), (2, 4), (3, 5), (3, 2):
        weights_row(f"counts, k {k}, n {n}, each 1 and 1", counts(), k, [judged(1, 1)] * n)
    print("counts, k 3, places 2 to 4 of 5, each 1 and 1")
    answer("window", figures(counts(), 3, ([judged(1, 1)] * 5)[1:4], False), joins(5, 2, 4))
    weights_row("counts, k 1, n 2, each 1 and 1000000000", counts(), 1, [judged(1, 1_000_000_000)] * 2)
    weights_row("residues by 7, k 2, n 4, each 1 and 1", residues(7), 2, [judged(1, 1)] * 4)
    four = [judged(0, down) for down in (2, 9, 4, 1)]
    weights_row("costs, k 2, n 4, up 0, down 2, 9, 4, 1", costs(), 2, four)
    weights_row("costs, k 2, the same with place 1 up", costs(), 2, [("", "up", 0, 2)] + four[1:])
    line = [("", status, 0, 0) for status in ("down", "down", "up", "down")]
    both("runs, n 4, down, down, up, down", lambda ring: runs(line, ring), 4, 1)


if __name__ == "__main__":
    if sys.argv[1:] == ["--stretches"]:
        stretches()
    elif sys.argv[1:] == ["--trees"]:
        trees()
    else:
        main()
