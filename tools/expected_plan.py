#!/usr/bin/env python3
"""Computes what the program `plan` must print, from what a controller knows who hears which requests were accepted.

It shares nothing with the monitor: it has no nodes and no journal. The stations are a list, and a trial remembers a copy of it. Each
question goes through every state of its stations, or reads the runs off their statuses, and counts the largest whole blocks by their
definition. Its output is crates/plan/stdout:

    python3 tools/expected_plan.py | diff - crates/plan/stdout
"""
from collections import namedtuple

from expected_figures import NONE, costs, figures, height, joins, runs

IN_A_ROW = 3
MOST_ENTRIES = 4

# What a line is about: which codes it takes, the two figures of stations as a window or a ring, and how a figure is shown.
Kind = namedtuple("Kind", "takes figures shown")

COSTS = Kind(takes=lambda up, down: up <= NONE and down <= NONE,
             figures=lambda stations, ring: figures(costs(), IN_A_ROW, stations, ring),
             shown=lambda figure: "none" if figure == NONE else str(figure))

RUNS = Kind(takes=lambda up, down: True, figures=runs, shown=str)


class Controller:
    """The stations that stand, those that a trial remembers, and how many sets it accepted.

    A condition that no request of the plan comes to, as a ring that is too short, is not looked at.
    """

    def __init__(self, kind):
        self.kind = kind
        self.stations = []
        self.closed = False
        self.remembered = None
        self.sets = 0

    def reply(self, verb, *arguments):
        if (verb in ("add", "close")) == self.closed:
            return "out of turn"
        return getattr(self, verb)(*arguments)

    def add(self, label, status, up, down):
        if not self.kind.takes(up, down):
            return "refused, 5"
        self.stations.append((label, status, up, down))
        return len(self.stations)

    def close(self):
        self.closed = True
        return 2 ** height(len(self.stations)) - 1

    def set(self, place, status, up, down):
        if not self.kind.takes(up, down):
            return "refused, 5"
        if self.remembered is not None:
            if self.sets == MOST_ENTRIES:
                return "refused, 11"
            self.sets += 1
        label = self.stations[place - 1][0]
        self.stations[place - 1] = (label, status, up, down)
        return height(len(self.stations))

    def open_trial(self):
        if self.remembered is not None:
            return "refused, 9"
        self.remembered = list(self.stations)
        self.sets = 0
        return 0

    def keep(self):
        if self.remembered is None:
            return "refused, 10"
        self.remembered = None
        return self.sets

    def back(self):
        if self.remembered is None:
            return "refused, 10"
        self.stations, self.remembered = self.remembered, None
        return self.sets

    def ask(self, first, last):
        if not 1 <= first <= last <= len(self.stations):
            return "refused, 6"
        return self.told(self.stations[first - 1:last], False, joins(len(self.stations), first, last))

    def ring(self):
        n = len(self.stations)
        return self.told(self.stations, True, joins(n, 1, n))

    def told(self, stations, ring, made):
        first, second = map(self.kind.shown, self.kind.figures(stations, ring))
        return f"{first}, {second}, joins {made}"


WINDOW = ("ask", 2, 11)

PLAN = [("add", "Pump Lane", "down", 3, 0),
        ("add", "Alder Brook", "down", 2, 35),
        ("add", "Long Meadow", "judged", 4, 42),
        ("add", "Kiln Yard", "judged", 1, 18),
        ("add", "Toll House", "up", 6, 9),
        ("add", "Ferry Steps", "judged", 2, 27),
        ("add", "Glebe Farm", "down", 5, 4),
        ("add", "Signal Box", "judged", 0, 61),
        ("add", "", "bypass", 7, 7),
        ("add", "Heron Weir", "judged", 3, 54),
        ("add", "North Tower", "judged", 8, NONE),
        ("add", "Upper Reservoir, Hilltop", "down", 2, 11),
        ("close",),
        WINDOW,
        ("open_trial",),
        ("set", 6, "down", 2, 27),
        ("set", 3, "down", 4, 42),
        ("open_trial",),
        ("set", 6, "judged", 2, 12),
        ("set", 8, "judged", 0, NONE + 1),
        ("set", 10, "bypass", 3, 54),
        WINDOW,
        ("back",),
        WINDOW,
        ("ring",),
        ("ask", 9, 13),
        ("keep",),
        ("open_trial",),
        ("set", 8, "down", 0, 61),
        ("keep",),
        ("back",),
        WINDOW,
        ("add", "Late Station", "judged", 1, 1)]


def words(verb, *arguments):
    if verb == "add":
        label, status, up, down = arguments
        return f'add "{label}": {status}, up {up}, down {down}'
    if verb == "set":
        place, status, up, down = arguments
        return f"set {place}: {status}, up {up}, down {down}"
    if verb == "ask":
        first, last = arguments
        return f"ask {first} to {last}"
    return "try" if verb == "open_trial" else verb


def main():
    print("A maintenance plan, played on a line of costs and on a line of runs")
    print(f"costs: failing and working, where {IN_A_ROW} neighbours down in a row fail")
    print("runs: longest and front run of a window, longest and seam run of the ring")
    print(f"{'request':<52}{'costs':<24}runs")
    on_costs, on_runs = Controller(COSTS), Controller(RUNS)
    for request in PLAN:
        print(f"{words(*request):<52}{on_costs.reply(*request):<24}{on_runs.reply(*request)}")


main()
