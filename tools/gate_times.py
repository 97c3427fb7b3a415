#!/usr/bin/env python3
"""Runs the gate and prints the processor time of each check by crate and edit: tools/gate_times.py [WORD OF rt ci ..]

It is `rt ci` itself, run here with a clock on each process that checks; what it prints goes to standard error, and the table of
docs/GATE.md to standard output. With --anew nothing is taken from earlier runs. RT_JOBS=2 and `taskset -c 0,1` make two processors of more.
"""
import collections
import contextlib
import importlib.machinery
import importlib.util
import os
import shutil
import subprocess
import sys
import threading

Check = collections.namedtuple("Check", "seconds crate what")
checks, label, alone = [], threading.local(), threading.Lock()


class Timed(subprocess.Popen):
    """A process whose processor time is read as it ends."""

    def __init__(self, words, *rest, **named):
        self.words, self.what = words, getattr(label, "text", "")
        super().__init__(words, *rest, **named)

    def _try_wait(self, flags):
        try:
            pid, status, used = os.wait4(self.pid, flags)
        except ChildProcessError:
            return self.pid, 0
        words = [str(it) for it in self.words] if isinstance(self.words, (list, tuple)) else []
        if pid == self.pid and "--crate-name" in words:
            what = self.what or ("tests" if "--test" in words else "proof")
            with alone:
                checks.append(Check(used.ru_utime + used.ru_stime, words[words.index("--crate-name") + 1], what))
        return pid, status


def kit():
    """Returns the kit's own command, as a module."""
    file = os.path.realpath(shutil.which("rt"))
    if not os.path.isfile(os.path.join(os.path.dirname(file), "rtlib.py")):
        file = "/opt/rattle/bin/rt"
    sys.path.insert(0, os.path.dirname(file))
    loader = importlib.machinery.SourceFileLoader("rt", file)
    module = importlib.util.module_from_spec(importlib.util.spec_from_loader("rt", loader))
    sys.modules["rt"] = module
    loader.exec_module(module)
    return module


def labelled(call, name):
    def run(*given, **named):
        label.text = name(*given)
        try:
            return call(*given, **named)
        finally:
            label.text = ""

    return run


def row(name, proof, seed, tests, edits, dearest):
    """Prints a row of the table; an amount that is none is left out."""
    every = sum(edits)
    seconds = lambda amount: f"{amount:.0f}" if amount else ""
    average = every / len(edits) if edits else 0
    amounts = [seconds(proof), seconds(seed), seconds(tests), str(len(edits) or ""), seconds(every), seconds(average)]
    print("| " + " | ".join([name, *amounts, dearest]) + " |")


def table():
    crates = [line.split("#")[0].split(":")[0].split()[0] for line in open("crates.txt") if line.split("#")[0].strip()]
    print("| crate | proof | once more, for its edits | tests | edits | all its edits | an edit, on average | the dearest |")
    print("|---|---|---|---|---|---|---|---|")
    kinds, of_edits, lists = ("proof", "seed", "tests"), [], []
    for crate in crates:
        of = [it for it in checks if it.crate == crate]
        times = [sum(it.seconds for it in of if it.what == what) for what in kinds]
        edits = sorted(((it.seconds, it.what[5:-5]) for it in of if it.what.startswith("edit:")), reverse=True)
        of_edits += [it for it, _ in edits]
        row(f"`{crate}`", *times, [it for it, _ in edits], f"`{edits[0][1]}` {edits[0][0]:.0f}" if edits else "")
        if edits:
            lists.append(f"- `{crate}`: " + ", ".join(f"{name} {it:.0f}" for it, name in edits))
    row("together", *[sum(it.seconds for it in checks if it.what == what) for what in kinds], of_edits, "")
    print(f"\nThe whole: {sum(it.seconds for it in checks) / 60:.0f} processor minutes.\n")
    print("\n".join(lists))


def main():
    subprocess.Popen = Timed
    rt = kit()
    rt.must_fail = labelled(rt.must_fail, lambda crate, edit, *_: f"edit:{os.path.basename(edit)}")
    rt.seeded = labelled(rt.seeded, lambda *_: "seed")
    with contextlib.redirect_stdout(sys.stderr):
        status = rt.main(["ci", *sys.argv[1:]])
    table()
    return status


if __name__ == "__main__":
    sys.exit(main())
