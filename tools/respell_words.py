#!/usr/bin/env python3
"""Respells this repository's own definitions and lemmas as today's Rattle has them, once, after the kit's port.py.

usage: python3 tools/respell_words.py [TOP]      (TOP: the top of a checkout; this one by default)

Types and facts are in upper camel case, definitions and fields in snake case; in a lemma's name a dash stays only between two things
that its statement names, and a fact keeps its capital. It goes by whole words: in .rt and .antt files it respells each word that is in the
tables below, but of WORDS none that is projected from a bracket, and in README.md and docs/, but for PORT*.md, those between backticks. No name of a function of src/, and no string of
src/, has such a word. It stops where a new name stood there before, but for those in FUNCTIONS."""
import os
import re
import sys

FIELDS = {
    "at-end": "at_end",
    "before-product": "before_product",
    "before-sum": "before_sum",
    "cell-back": "cell_back",
    "empty-fit": "empty_fit",
    "join-fit": "join_fit",
    "product-assoc": "product_assoc",
    "product-in": "product_in",
    "product-out": "product_out",
    "reduced-in": "reduced_in",
    "single-fit": "single_fit",
    "sum-assoc": "sum_assoc",
    "sum-in": "sum_in",
    "sum-out": "sum_out",
}

WORDS = {
    "Each-state-once": "EachStateOnce",
    "Fails-in-a-row": "FailsInARow",
    "Greatest-at": "GreatestAt",
    "In-a-row": "InARow",
    "Last-run": "LastRun",
    "Rear-on": "RearOn",
    "Ring-at": "RingAt",
    "Ring-exactly": "RingExactly",
    "Ring-fails-around": "RingFailsAround",
    "Ring-says": "RingSays",
    "Seam-run-once": "SeamRunOnce",
    "Whole-ring-down": "WholeRingDown",
    "Window-at": "WindowAt",
    "Window-exactly": "WindowExactly",
    "Window-says": "WindowSays",
    "absorb-left": "absorb_left",
    "absorb-right": "absorb_right",
    "across-in": "across_in",
    "after-product": "after_product",
    "after-sum": "after_sum",
    "all-or-not": "all_or_not",
    "all-taken": "takes_all-runs",
    "and-swap": "and_swap",
    "and-true": "and_true",
    "at-table-used": "at-table_used",
    "below-greatest": "below_greatest",
    "both-costs": "both_costs",
    "chain-fit": "Fit-chain",
    "choice-in": "choice_in",
    "count-limit": "count_limit",
    "delta-in": "delta_in",
    "down-as": "down_as",
    "down-bound": "down_bound",
    "down-edge": "down_edge",
    "down-front": "down_front",
    "down-high": "down_high",
    "down-in": "down_in",
    "down-low": "down_low",
    "down-weight": "down_weight",
    "each-state-once": "each_state_once",
    "ends-apart": "ends_apart",
    "entry-member": "entry_member",
    "failing-of": "failing_of",
    "fails-in-a-row": "fails_in_a_row",
    "filled-all": "filled_all",
    "first-assoc": "first_assoc",
    "first-decides": "first_decides",
    "fit-table": "Fit-table",
    "fold-all": "fold_all",
    "from-cong": "from_cong",
    "from-counting": "from_counting",
    "from-facts": "from_facts",
    "from-left": "from_left",
    "from-right": "from_right",
    "from-same": "from_same",
    "front-down": "front_down",
    "front-on": "front_on",
    "front-stays": "front_stays",
    "front-within": "front_within",
    "full-in": "full_in",
    "full-paths": "full_paths",
    "greatest-at": "greatest_at",
    "greatest-below": "greatest_below",
    "greatest-first": "greatest_first",
    "greatest-within": "greatest_within",
    "guarded-is": "guarded_is",
    "if-so": "if_so",
    "if-so-in": "if_so_in",
    "is-longest": "is_longest",
    "is-summary": "is_summary",
    "is-table": "is_table",
    "joined-all": "joined_all",
    "joined-assoc": "joined_assoc",
    "joined-facts": "joined_facts",
    "joined-fit": "Fit-joined",
    "joined-right": "joined_right",
    "joined-ring": "joined_ring",
    "joined-runs": "joined_runs",
    "joined-unit-left": "joined_unit_left",
    "joined-unit-right": "joined_unit_right",
    "joined-window": "joined_window",
    "kept-sum": "kept_sum",
    "label-legal": "label_legal",
    "label-printable": "label_printable",
    "label-put": "label_put",
    "label-refusal": "label_refusal",
    "label-shorter": "label_shorter",
    "label-whole": "label_whole",
    "label-zeros": "label_zeros",
    "labelled-all": "labelled_all",
    "labelled-more": "labelled_more",
    "labelled-stop": "labelled_stop",
    "last-run": "last_run",
    "last-run-is": "last_run_is",
    "last-run-peak": "last_run-peak",
    "led-late": "led_late",
    "led-tells": "led_tells",
    "left-is-right": "left_is_right",
    "long-end": "long_end",
    "longest-assoc": "longest_assoc",
    "longest-of": "longest_of",
    "longest-within": "longest_within",
    "marked-down": "marked_down",
    "marked-four": "marked_four",
    "matrix-of": "matrix_of",
    "max-swap": "max_swap",
    "meant-ring": "meant_ring",
    "meant-window": "meant_window",
    "modulus-refusal": "modulus_refusal",
    "no-summary": "no_summary",
    "none-empty": "none_empty",
    "not-over": "not_over",
    "not-summary-if": "not_summary_if",
    "of-codes": "of_codes",
    "of-status": "of_status",
    "on-members": "on_members",
    "once-left": "once_left",
    "once-right": "once_right",
    "over-in": "over_in",
    "path-in": "path_in",
    "peak-is": "peak_is",
    "pick-from": "pick_from",
    "plus-nothing": "plus_nothing",
    "product-of": "product_of",
    "rear-all": "rear_all",
    "rear-cases": "rear_cases",
    "rear-on": "rear_on",
    "rear-reaches": "rear_reaches",
    "rear-stays": "rear_stays",
    "rear-within": "rear_within",
    "reduced-lawful": "reduced_lawful",
    "right-fit": "right_fit",
    "right-is-chain": "right_is_chain",
    "ring-at": "ring_at",
    "ring-exactly": "ring_exactly",
    "ring-failing": "ring_failing",
    "ring-failing-of": "ring_failing_of",
    "ring-fails": "ring_fails",
    "ring-fails-around": "ring_fails_around",
    "ring-is": "ring_is",
    "ring-longest": "ring_longest",
    "ring-refusal": "ring_refusal",
    "ring-sums": "ring_sums",
    "ring-told": "ring_told",
    "ring-working": "ring_working",
    "ring-working-of": "ring_working_of",
    "rowed-all": "rowed_all",
    "rowed-more": "rowed_more",
    "rowed-none": "rowed_none",
    "runs-assoc": "runs_assoc",
    "runs-kind": "runs_kind",
    "runs-lawful": "runs_lawful",
    "runs-left": "runs_left",
    "runs-meaning": "runs_meaning",
    "runs-meant": "runs_meant",
    "runs-right": "runs_right",
    "same-state": "same_state",
    "seam-is": "seam_is",
    "seam-run": "seam_run",
    "seam-seen": "seam_seen",
    "seen-over": "seen_over",
    "seen-within": "seen_within",
    "short-end": "short_end",
    "states-length": "length-states",
    "station-fit": "Fit-station",
    "station-matrix": "station_matrix",
    "station-with": "station_with",
    "status-word": "status_word",
    "stretch-is": "stretch_is",
    "sum-member": "sum_member",
    "sum-of-states": "sum_of_states",
    "sum-over-all": "sum_over_all",
    "sum-over-append": "sum_over-append",
    "sum-over-below": "sum_over_below",
    "sum-over-cong": "sum_over_cong",
    "sum-over-cons": "sum_over-cons",
    "sum-over-in": "sum_over_in",
    "sum-over-map": "sum_over-map",
    "sum-over-miss": "sum_over_miss",
    "sum-over-more": "sum_over_more",
    "sum-over-pick": "sum_over_pick",
    "sum-over-sum": "sum_over-sum",
    "sum-over-swap": "sum_over_swap",
    "sum-over-times": "sum_over_times",
    "sum-over-zero": "sum_over-zero",
    "summary-if": "summary_if",
    "summary-is": "summary_is",
    "table-cong": "table_cong",
    "taken-stop": "taken_stop",
    "threshold-refusal": "threshold_refusal",
    "times-append": "times_in-append",
    "times-assoc": "times_assoc",
    "times-behind": "times_in_behind",
    "times-if-so": "times_if_so",
    "times-in": "times_in",
    "times-one-left": "times_one_left",
    "times-one-right": "times_one_right",
    "times-sum-over": "times_sum_over",
    "told-as": "told_as",
    "turn-added": "turn_added",
    "turn-out": "turn_out",
    "turn-zero": "turn_zero",
    "turned-at": "turned_at",
    "turned-length": "turned_length",
    "unit-fit": "Fit-unit",
    "unit-matrix": "unit_matrix",
    "unused-part": "unused_part",
    "up-as": "up_as",
    "up-bound": "up_bound",
    "up-high": "up_high",
    "up-low": "up_low",
    "up-not-down": "up_not_down",
    "up-weight": "up_weight",
    "used-facts": "used_facts",
    "used-part": "used_part",
    "used-test": "used_test",
    "weight-in": "weight_in",
    "weight-of": "weight_of",
    "weight-right": "weight_right",
    "weight-right-in": "weight_right_in",
    "weights-in": "weights_in",
    "weights-kind": "weights_kind",
    "weights-lawful": "weights_lawful",
    "weights-meaning": "weights_meaning",
    "weights-meant": "weights_meant",
    "whole-ring-down": "whole_ring_down",
    "window-at": "window_at",
    "window-exactly": "window_exactly",
    "window-refusal": "window_refusal",
    "window-sums": "window_sums",
    "window-told": "window_told",
    "within-longest": "within_longest",
    "working-of": "working_of",
    "x-in": "x_in",
    "zero-times": "zero_times",
    "at_table": "at-table",
}

NAME = re.compile(r"(?<![\w'₂-])(\.?)([A-Za-z_][\w'₂]*(?:-[\w'₂]+)*)(?![\w'₂]|-[\w])")
# new names that a function or module of src/ has too: a clause cannot call it, so nothing falls together
FUNCTIONS = {"seam_run", "last_run", "up_weight", "down_weight", "ring_failing", "ring_working", "first_decides"}


def texts(top):
    for folder, dirs, files in os.walk(os.path.join(top, "crates")):
        dirs[:] = sorted(d for d in dirs if d not in ("out", "target"))
        yield from (os.path.join(folder, f) for f in sorted(files) if f.endswith((".rt", ".antt")))


def pages(top):
    yield os.path.join(top, "README.md")
    for folder, _, files in os.walk(os.path.join(top, "docs")):
        yield from (os.path.join(folder, f) for f in sorted(files) if f.endswith(".md") and not f.startswith("PORT"))


def respelled(m):
    dot, name = m[1], m[2]
    if name in FIELDS:
        return dot + FIELDS[name]
    if dot or name not in WORDS:
        return m[0]
    return WORDS[name]


def read(path):
    with open(path, encoding="utf-8") as f:
        return f.read()


def write(path, old, new):
    if new != old:
        with open(path, "w", encoding="utf-8") as f:
            f.write(new)
        return 1
    return 0


def main(top):
    olds = {p: read(p) for p in texts(top)}
    stood = {m[2] for t in olds.values() for m in NAME.finditer(t)}
    together = sorted((set(FIELDS.values()) | set(WORDS.values())) & stood - FUNCTIONS)
    if together:
        sys.exit("these new names stand there already: " + " ".join(together))
    n = sum(write(p, t, NAME.sub(respelled, t)) for p, t in olds.items())
    for p in pages(top):
        t = read(p)
        n += write(p, t, re.sub(r"`[^`\n]*`", lambda q: NAME.sub(respelled, q[0]), t))
    print(f"{n} files respelled")


main(sys.argv[1] if len(sys.argv) > 1 else os.path.dirname(os.path.dirname(os.path.abspath(__file__))))
