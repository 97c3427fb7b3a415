#!/usr/bin/env python3
"""Prints crates/session_cases/src/rows.rt: sessions that were written by hand, each with the answers that expected_session.py computes.

    python3 tools/sessions.py | diff - crates/session_cases/src/rows.rt

It stops where a number that a session can give comes in none of them.
"""
import re
import sys

from expected_session import MOST_BYTES, answer_text, hold_groups_against_states

# All but those of more stations than a session has room for (3), of a journal that was changed (12), and of a text that is too long (25).
NUMBERS = {1, 2, 4, 5, 6, 7, 8, 9, 10, 11, 20, 21, 22, 23, 24}

MOST_BYTES_OF_PROGRAM = 4_096

RUNS = b"line,runs,0,0\r\n"

# A standing line of runs, as short as one can be.
ONE = (RUNS +
       b"add,A,down,1,1\r\n"
       b"close\r\n")

# Stations of every status, for a line of weights.
MIXED = (b"add,Weir Lane,down,3,2\r\n"
         b"add,Mill Race,judged,2,5\r\n"
         b"add,Quarry,judged,4,1\r\n"
         b"add,Wharf,bypass,6,6\r\n"
         b"add,East Gate,up,5,4\r\n"
         b"add,Hilltop,judged,1,3\r\n"
         b"close\r\n")

# Windows of a line of six, and its ring.
QUESTIONS = (b"ask,1,6\r\n"
             b"ask,2,5\r\n"
             b"ask,5,5\r\n"
             b"ring\r\n")

# One station set twice, and taken back.
TAKEN_BACK = (b"try\r\n"
              b"set,4,judged,6,2\r\n"
              b"set,4,down,6,4\r\n"
              b"ask,1,6\r\n"
              b"ring\r\n"
              b"back\r\n"
              b"ask,1,6\r\n"
              b"ring\r\n")

# A set outside a trial, and a trial that is kept.
KEPT = (b"set,1,up,2,3\r\n"
        b"ring\r\n"
        b"try\r\n"
        b"set,3,down,0,4\r\n"
        b"set,5,bypass,0,1\r\n"
        b"ask,1,5\r\n"
        b"keep\r\n"
        b"ask,1,5\r\n"
        b"ring\r\n")


def stations(n, record):
    """So many add records: every third station is down, of the others every fifth is up, and of these every seventh is passed by."""
    def status(place):
        return b"down" if place % 3 == 0 else b"up" if place % 5 == 0 else b"bypass" if place % 7 == 0 else b"judged"
    return b"".join(record % (place, status(place), place % 4, 1 + place % 6) for place in range(1, n + 1))


# Each has a name, what it shows, and its text.
SESSIONS = [
    ("runs",
     "every call on a line of runs, whose codes may be any numbers",
     RUNS +
     b"add,A,down,0,18446744073709551615\r\n"
     b"add,B,down,18446744073709551615,0\r\n"
     b"add,C,judged,0,0\r\n"
     b"add,D,bypass,0,0\r\n"
     b"add,E,down,0,0\r\n"
     b"add,F,down,0,0\r\n"
     b"close\r\n" + QUESTIONS + TAKEN_BACK + KEPT),

    ("counts", "every call on a line of counts", b"line,counts,2,0\r\n" + MIXED + QUESTIONS + TAKEN_BACK + KEPT),

    ("residues", "every call on a line of residues", b"line,residues,3,97\r\n" + MIXED + QUESTIONS + TAKEN_BACK + KEPT),

    ("costs", "every call on a line of costs", b"line,costs,2,0\r\n" + MIXED + QUESTIONS + TAKEN_BACK + KEPT),

    ("an empty text", "it has no record, so no answer", b""),

    ("a record of one empty field", "no verb is empty", b"\r\n" + ONE + b"\r\nring\r\n\r\n"),

    ("the last record has no end", "it is a record all the same", ONE + b"ring"),

    ("the text ends inside a number", "the number is what there is of it", ONE + b"ask,1,1\r\nask,1,12\r\nask,1,1"),

    ("the text ends behind a comma", "an empty field, told by the byte that it would begin at, one past the end", ONE + b"ask,1,"),

    ("the text ends between quotes", "the first impossible byte is one past the end", ONE + b"ask,1,\"1\r\n"),

    ("the text ends behind a return", "the first impossible byte is one past the end", ONE + b"ring\r"),

    ("records before a line", "add and ring (24), a wrong number of columns before that (21), and that before a wrong column (22, 23)",
     b"add,A,down,1,1\r\n"
     b"ring\r\n"
     b"close\r\n"
     b"back\r\n"
     b"ask,1\r\n"
     b"close,\r\n"
     b"ask,01,x\r\n"
     b"add,A,off,x,1\r\n" + ONE + b"ask,1,1\r\n"),

    ("records before a close", "set, try, keep, back, ask, ring and a second line",
     RUNS +
     b"set,1,up,1,1\r\n"
     b"add,A,down,1,1\r\n"
     b"set,1,up,1,1\r\n"
     b"try\r\n"
     b"keep\r\n"
     b"back\r\n"
     b"ask,1,1\r\n"
     b"ring\r\n" + RUNS +
     b"line,wrong,x,y\r\n"
     b"close\r\n"
     b"ring\r\n"),

    ("records behind a close", "add, a second close and a second line, even where their columns are wrong",
     ONE +
     b"add,B,down,1,1\r\n"
     b"close\r\n"
     b"add,B,off,x,1\r\n" + RUNS +
     b"line,counts,9,0\r\n"
     b"ask,1,1\r\n"),

    ("lines out of range", "a refused line is none, so a later one is accepted",
     b"line,runs,1,0\r\n"
     b"line,runs,0,1\r\n"
     b"line,counts,0,0\r\n"
     b"line,counts,5,0\r\n"
     b"line,counts,1,2\r\n"
     b"line,costs,0,0\r\n"
     b"line,costs,4,1\r\n"
     b"line,residues,5,7\r\n"
     b"line,residues,4,0\r\n"
     b"line,residues,4,1\r\n"
     b"line,residues,4,2147483648\r\n"
     b"add,A,up,1,1\r\n"
     b"line,residues,4,2147483647\r\n"
     b"add,A,judged,2147483646,2147483646\r\n"
     b"add,B,judged,2147483647,0\r\n"
     b"close\r\n"
     b"ask,1,1\r\n"
     b"ring\r\n"),

    ("columns from the left", "the first bad column of a record is told, before numbers out of range (1), a bad label (4) and a code (5)",
     b"line,Runs,01,x\r\n"
     b"line,runs,01,x\r\n"
     b"line,counts,5,x\r\n"
     b"line,residues,2,2\r\n"
     b"add,123456789012345678901234 ,off,x,1\r\n"
     b"add,123456789012345678901234 ,up,x,y\r\n"
     b"add,123456789012345678901234 ,up,9,y\r\n"
     b"add,123456789012345678901234 ,up,9,9\r\n"
     b"add,123456789012345678901234,up,9,9\r\n"
     b"add,123456789012345678901234,judged,1,1\r\n"
     b"close\r\n"
     b"set,x,off,1,1\r\n"
     b"set,0,off,x,1\r\n"
     b"set,0,up,x,9\r\n"
     b"set,0,up,9,\"x\"\r\n"
     b"ask,x,y\r\n"
     b"ask,2,y\r\n"
     b"ring\r\n"),

    ("empty fields", "an empty column is told by the byte behind it, and an empty label is a label",
     b"line,,,\r\n"
     b"line,runs,,\r\n" + RUNS +
     b"add,,,,\r\n"
     b"add,,down,,1\r\n"
     b"add,\"\",down,1,\"\"\r\n"
     b"add,,down,1,1\r\n"
     b",\r\n"
     b"close\r\n"
     b"ask,1,\r\n"
     b"ask,,1\r\n"
     b"set,,down,1,1\r\n"
     b"ring\r\n"),

    ("numbers", "the greatest number, one more, and what is no number",
     ONE +
     b"set,1,up,18446744073709551615,0\r\n"
     b"set,1,up,18446744073709551616,0\r\n"
     b"set,1,up,99999999999999999999,0\r\n"
     b"set,1,up,0,184467440737095516150\r\n"
     b"ask,01,1\r\n"
     b"ask,1,+1\r\n"
     b"ask, 1,1\r\n"
     b"ask,1 ,1\r\n"
     b"ask,1,-1\r\n"
     b"ask,1,00\r\n"
     b"ask,1,1.0\r\n"
     b"ask,1,18446744073709551615\r\n"
     b"ask,1,1\r\n"),

    ("verbs", "words and numbers of columns that no record has",
     b"LINE,runs,0,0\r\n"
     b" line,runs,0,0\r\n"
     b"line,runs,0\r\n"
     b"line,runs,0,0,0\r\n" + ONE +
     b"ring,\r\n"
     b"rin\r\n"
     b"ring \r\n"
     b"\"ring\"\"\"\r\n"
     b"ask,1,1,1\r\n"
     b"set,1,up,1\r\n"
     b"open\r\n"
     b"ring\r\n"),

    ("quoted fields", "verbs, words, numbers and labels may be quoted",
     b"\"line\",\"counts\",\"1\",\"0\"\r\n"
     b"\"add\",\"Mill, north\",\"judged\",\"9\",\"1\"\r\n"
     b"add,\"The \"\"old\"\" mill\",judged,\"2\",3\r\n"
     b"add,\"\"\"\"\"\"\"\"\"1234567890123456789\"\"\",up,1,1\r\n"
     b"add,\"\"\"\"\"\"\"\"\"1234567890123456789\"\" \",up,1,1\r\n"
     b"add,\"two\r\nlines\",up,1,1\r\n"
     b"add,B,\"off\",1,1\r\n"
     b"add,B,up,\"01\",1\r\n"
     b"\"close\"\r\n"
     b"\"ask\",\"1\",\"3\"\r\n"
     b"\"ring\"\r\n"),

    ("labels", "24 bytes are a label and 25 are none; only what the grammar has between quotes can be outside of 20 to 7E",
     RUNS +
     b"add,ABCDEFGHIJKLMNOPQRSTUVWX,up,1,1\r\n"
     b"add,ABCDEFGHIJKLMNOPQRSTUVWXY,up,1,1\r\n"
     b"add, ~,up,1,1\r\n"
     b"add,\"\r\",up,1,1\r\n"
     b"add,\"\n\",up,1,1\r\n"
     b"add,\"ABCDEFGHIJKLMNOPQRSTUVWXYZABCDEFGHIJKLMNOPQRSTUVWXYZ\r\n\",up,1,1\r\n"
     b"close\r\n"),

    ("damaged records", "a quote in a plain field, text behind a quote, a lone return, a lone line feed, bytes that no field has",
     RUNS +
     b"add,a\"b,up,1,1\r\n"
     b"add,\"a\"b,up,1,1\r\n"
     b"add,\"a\" ,up,1,1\r\n"
     b"add,A,up,1,1\rclose\r\n"
     b"add,A,up,1,1\nclose\r\n"
     b"add,A,up,1,1\r\r\n"
     b"add,\x80,up,1,1\r\n"
     b"add,\"\x7f\",up,1,1\r\n"
     b"a\tb\r\n"
     b"\"\r\n"
     b"\x00\r\n"
     b"add,A,up,1,1\r\n"
     b"close\r\n"),

    ("reading goes on", "behind the next CRLF from the impossible byte on, also one between quotes, and records count on",
     RUNS +
     b"add,\"a\r\nb\x80c\r\n"
     b"add,B,up,1,1\r\n"
     b"a\"\r\n"
     b"\"a\"\"\r\n"
     b"b\"c\r\n"
     b"close\r\n"
     b"\"x\"y \"\r\n"
     b"ring\r\n"
     b"foo\r\n"),

    ("the rest is damaged", "with no CRLF behind the impossible byte the text is over",
     ONE + b"ask,1\x801,1\nring"),

    ("an open quote", "all that is left stands between quotes, so the text breaks off one past its end",
     RUNS +
     b"add,\"A,up,1,1\r\n"
     b"close\r\n"),

    ("a close that is refused", "no station stands (7), and the line is filled further",
     RUNS +
     b"close\r\n"
     b"add,A,down,1,1\r\n"
     b"close\r\n"
     b"ring\r\n"),

    ("places outside the line", "0, one past the last, and windows from behind",
     RUNS +
     b"add,A,down,1,1\r\n"
     b"add,B,up,1,1\r\n"
     b"add,C,down,1,1\r\n"
     b"close\r\n"
     b"ask,0,1\r\n"
     b"ask,0,0\r\n"
     b"ask,1,4\r\n"
     b"ask,3,2\r\n"
     b"ask,4,4\r\n"
     b"ask,3,3\r\n"
     b"set,0,up,1,1\r\n"
     b"set,4,up,1,1\r\n"
     b"ask,1,3\r\n"),

    ("a ring that is too short", "n is below k (8); windows have figures all the same",
     b"line,counts,3,0\r\n"
     b"add,A,judged,1,1\r\n"
     b"add,B,judged,2,3\r\n"
     b"close\r\n"
     b"ring\r\n"
     b"ask,1,2\r\n"
     b"ask,2,2\r\n"),

    ("trials", "one inside another (9), none to end (10), ends of trials with no entry, a refused set that is no entry",
     ONE +
     b"keep\r\n"
     b"back\r\n"
     b"try\r\n"
     b"try\r\n"
     b"set,2,up,1,1\r\n"
     b"keep\r\n"
     b"keep\r\n"
     b"try\r\n"
     b"back\r\n"
     b"back\r\n"
     b"try\r\n"
     b"set,1,up,1,1\r\n"
     b"try\r\n"
     b"back\r\n"
     b"ring\r\n"),

    ("counts that stop", "at 1000000000, sums and products; one more is no count (5)",
     b"line,counts,1,0\r\n"
     b"add,A,judged,1,1000000001\r\n"
     b"add,A,up,0,1000000001\r\n"
     b"add,A,judged,40000,1000000000\r\n"
     b"add,B,judged,40000,0\r\n"
     b"add,C,judged,600000000,600000000\r\n"
     b"close\r\n"
     b"ask,1,1\r\n"
     b"ask,1,2\r\n"
     b"ask,3,3\r\n"
     b"ask,1,3\r\n"
     b"ring\r\n"
     b"set,3,bypass,1000000001,0\r\n"
     b"set,3,bypass,1000000000,0\r\n"
     b"ring\r\n"),

    ("costs and none", "none is a cost, one more is not (5); sums stop at 1000000000000 and never become none",
     b"line,costs,1,0\r\n"
     b"add,A,judged,0,1000000000001\r\n"
     b"add,B,down,1000000000002,0\r\n"
     b"add,B,judged,1000000000001,700000000000\r\n"
     b"add,C,judged,5,600000000000\r\n"
     b"close\r\n"
     b"ask,1,1\r\n"
     b"ask,2,2\r\n"
     b"ask,2,3\r\n"
     b"ask,1,3\r\n"
     b"set,3,judged,600000000000,1000000000002\r\n"
     b"set,3,judged,600000000000,1000000000000\r\n"
     b"ring\r\n"),

    ("residues by 7", "a code of m or more is no residue (5), be it the down code or one that weighs nothing",
     b"line,residues,2,7\r\n"
     b"add,A,judged,1,7\r\n"
     b"add,A,down,7,1\r\n"
     b"add,A,judged,6,6\r\n"
     b"add,B,judged,1,1\r\n"
     b"add,C,judged,3,5\r\n"
     b"close\r\n"
     b"set,1,up,6,7\r\n"
     b"ask,1,3\r\n"
     b"ring\r\n"),

    ("residues by 2", "the least modulus",
     b"line,residues,1,2\r\n"
     b"add,A,judged,1,1\r\n"
     b"add,B,bypass,0,1\r\n"
     b"add,C,judged,2,0\r\n"
     b"close\r\n"
     b"ask,1,2\r\n"
     b"ring\r\n"),

    ("stations passed by", "a bypass is up at the weight one, and ends a run",
     b"line,costs,2,0\r\n"
     b"add,A,judged,0,4\r\n"
     b"add,B,bypass,9,9\r\n"
     b"add,C,judged,0,3\r\n"
     b"add,D,bypass,1000000000001,9\r\n"
     b"close\r\n"
     b"ask,1,4\r\n"
     b"ask,2,2\r\n"
     b"ring\r\n"
     b"set,4,judged,1,2\r\n"
     b"ask,1,4\r\n"
     b"ring\r\n"),

    ("a ring that is all down", "the run across the seam has each station once",
     RUNS +
     b"add,A,down,1,1\r\n"
     b"add,B,down,1,1\r\n"
     b"add,C,down,1,1\r\n"
     b"close\r\n"
     b"ring\r\n"
     b"ask,1,3\r\n"
     b"set,2,bypass,1,1\r\n"
     b"ring\r\n"
     b"ask,1,3\r\n"),

    ("four in a row", "k is 4 on a ring of four, over weights of 1, and then with one station more",
     b"line,counts,4,0\r\n"
     b"add,A,judged,1,1\r\n"
     b"add,B,judged,1,1\r\n"
     b"add,C,judged,1,1\r\n"
     b"add,D,judged,1,1\r\n"
     b"add,E,bypass,1,1\r\n"
     b"close\r\n"
     b"ask,1,4\r\n"
     b"ring\r\n"
     b"set,5,judged,1,1\r\n"
     b"ring\r\n"),

    ("32 stations", "the most that stand; at one more 2 comes before 4 and 5",
     b"line,costs,3,0\r\n" + stations(32, b"add,%d,%s,%d,%d\r\n") +
     b"add,33,up,1,1\r\n"
     b"add,thirty-three is one too many,up,1000000000002,1\r\n"
     b"add,33,off,1,1\r\n"
     b"close\r\n"
     b"ask,1,32\r\n"
     b"ask,2,31\r\n"
     b"ask,17,32\r\n"
     b"ask,16,17\r\n"
     b"ask,1,33\r\n"
     b"ring\r\n"
     b"set,32,down,1,1\r\n"
     b"ring\r\n"),

    ("32 sets", "the most entries of a trial; at one more 6 comes before 5 and that before 11, and back takes all 32 back",
     b"line,counts,2,0\r\n"
     b"add,A,judged,1,1\r\n"
     b"add,B,judged,2,3\r\n"
     b"close\r\n"
     b"ask,1,2\r\n"
     b"try\r\n" + b"".join(b"set,%d,up,%d,1\r\n" % (1 + n % 2, n) for n in range(32)) +
     b"set,3,up,1000000001,1\r\n"
     b"set,2,up,1000000001,1\r\n"
     b"set,2,up,1,1\r\n"
     b"ask,1,2\r\n"
     b"back\r\n"
     b"ask,1,2\r\n"
     b"try\r\n"
     b"set,2,up,1,1\r\n"
     b"keep\r\n"
     b"ask,1,2\r\n"),
]

# Texts that are CRLFs as far as they go: the most bytes that a text may have, and how many it has.
LINE_ENDS = [(most, length) for most in (MOST_BYTES, MOST_BYTES_OF_PROGRAM) for length in (most, most + 1)]

HEAD = """\
// Texts and the answers to them, as tools/sessions.py prints them: the texts were written by hand, the answers are computed in Python.

// A session, its text and its answers.
pub(crate) struct Session {
    pub(crate) name: &'static str,
    pub(crate) text: &'static [u8],
    pub(crate) answers: &'static [u8],
}

// A text that is CRLFs as far as it goes: the most bytes that a text may have, how many it has, how long the answers are, and the last.
pub(crate) struct LineEnds {
    pub(crate) most: usize,
    pub(crate) length: usize,
    pub(crate) needed: usize,
    pub(crate) last: &'static [u8],
}
"""

ESCAPES = {ord('"'): '\\"', ord("\\"): "\\\\", ord("\r"): "\\r", ord("\n"): "\\n"}


def escaped(byte):
    if byte in ESCAPES:
        return ESCAPES[byte]
    return chr(byte) if 0x20 <= byte <= 0x7E else f"\\x{byte:02x}"


def piece(line):
    """A part of a literal. Behind a broken line its blanks would be left out."""
    text = "".join(map(escaped, line))
    return "\\x20" + text[1:] if text.startswith(" ") else text


def literal(text):
    """A byte string with a line for each CRLF."""
    lines = re.findall(rb"(?s).*?\r\n|.+\Z", text)
    return 'b"' + "\\\n            ".join(map(piece, lines)) + '"'


def session_row(name, shows, text):
    return f"""\
    // {shows}
    Session {{
        name: "{name}",
        text: {literal(text)},
        answers: {literal(answer_text(text))},
    }},"""


def line_ends_row(most, length):
    told = answer_text((b"\r\n" * length)[:length], most)
    return f"""\
    LineEnds {{
        most: {most:_},
        length: {length:_},
        needed: {len(told):_},
        last: {literal(told.splitlines(keepends=True)[-1])},
    }},"""


def table(name, row, rows):
    print(f"\npub(crate) static {name}: [{row}; {len(rows)}] = [", *rows, "];", sep="\n")


def numbers(text):
    return {int(number) for number in re.findall(rb"(?m)^no,(\d+),", answer_text(text))}


def main():
    hold_groups_against_states()
    missing = NUMBERS.difference(*(numbers(text) for _, _, text in SESSIONS))
    if missing:
        sys.exit(f"numbers in no session: {sorted(missing)}")
    print(HEAD, end="")
    table("SESSIONS", "Session", [session_row(*session) for session in SESSIONS])
    table("LINE_ENDS", "LineEnds", [line_ends_row(*ends) for ends in LINE_ENDS])


if __name__ == "__main__":
    main()
