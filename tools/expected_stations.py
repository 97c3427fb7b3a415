"""Computes what the program `stations` is expected to print for the text on standard input. It shares nothing with the monitor.

The grammar is written as regular expressions. A record is what RECORD matches; where it does not match, the first impossible byte is
found by its definition: the first one with which the bytes from the record's first on can no longer be continued to a text.
"""

import re
import sys

PLAIN = rb"[\x20\x21\x23-\x2b\x2d-\x7e]*"
QUOTED = rb'"(?:[\x20\x21\x23-\x7e\r\n]|"")*"'
FIELD = rb"(?:" + QUOTED + rb"|" + PLAIN + rb")"
ROW = FIELD + rb"(?:," + FIELD + rb")*"
RECORD = re.compile(rb"(" + ROW + rb")(\r\n|\Z)")
TEXT = re.compile(rb"(?:" + ROW + rb"\r\n)*(?:" + ROW + rb")?")
FIELDS = re.compile(FIELD)

# Any text that is begun can be ended in one of these ways: it ends here, the quote closes, the LF comes.
ENDINGS = (b"", b'"', b"\n")

STATUSES = (b"judged", b"down", b"up", b"bypass")
GREATEST = 2**64 - 1


def can_go_on(front):
    return any(TEXT.fullmatch(front + ending) for ending in ENDINGS)


def first_impossible(rest):
    for k in range(len(rest)):
        if not can_go_on(rest[: k + 1]):
            return k
    return len(rest)


def fields_of(row):
    places, at = [], 0
    while True:
        match = FIELDS.match(row, at)
        places.append((at, match.group()))
        at = match.end()
        if at == len(row):
            return places
        at += 1


def meaning(field):
    if field.startswith(b'"'):
        return field[1:-1].replace(b'""', b'"')
    return field


def number(column):
    if not re.fullmatch(rb"0|[1-9][0-9]*", column) or int(column) > GREATEST:
        return None
    return int(column)


def label_is_good(label):
    return len(label) <= 24 and all(0x20 <= byte <= 0x7E for byte in label)


def station_of(row):
    """The station, or the number, the layer and the byte from the record's first on."""
    places = fields_of(row)
    columns = [meaning(field) for _, field in places]
    if columns[0] != b"add" or len(columns) != 5:
        return None, (21, 2, 0)
    _, label, status, up, down = columns
    if status not in STATUSES:
        return None, (23, 2, places[2][0])
    for k, code in ((3, up), (4, down)):
        if number(code) is None:
            return None, (22, 2, places[k][0])
    if not label_is_good(label):
        return None, (4, 3, 0)
    return (label, status, number(up), number(down)), None


def record_text(station):
    label, status, up, down = station
    if b"," in label or b'"' in label:
        label = b'"' + label.replace(b'"', b'""') + b'"'
    return b"add,%s,%s,%d,%d\r\n" % (label, status, up, down)


def main():
    text = sys.stdin.buffer.read()
    stations, refused, at, count = [], [], 0, 0
    while at < len(text):
        count += 1
        match = RECORD.match(text, at)
        if match:
            station, fault = station_of(match.group(1))
            after = match.end()
        else:
            byte = first_impossible(text[at:])
            station, fault = None, (20, 1, byte)
            crlf = text.find(b"\r\n", at + byte)
            after = len(text) if crlf < 0 else crlf + 2
        if fault:
            refused.append((fault[0], fault[1], count, at + fault[2] + 1))
        else:
            stations.append(station)
        at = after
    out = sys.stdout.buffer
    for fault in refused:
        out.write(b"no,%d,%d,%d,%d\r\n" % fault)
    for station in stations:
        out.write(record_text(station))


if __name__ == "__main__":
    main()
