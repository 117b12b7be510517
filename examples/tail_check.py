#!/usr/bin/env python3
"""Looks at what stands behind the last gate of a log of either format, which no command reads: tail_check.py LOG. A crash leaves there at most one whole
batch, behind a gate of 00, whose lines were never printed. More of them, or another byte in the gate, is damage: the gate was open once, and the
list longer.

It prints three lines: where the list ends, as `aether dump` does; the place of the last gate and its byte; and how many bytes stand behind it, how many
whole batches of whole records would follow if it were open, and the LSN to which these would go. The status is 0 where none would follow and the gate is
00 or the file's end, else 1; 7 where the bytes are no log."""
import os, sys

sys.dont_write_bytecode = True
sys.path.insert(0, os.path.dirname(os.path.realpath(__file__)))
from read_log import Fault, MOST_LSN, batch_end, is_open, log_of, records_of, units_in


def batches_behind(data, gate, lsn):
    """How many whole batches of whole records would follow this gate if it were open, and where the list would end then."""
    count = 0
    while count == 0 or is_open(data, gate):
        end = batch_end(data, gate + 1, MOST_LSN - lsn)
        units = units_in(data, gate + 1, end) if end else []
        if end is None or records_of(units)[1] < len(units):
            break
        count, lsn, gate = count + 1, lsn + len(units), end
    return count, lsn


def main():
    if len(sys.argv) != 2:
        sys.exit("usage: tail_check.py LOG")
    with open(sys.argv[1], "rb") as log:
        data = log.read()
    try:
        _, lsn, gate = log_of(data)
    except Fault as fault:
        print(f"aether: {fault}", file=sys.stderr)
        sys.exit(7)
    count, end = batches_behind(data, gate, lsn)
    length = max(0, len(data) - gate - 1)
    print(f"lsn {lsn}")
    print(f"gate at byte {gate}: {data[gate:gate + 1].hex().upper() or 'none'}")
    print(f"behind it: {length} bytes, {count} whole batches" + (f", to lsn {end}" if count else ""))
    is_closed = data[gate:gate + 1] in (b"", b"\0") or length == 0
    sys.exit(0 if count == 0 and is_closed else 1)


main()
