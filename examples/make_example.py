#!/usr/bin/env python3
"""Writes the example beside this file: a desk of five places with budgets of 3 and 1, four queries, and its tape."""
import pathlib
import struct

here = pathlib.Path(__file__).resolve().parent
rows = [(1, 40, 2), (1, 55, 0), (0, 0, 0), (1, 38, 1), (1, 61, 3)]
budgets = [3, 1]
count = [1, 1, 1, 50]
lines = [[2, 0] + count, [2, 0, 2, 2, 2, 1, 2, 1, 1, 255], [2, 0] + count, [2, 1] + count]
bound = 18446743461844455030
pages = [{0: 9015995609357}, {0: 0, 4: 1099511627776, 8: bound, 9: 7749358214158}, {}, {}]

run = struct.pack("<H", len(rows)) + b"".join(bytes(row) + bytes(13) for row in rows)
run += bytes([len(budgets)] + budgets) + b"".join(struct.pack("<H", len(line)) + bytes(line) for line in lines)
tape = b"".join(struct.pack("<256Q", *(page.get(word, 0) for word in range(256))) for page in pages)
(here / "five-places.run").write_bytes(run)
(here / "five-places.tape").write_bytes(tape)
