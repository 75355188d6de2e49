"""Makes a feed of one stream from the rows of a CSV: inserts at timestamp 1, and a checkpoint there. The bytes are those of docs/formats.md."""
import csv
import struct
import sys


def frame(kind, body):
    return struct.pack(">BI", kind, len(body)) + body


def number(value):
    return b"\x02" + struct.pack(">q", int(value))


def text(value):
    return b"\x03" + struct.pack(">I", len(value.encode())) + value.encode()


out = sys.stdout.buffer
out.write(frame(1, b"LTLOG1" + struct.pack(">IHB", 0, 0, 0)))
for key, customer, total in csv.reader(sys.stdin):
    change = struct.pack(">QIIBB", 1, 1, 1, 1, 1) + b"\x01" + struct.pack(">q", int(key))
    columns = struct.pack(">HH", 2, 1) + text(customer) + struct.pack(">H", 2) + number(total)
    out.write(frame(2, change + columns))
out.write(frame(3, struct.pack(">Q", 1)))
