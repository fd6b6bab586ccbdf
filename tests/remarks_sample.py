"""The stream samples/remarks.stream: roster A's first unit, and reports with and without a text; the last one is cut short."""

import struct
import sys

DAY = 13_760_640  # 2026-03-01 00:00


def entry(owner, pmax, pmin):
    return b"JG" + struct.pack("<H4BIIIII", owner, 1, 5, 0, 0, DAY, pmax, pmin, 0, 0)


def derating(number, owner, start, text):
    """A planned positive derating of 20,000 kW on unit 1, an hour long, stamped `number` minutes into the day."""
    start, end, stamp = DAY + start, DAY + start + 60, DAY + number
    head = struct.pack("<HH6BHH16s", 1, owner, 2, 1, 1, 1, 1, 0, 1, 1, bytes([number]) * 16)
    head += struct.pack("<IIIHH", stamp, start, end, len(text), 0)
    return b"RP" + head + b"PK" + struct.pack("<HIIi", 0, start, end, 20_000) + b"TX" + text


reports = [
    derating(1, 7, 60, b"feed pump 2 out for repair"),
    derating(2, 7, 120, b""),
    derating(3, 7, 180, "Kühlwasser 31°C\nlog in C:\\plant\x7f".encode()),
    derating(4, 9, 240, b"not our unit"),
    derating(5, 7, 60, b"a backslash: \\, a tab:\t, a zero:\0"),
    derating(6, 7, 300, b"cut short")[:-4],
]
sys.stdout.buffer.write(entry(7, 200_000, 80_000) + b"".join(reports))
