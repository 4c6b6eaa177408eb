"""Writes the records and readings that tests/speed/reports.sh times, into a folder.

marks.records, axles    a catalogue of axle marks at its bounds (24 signatures with 96 fragments, 48 formats), and ten axles that a signature hits
starts.records, file    24 signatures of bytes that stand at the front, each with a format, and 4,096 bytes that none hits
"""
import pathlib
import struct
import sys

STARTS = [
    "4D5A90000300", "255044462D31", "504B03041400", "89504E470D0A1A0A", "474946383761", "474946383961", "FFD8FFE0", "1F8B0800",
    "425A6839", "FD377A585A00", "7F454C460201", "52494646", "53514C69746520666F726D6174", "D0CF11E0A1B11AE1", "377ABCAF271C",
    "526172211A07", "49492A00", "4D4D002A", "000001BA", "000001B3", "4F676753", "664C6143", "494433", "3C3F786D6C",
]


def record(kind, body):
    return struct.pack("<HH", len(body), kind) + body


def signature(kind, id, sequences):
    body = struct.pack("<HBB", id, 1, len(sequences))
    for letter, offset, text in sequences:
        body += struct.pack("<cHHB", letter, offset, offset, len(text)) + text.encode()
    return record(kind, body)


def format(kind, id, signatures, outranked):
    body = struct.pack("<HB", id, 0)
    for ids in (signatures, outranked):
        body += struct.pack("<B", len(ids)) + b"".join(struct.pack("<H", i) for i in ids)
    return record(kind, body + b"\0")


folder = pathlib.Path(sys.argv[1])
marks = b""
for i in range(24):
    a, b, c = i % 10, (i // 2) % 10, (i + 3) % 10
    texts = [(b"B", 0, f"S{a}D{b}"), (b"V", 0, f"S{b}*D{c}"), (b"E", 0, f"D{a}{{0-4}}S{c}")]
    marks += signature(2, i, texts)
for i in range(48):
    marks += format(4, i, [i % 24], [i - 1] if i else [])
(folder / "marks.records").write_bytes(marks)
(folder / "axles").write_bytes(bytes([0x10, 0x20, 0x11, 0x21, 0x23, 0x12, 0x22, 0x20, 0x14, 0x13]))

starts = b"".join(signature(1, i, [(b"B", 0, text)]) for i, text in enumerate(STARTS))
starts += b"".join(format(3, i, [i], []) for i in range(24))
(folder / "starts.records").write_bytes(starts)
(folder / "file").write_bytes(bytes((i * 7 + 3) % 251 for i in range(4096)))
