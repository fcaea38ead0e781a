#!/usr/bin/env python3
# SPDX-License-Identifier: Apache-2.0 AND BSD-3-Clause
"""Write the table of the wire, whose answers are from Python's own struct module and not from the program.

    crates/test_parts/expected.py > crates/test_parts/data/wire.txt
"""
import struct

LAST = 2**64 - 1

HEAD = """\
# Numbers, requests, responses and the config as bytes. A row is a call and, behind the arrow, its answer. A line that is empty or
# begins with # is no row. expected.py writes this file.
#
# field: a member of the config. The answer: where it starts, and how many bytes it has.
# numbers: of the first `lent` of 9 bytes, the numbers of 2, 4 and 8 bytes at a place; a byte past the end is 0.
# write: a number of `width` bytes is written at a place of `lent` bytes that are 238 before; what passes the end is dropped.
# request: the request at a place of the first `lent` of 32 bytes.
# put: a response is written at a place of `lent` bytes that are 238 before.
# config: `lent` bytes that are 238 before are read at an offset of a config whose bytes are each one more than their places.
# made: the same of a config that is made of four numbers."""


def put(buffer, at, what):
    """The buffer with `what` written from `at` on; what would pass the end is dropped."""
    inside = what[: max(0, len(buffer) - at)]
    return buffer[:at] + inside + buffer[at + len(inside) :] if inside else buffer


def number(b, at, width):
    return int.from_bytes(b[at : at + width], "little")


def listed(b):
    """Bytes as numbers, eight in a group."""
    return " | ".join(" ".join(str(n) for n in b[i : i + 8]) for i in range(0, len(b), 8))


def heading(words):
    print(f"\n# {words}")


def fields():
    heading("the members of the config in their order, the padding too")
    members = ["Q", "H", "6s", "Q", "Q", "Q", "Q", "Q"]
    for k, member in enumerate(members):
        offset = struct.calcsize("<" + "".join(members[:k]))
        print(f"field {k} -> offset={offset} width={struct.calcsize('<' + member)}")


def numbers():
    heading("whole numbers, one byte short of each, at the end and past it")
    b = bytes([1, 2, 3, 4, 5, 6, 7, 8, 255])
    for at in (0, 1, 2, 7, 8, 9, LAST):
        answer = f"u16={number(b, at, 2)} u32={number(b, at, 4)} u64={number(b, at, 8)}"
        print(f"numbers lent=9 at={at} of {listed(b)} -> {answer}")


def writes():
    heading("at the start, where eight bytes just fit, where they do not, and so on to past the end")
    for at in (0, 4, 5, 10, 11, 12, LAST):
        for width, v in ((2, 0x0102), (4, 0x01020304), (8, 0x0102030405060708)):
            b = put(b"\xee" * 12, at, v.to_bytes(width, "little"))
            print(f"write lent=12 at={at} width={width} value={v} -> bytes={b.hex()}")


def request(b, length, at):
    whole = (b[:length][at:] + bytes(24))[:24]
    kind, addr, blocks = struct.unpack("<H6xQH6x", whole)
    print(f"request lent={length} at={at} of {listed(b)} -> type={kind} addr={addr} blocks={blocks}")


def requests():
    heading("the largest numbers; ones in the padding; one byte short of each member; at places up to the end and past it")
    request(b"\xff" * 24 + bytes(8), 24, 0)
    ones = b"\xff" * 6
    b = struct.pack("<H6sQH6s8s", 0x0102, ones, 0x0102030405060708, 0x0304, ones, b"\xff" * 8)
    for length in (24, 23, 17, 15, 0):
        request(b, length, 0)
    for at in (8, 14, 31, 32, LAST):
        request(b, 32, at)


def responses():
    heading("a room of ten bytes and of nine; the largest numbers; places up to the end and past it")
    for length, at, kind, state in (
        (10, 0, 258, 772),
        (9, 0, 258, 772),
        (12, 1, 65535, 65535),
        (12, 2, 258, 772),
        (12, 3, 258, 772),
        (12, 11, 258, 772),
        (12, 12, 258, 772),
        (12, LAST, 258, 772),
    ):
        b = put(b"\xee" * length, at, struct.pack("<H6xH", kind, state))
        print(f"put lent={length} at={at} type={kind} state={state} -> bytes={b.hex()}")


def config(call, whole, offset, length, columns=""):
    b = put(b"\xee" * length, 0, whole[offset:])
    print(f"{call} lent={length} offset={offset}{columns} -> bytes={b.hex()}")


def configs():
    heading("lengths up to past the config's, from its start, inside a member, at and past the end")
    # each byte is one more than its place
    b = bytes(range(1, 57))
    members = struct.unpack("<QH6xQQQQQ", b)
    whole = struct.pack("<QH6xQQQQQ", *members)
    for offset in (0, 8, 10, 15, 16, 55, 56, 57, LAST):
        for length in (0, 1, 8, 55, 56, 64):
            config("config", whole, offset, length)
    heading("a new config of the largest numbers: start, usable and plugged size are 0")
    columns = f" block={LAST} node=65535 region={LAST} requested={LAST}"
    config("made", struct.pack("<QH6xQQQQQ", LAST, 65535, 0, LAST, 0, 0, LAST), 0, 64, columns)


print(HEAD)
fields()
numbers()
writes()
requests()
responses()
configs()
