"""Inputs for the fuzzer to begin with, from the edges of tests/ and the examples: seeds.py TARGET FOLDER."""

import hashlib
import pathlib
import re
import sys
from typing import Iterator

HERE = pathlib.Path(__file__).resolve().parent
ROOT = HERE.parents[1]
sys.dont_write_bytecode = True
sys.path.append(str(HERE.parent))

import book_edges  # noqa: E402
import compare  # noqa: E402
import lease_edges  # noqa: E402
import load_edges  # noqa: E402
import message_edges  # noqa: E402
import name_text_edges  # noqa: E402
import table_edges  # noqa: E402

PUT, SLOT, FILL, LENGTH, ADD, REMOVE, CLEAR, WRITE, LOAD, FIND, COUNT = range(11)  # as in table.c
COME_MANY, GO_MANY, BYTES, REPLAY, TIDY, SOUND, BLOCK = 2, 3, 6, 7, 8, 9, 10  # as in book.c
PUT_REVERSE, FILL_REVERSE, LENGTH_REVERSE, LEASE, END, PTR = 4, 6, 7, 8, 9, 10  # as in lease.c
MESSAGES, ANSWER, FROM_BYTE, FROM_LABEL, OTHER_CASE = range(4), 4, 1, 2, 4  # as in update.c
STEP = {"add": ADD, "remove": REMOVE, "clear": CLEAR}
TABLE_AREA = bytes([15])  # as in listing.c
MOST_TABLE, MOST_REVERSE = 20480, 35456  # as in table.c and in lease.c
MOST = 8192  # a longer input is slow to change


def messages() -> Iterator[bytes]:
    for edge in message_edges.read_edges():
        call = edge.call
        out = 35 if call.out_len is None else min(call.out_len, 255)
        if max(len(call.site), call.family, call.setting) <= 255 and not any(edge.zeros):
            yield bytes([4 | 8, out, len(call.site), call.family, call.setting]) + call.site + call.message


def listings() -> Iterator[bytes]:
    for path in sorted((ROOT / "examples").glob("*/*.listing")):
        yield TABLE_AREA + path.read_bytes()
    for edge in compare.read_edges(str(HERE.parent / "listing_edges.txt")):
        yield TABLE_AREA + edge.text
    for edge in load_edges.read_edges():
        if edge.call.word == "load":
            yield TABLE_AREA + edge.call.text


def put_area(area: bytes, put: int) -> bytes:
    """The steps that put these bytes where zeros were"""
    steps = b""
    for run in re.finditer(rb"(?:[^\0]|\0{1,8}(?=[^\0]))+", area):
        for at in range(run.start(), run.end(), 255):
            part = area[at:min(at + 255, run.end())]
            steps += bytes([put]) + at.to_bytes(2, "big") + bytes([len(part)]) + part
    return steps


def put_table(table: bytes) -> bytes:
    steps = put_area(table, PUT)
    return steps if len(table) == table_edges.TABLE_LENGTH else steps + bytes([LENGTH]) + len(table).to_bytes(2, "big")


def put_reverse(reverse: bytes) -> bytes:
    steps = put_area(reverse, PUT_REVERSE)
    return steps if len(reverse) == lease_edges.REVERSE else steps + bytes([LENGTH_REVERSE]) + len(reverse).to_bytes(2, "big")


def given_name(name: bytes) -> bytes:
    return bytes([2, len(name)]) + name


def given_client(dhcid: bytes, family: int, address: bytes) -> bytes:
    return bytes([2 | 64 | 128 | 16 | 32, len(dhcid)]) + dhcid + bytes([family, len(address)]) + address


def tables() -> Iterator[bytes]:
    for edge in table_edges.read_edges():
        call = edge.call
        if any(edge.zeros) or len(call.table) > MOST_TABLE or max(len(call.name), len(call.dhcid), len(call.address), call.family) > 255:
            continue
        name = given_name(call.name)
        step = {"find": bytes([FIND]) + name, "count": bytes([COUNT])}.get(call.word) or bytes([STEP[call.word], call.policy & 1]) + name
        if call.word in ("add", "remove"):
            step += given_client(call.dhcid, call.family, call.address)
        yield put_table(call.table) + step + bytes([WRITE, 0, 0, LOAD, 0])
    for edge in load_edges.read_edges():
        if edge.call.word != "load" and not any(edge.zeros) and len(edge.call.table) <= MOST_TABLE:
            yield put_table(edge.call.table) + bytes([WRITE, 1, 0, WRITE, 1, 1, LOAD, 0])


def names() -> Iterator[bytes]:
    for edge in name_text_edges.read_edges():
        if not any(edge.zeros):
            yield bytes([min(edge.call.out_len, 255)]) + edge.call.given


def put_book(book: bytes) -> bytes:
    """The steps that append these bytes, a block at a time"""
    return b"".join(bytes([BYTES]) + book[at:at + 512] for at in range(0, len(book), 512))


def books() -> Iterator[bytes]:
    ask = bytes([REPLAY, 0, TIDY, 0, 0, TIDY, 1, 0, TIDY, 1, 1, SOUND])
    for names, gone in ((64, 0), (65, 0), (65, 1), (65, 65), (66, 65)):
        yield bytes([COME_MANY, 0, names, GO_MANY, 0, gone]) + ask
    for edge in book_edges.read_edges():
        call = edge.call
        if any(edge.zeros):
            continue
        if call.word == "replay":
            yield put_book(call.book) + ask
        elif call.word == "block" and len(call.name) <= 255:
            number = call.number.to_bytes(4, "big")
            slots = [call.table[at:at + 312] for at in range(0, len(call.table), 312) if any(call.table[at:at + 312])]
            blocks = [at.to_bytes(4, "big") + b"\1" + slot + bytes(163) for at, slot in enumerate(slots)]
            book = b"".join(block + hashlib.sha256(block).digest() for block in blocks)
            yield put_book(book) + bytes([BLOCK, 4]) + given_name(call.name) + number + (call.out % 1024).to_bytes(2, "big")


def leases() -> Iterator[bytes]:
    # the lease and the end of the first name, with what its slot has
    ask = bytes([LEASE, 0, 1, 0, 1 | 8, 0, END, 0, 1, 0, 1 | 8, 0])
    for names, addresses in ((1, 1), (64, 64), (64, 127), (64, 128), (63, 128)):
        yield bytes([FILL, names, FILL_REVERSE, addresses]) + ask
    for edge in lease_edges.read_edges():
        call = edge.call
        if any(edge.zeros) or call.cut is not None or max(len(call.name), len(call.dhcid), len(call.address), call.family) > 255:
            continue
        client = given_client(call.dhcid, call.family, call.address)
        if call.word == "ptr":
            yield bytes([PTR]) + client + bytes([min(call.out, 148)])
        elif len(call.table) <= MOST_TABLE and len(call.reverse) <= MOST_REVERSE:
            step = bytes([LEASE if call.word == "lease" else END, call.policy & 1]) + given_name(call.name) + client
            yield put_table(call.table) + put_reverse(call.reverse) + step


def updates() -> Iterator[bytes]:
    client = b"\6client\7example\3com\0"
    longest = b"".join(bytes([length]) + b"l" * length for length in (63, 63, 63, 61)) + b"\0"
    two_in_one = b"\x32a0" + b"x" * 48 + b"\1z\0"  # its last bytes are a proper name too, which is not its last labels
    dhcid, number = bytes((0, 0, 1)) + bytes(range(32)), bytes((0x12, 0x34))
    for call in MESSAGES:
        for room in (0, 1, 7):  # enough, just enough, a byte short
            for name, way, at in ((client, FROM_LABEL, 1), (client, FROM_LABEL | OTHER_CASE, 0), (longest, FROM_LABEL, 3), (longest, FROM_LABEL, 0),
                                  (two_in_one, FROM_BYTE, 2), (two_in_one, FROM_LABEL, 1), (client, FROM_BYTE, 18)):
                for family, size in ((4, 4), (6, 16), (4, 16), (5, 4)):
                    yield bytes([call, room]) + given_name(name) + given_client(dhcid, family, bytes(range(size))) + number + bytes([way, at])
    for code in range(16):
        for flags in (0xa8, 0x28, 0x80, 0xff):
            yield bytes([ANSWER]) + number + number + bytes([10, flags, code]) + bytes(8)
    yield bytes([ANSWER]) + number + number + bytes([9, 0xa8, 0]) + bytes(7)
    yield bytes([ANSWER]) + number + bytes(2) + bytes([10, 0xa8, 0]) + bytes(8)


if __name__ == "__main__":
    target, folder = sys.argv[1], pathlib.Path(sys.argv[2])
    makers = {"message": messages, "listing": listings, "table": tables, "name_text": names, "book": books, "lease": leases, "update": updates}
    for number, seed in enumerate(makers[target]()):
        if len(seed) <= MOST:
            (folder / ("seed-%04d" % number)).write_bytes(seed)
