"""The hand-written calls of book_edges.txt, which says what they mean.

    read_edges()      [Edge(call, zeros, answer, why), ...]
    read_book(form)   a book in the form of that file
"""

import hashlib
import os
import re
from typing import Iterator, List, NamedTuple, Optional, Tuple

from book_model import Answer, Call
from message_edges import Bytes, read_bytes
from table_edges import NUMBERED, RECORD, read_lines, read_table

PATH = os.path.join(os.path.dirname(os.path.abspath(__file__)), "book_edges.txt")
BLOCK, CHECKED = 512, 480
SLOT, TABLE = 312, 19968
WRITTEN_OUT = 250000  # a longer book has zeros behind it that are not
ROOM = 64 * BLOCK  # enough for whatever is tidied


class Edge(NamedTuple):
    call: Call
    zeros: Tuple[int, int, int, int]  # behind the table, the name, the book and the area
    answer: Answer
    why: str
    is_asked_too: bool = False  # and not in the file


# Books

FIELD_AT = {"A": (262, 1), "AAAA": (266, 2), "DHCID": (282, 4)}  # where a record begins in a block, and its flag


def put(data: bytes, at: int, patch: bytes) -> bytes:
    return data[:at] + patch + data[at + len(patch):]


def checked(block: bytes, count: int = CHECKED) -> bytes:
    return block[:CHECKED] + hashlib.sha256(block[:count]).digest()


def block_bytes(number: int, kind: int, form: str) -> bytes:
    """A name, and records behind their types"""
    name_form, *rest = RECORD.split(form)
    name = read_bytes(name_form, {}).data
    block = put(bytes(CHECKED), 0, number.to_bytes(4, "big") + bytes([kind, len(name)]) + name)
    for kind_of_record, data in zip(rest[::2], rest[1::2]):
        at, flag = FIELD_AT[kind_of_record]
        block = put(block, at, read_bytes(data, {}).data)
        block = put(block, 261, bytes([block[261] | flag]))
    return checked(block)


TOKEN = re.compile(r"\s+|(?P<number>\d+):(?=[-{n])|(?P<gone>-)?(?:\{(?P<slot>[^}]*)\}|n(?P<first>\d+)\.\.n(?P<last>\d+)(?!\S))|\[(?P<raw>[^]]*)\]"
                   r"|(?P<how>[@!])(?P<block>\d+)\.(?P<offset>\d+):(?P<bytes>\S+)|check:(?P<of>\d+)\.(?P<count>\d+)|rest:(?P<rest>\S+)$"
                   r"|length:(?P<length>\d+)$|-(?!\S)")


def read_book(form: str) -> Bytes:
    blocks: List[bytes] = []
    rest, length, number, at = b"", None, 0, 0
    form = form.strip()
    while at < len(form):
        token = TOKEN.match(form, at)
        if not token:
            raise ValueError("no book: " + form[at:])
        at = token.end()
        if token["number"]:
            number = int(token["number"])
        elif token["slot"] is not None or token["first"]:
            names = range(int(token["first"]), int(token["last"]) + 1) if token["first"] else ()
            for slot in [NUMBERED % (name, name) for name in names] or [token["slot"]]:
                blocks.append(block_bytes(number, 0, RECORD.split(slot)[0]) if token["gone"] else block_bytes(number, 1, slot))
                number += 1
        elif token["raw"] is not None:
            blocks.append(read_bytes(token["raw"], {}).data)
            number += 1
        elif token["how"]:
            which, offset, patch = int(token["block"]), int(token["offset"]), read_bytes(token["bytes"], {}).data
            if token["how"] == "!":
                patch = bytes(one ^ other for one, other in zip(patch, blocks[which][offset:]))
            blocks[which] = put(blocks[which], offset, patch)
            if token["how"] == "@":
                blocks[which] = checked(blocks[which])
        elif token["of"]:
            blocks[int(token["of"])] = checked(blocks[int(token["of"])], int(token["count"]))
        elif token["rest"]:
            rest = read_bytes(token["rest"], {}).data
        elif token["length"]:
            length = int(token["length"])
    if any(len(block) != BLOCK for block in blocks):
        raise ValueError("not a block: " + form)
    data = b"".join(blocks) + rest
    if length is None:
        return Bytes(data)
    return Bytes(data.ljust(length, b"\0")[:length]) if length <= WRITTEN_OUT else Bytes(data, length - len(data))


def tidied(table: bytes) -> bytes:
    """One block for each slot of a table that is used"""
    slots = [table[at:at + SLOT] for at in range(0, TABLE, SLOT)]
    return b"".join(checked(number.to_bytes(4, "big") + b"\1" + slot + bytes(163)) for number, slot in enumerate(slots) if any(slot))


# Lines

COLUMNS = {"block": 7, "replay": 5, "tidy": 5, "sound": 4, "again": 5}
REFUSED = re.compile(r"refused (\d+)(?: after (\d+))?")


class Read(NamedTuple):
    """A line: the edge, and how many blocks are sound, if it says so."""
    edge: Edge
    sound: Optional[int]


def answer_of(word: str, form: str) -> Answer:
    refused = REFUSED.fullmatch(form)
    if refused:
        return ("refused", int(refused[1]))
    if word == "sound":
        return ("ok", int(form))
    if word in ("replay", "again"):
        return ("ok", 0, read_table(form).data)
    value, book = form.split(" ", 1)
    return ("ok", int(value), read_book(book).data)


def read_of(line: str) -> Read:
    word, *rest, answer_form, why = (column.strip() for column in line.split("|"))
    if COLUMNS.get(word) != 3 + len(rest) or not why:
        raise ValueError("no call: " + line)
    table = name = book = area = Bytes(b"")
    number = out = 0
    if word == "block":
        table, name, number, out = read_table(rest[0]), read_bytes(rest[1], {}), int(rest[2]), int(rest[3])
    elif word == "replay":
        area, book = read_table(rest[0]), read_book(rest[1])
    else:
        book = read_book(rest[0])
        out = int(rest[1]) if word == "tidy" else 0
        area = read_table(rest[1]) if word == "again" else area
    call = Call(word, book.data, table.data, name.data, number, out, area.data)
    refused = REFUSED.fullmatch(answer_form)
    if word == "replay" and refused and bool(refused[2]) != (len(area.data) == TABLE):
        raise ValueError("how many blocks are sound is said of an area as long as a table, and of no other: " + line)
    return Read(Edge(call, (table.zeros, name.zeros, book.zeros, area.zeros), answer_of(word, answer_form), why),
                int(refused[2]) if refused and refused[2] else None)


def also_asked(read: Read) -> Iterator[Edge]:
    """The other calls, whose answers a replay's settles"""
    call, zeros, answer, why, _ = read.edge
    if call.word != "replay" or len(call.area) != TABLE or zeros[3] > 0:
        return
    others = [("tidy", ROOM, answer)]
    if answer[0] == "ok":
        book = tidied(answer[2])
        others = [("tidy", len(book), ("ok", len(book), book)), ("again", 0, answer)] + [("tidy", len(book) - 1, ("refused", 13))] * bool(book)
    others.append(("sound", 0, ("ok", len(call.book) // BLOCK if read.sound is None else read.sound)))
    for word, out, right in others:
        asked = Call(word, call.book, out=out, area=call.area if word == "again" else b"")
        yield Edge(asked, (0, 0, zeros[2], 0), right, "%s too: %s" % (word, why), True)


def read_edges() -> List[Edge]:
    lines = read_lines(PATH, read_of)
    return [line.edge for line in lines] + [asked for line in lines for asked in also_asked(line)]
