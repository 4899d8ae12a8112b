"""What the calls on books of names have to answer: a second implementation of document 02, K5, over the table of document 01 (docs/RULES.md, 7).

It was written from the papers and from include/vichrelka.h and not from the library, and goes another way: a block is taken apart into what it
says, and is right if that, said again, gives the same 512 bytes; a book becomes its whole history, the dictionaries of names after no block, after
one, after two and so on, up to its end or its first bad block; each call looks at that history. A dictionary keeps a name that it has in its place
and puts a new one last, and has no limit. hashlib hashes.

    answer(call)      of a Call: ("ok", value, the bytes written), ("ok", value) of sound, or ("refused", number)
    printed(answer)   an answer as the harness prints it

A refusal has place 0 and changes nothing; what stands behind the bytes written stays. The harness looks at that by itself.
"""

import hashlib
import struct
from typing import Iterator, List, NamedTuple, Optional, Tuple, Union

import table_model
from message_model import NO_PROPER_NAME, OUTPUT_SHORT, Refusal
from table_model import FLAGS, NAMES, TABLE_LENGTH, TABLE_NOT_SOUND, Records, Table, is_proper, is_sound

WRONG_CHECK, WRONG_FIELD, BLOCK_LENGTH = 42, 43, 44

# The number, the kind, the name's length, the name, flags, A, AAAA, DHCID, zeros: 480 bytes; what is shorter is filled up with zeros. Then the check.
SAID = struct.Struct("> I B B 255s B 4s 16s 35s 163s")
BLOCK = 512
GONE, STANDS = 0, 1

Answer = Union[Tuple[str, int, bytes], Tuple[str, int]]


class Call(NamedTuple):
    word: str  # block, replay, tidy, sound or again, which is tidy and then a replay; they have no more fields than they need
    book: bytes = b""
    table: bytes = b""
    name: bytes = b""
    number: int = 0
    out: int = 0  # an output's length
    area: bytes = b""  # what stands where a table is to be; only how long it is matters


# Blocks

class Said(NamedTuple):
    """What a block says of a name; no records if it is gone."""
    number: int
    kind: int
    name: bytes
    records: Records


def spelled(said: Said) -> bytes:
    """The one block that says this"""
    fields = (said.records.get(flag, b"") for flag in FLAGS)
    head = SAID.pack(said.number, said.kind, len(said.name), said.name, sum(said.records), *fields, b"")
    return head + hashlib.sha256(head).digest()


def heard(block: bytes) -> Said:
    """What a block says, as far as it can be said again"""
    number, kind, length, name, flags, *fields, _ = SAID.unpack(block[:SAID.size])
    return Said(number, kind, name[:length], {flag: field for flag, field in zip(FLAGS, fields) if flags & flag})


def is_of_a_book(said: Said) -> bool:
    if said.kind == STANDS:
        return is_sound(said.name, said.records)
    return said.kind == GONE and not said.records and is_proper(said.name) and said.name == said.name.lower()


def next_table(table: Table, block: bytes, number: int) -> Table:
    """The names after this block, which is the one with this number"""
    if hashlib.sha256(block[:SAID.size]).digest() != block[SAID.size:]:
        raise Refusal(WRONG_CHECK)
    said = heard(block)
    if spelled(said._replace(number=number)) != block or not is_of_a_book(said):
        raise Refusal(WRONG_FIELD)
    after = dict(table)
    if said.kind == STANDS:
        after[said.name] = said.records
    elif after.pop(said.name, None) is None:
        raise Refusal(WRONG_FIELD)
    return after


# Books

class History(NamedTuple):
    tables: List[Table]  # after no block, after one, and so on
    fault: Optional[int]  # of the first bad block, if there is one

    def sound(self) -> int:
        """How many blocks are sound: before the first after which there are too many names"""
        crowded = [blocks for blocks, table in enumerate(self.tables) if len(table) > NAMES]
        return min(crowded, default=len(self.tables)) - 1


def blocks_of(book: bytes) -> Iterator[bytes]:
    """The whole ones"""
    return (whole for whole, in struct.iter_unpack("%ds" % BLOCK, book[:len(book) // BLOCK * BLOCK]))


def history(book: bytes) -> History:
    tables: List[Table] = [{}]
    for number, block in enumerate(blocks_of(book)):
        try:
            tables.append(next_table(tables[-1], block, number))
        except Refusal as refusal:
            return History(tables, refusal.args[0])
    return History(tables, None)


def replayed(book: bytes) -> Table:
    if len(book) % BLOCK != 0:
        raise Refusal(BLOCK_LENGTH)
    past = history(book)
    if past.fault:
        raise Refusal(past.fault)
    if past.sound() + 1 < len(past.tables):
        raise Refusal(TABLE_NOT_SOUND)
    return past.tables[-1]


def tidied(table: Table) -> bytes:
    return b"".join(spelled(Said(number, STANDS, name, records)) for number, (name, records) in enumerate(table.items()))


# The calls

def fitting(data: bytes, room: int) -> bytes:
    if room < len(data):
        raise Refusal(OUTPUT_SHORT)
    return data


def block_of(call: Call) -> Answer:
    table = table_model.read(call.table)
    if not is_proper(call.name):
        raise Refusal(NO_PROPER_NAME)
    name = call.name.lower()
    said = Said(call.number, STANDS, name, table[name]) if name in table else Said(call.number, GONE, name, {})
    return ("ok", BLOCK, fitting(spelled(said), call.out))


def replay(book: bytes, area: bytes) -> Answer:
    return ("ok", 0, fitting(table_model.written(replayed(book)), len(area)))


def answered(call: Call) -> Answer:
    if call.word == "block":
        return block_of(call)
    if call.word == "sound":
        return ("ok", history(call.book).sound())
    if call.word == "replay":
        return replay(call.book, call.area)
    book = tidied(replayed(call.book))
    return replay(book, call.area) if call.word == "again" else ("ok", len(book), fitting(book, call.out))


def answer(call: Call) -> Answer:
    try:
        return answered(call)
    except Refusal as refusal:
        return ("refused", refusal.args[0])


printed = table_model.printed
packed = table_model.packed

assert SAID.size == 480 and TABLE_LENGTH == 19968
