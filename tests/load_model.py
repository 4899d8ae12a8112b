"""What load and write have to answer: a second implementation of document 01's rules for a table as a listing
(docs/RULES.md, 7.7 and 7.8).

It stands on the models of the listing and of the table. The records of a listing go into a dictionary of names, of which each has a dictionary of its
records; a name's place in the order comes with its first record by itself. Addresses are written by Python's module for them.

    answer(call)      of a Call: ("ok", value, what is written) or ("refused", number, place)
    printed(answer)   an answer as the harness prints it

A refused call changes nothing, and an accepted one leaves what stands behind the written bytes as it was. The harness looks at that by itself.
"""

import base64
import ipaddress
from typing import Iterator, NamedTuple, Tuple, Union

import listing_model
import table_model
from message_model import OUTPUT_SHORT, Refusal
from table_model import A, AAAA, DHCID, TABLE_FULL, TABLE_LENGTH, Table

RECORD_REPEATED = 35

FLAGS = {b"A": A, b"AAAA": AAAA, b"DHCID": DHCID}
SPELL = {
    b"A": lambda data: str(ipaddress.IPv4Address(data)).encode("ascii"),
    b"AAAA": lambda data: ipaddress.IPv6Address(data).exploded.encode("ascii"),
    b"DHCID": base64.b64encode,
}

Answer = Union[Tuple[str, int, bytes], Tuple[str, int, int]]


class Call(NamedTuple):
    word: str  # load, write or again: write, and load what is written
    table: bytes = b""  # what is written
    out: int = 0  # the room for it, in bytes; again has enough
    area: bytes = b""  # what stands where load puts its table
    text: bytes = b""


def loaded(text: bytes, area: bytes) -> bytes:
    said = listing_model.read(text)
    if said[0] == "refused":
        raise Refusal(*said[1:])
    table: Table = {}
    for owner, rtype, data in said[1]:
        records = table.setdefault(owner, {})
        if FLAGS[rtype] in records:
            raise Refusal(RECORD_REPEATED, 0)
        records[FLAGS[rtype]] = data
    if len(table) > table_model.NAMES:
        raise Refusal(TABLE_FULL, 0)
    if len(area) < TABLE_LENGTH:
        raise Refusal(OUTPUT_SHORT, 0)
    return table_model.written(table)


def in_text(name: bytes) -> bytes:
    """A name in wire form as labels with a dot behind each."""
    out = b""
    while name[0] > 0:
        out, name = out + name[1:1 + name[0]] + b".", name[1 + name[0]:]
    return out


def lines(table: Table) -> Iterator[bytes]:
    for name, records in table.items():
        for rtype, flag in FLAGS.items():
            if flag in records:
                yield b"%s %s %s\n" % (in_text(name), rtype, SPELL[rtype](records[flag]))


def listing(data: bytes) -> bytes:
    try:
        return b"".join(lines(table_model.read(data)))
    except Refusal as refusal:
        raise Refusal(refusal.args[0], 0) from refusal  # the table's model knows no places


def answered(call: Call) -> Answer:
    if call.word == "load":
        return ("ok", 0, loaded(call.text, call.area))
    text = listing(call.table)
    if call.word == "again":
        return ("ok", 0, loaded(text, call.area))
    if len(text) > call.out:
        raise Refusal(OUTPUT_SHORT, 0)
    return ("ok", len(text), text)


def answer(call: Call) -> Answer:
    try:
        return answered(call)
    except Refusal as refusal:
        return ("refused", *refusal.args)


def printed(given: Answer) -> str:
    return (listing_model if given[0] == "refused" else table_model).printed(given)
