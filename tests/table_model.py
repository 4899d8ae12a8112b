"""What the steps of the table of names have to answer: a second implementation of document 01's rules for the table (docs/RULES.md, 7), with the
remove of document 02, K1 (RFC 4703, section 5.5).

It was written from the paper and not from the library, and goes another way: the bytes are read into a dictionary of names, which keeps the
order of arrival by itself; they are sound if that dictionary, written out again, gives them back; a step changes the dictionary, find and count
look at it.

    answer(call)      of a Call: ("ok", value, the table's bytes afterwards), ("ok", value) of find and count, or ("refused", number)
    printed(answer)   an answer as the harness prints it
    packed(data)      a table's bytes as the harness reads and prints them

A refusal has place 0 and changes nothing. The harness looks at that by itself.
"""

import functools
import itertools
import re
import struct
from typing import Dict, NamedTuple, Tuple, Union

import message_model
from message_model import NO_PROPER_NAME, UNKNOWN_SETTING, Refusal

DHCID_MALFORMED, ADDRESS_LENGTH = 15, 16
HELD_BY_ANOTHER, KEPT_BY_HAND, TABLE_FULL, NAME_UNKNOWN, ADDRESS_NOT_HELD = range(30, 35)
TABLE_NOT_SOUND = 40

NAMES = 64
SLOT = struct.Struct("B 255s B 4s 16s 35s")  # the name's length, the name, flags, A, AAAA, DHCID; what is shorter is filled up with zeros
TABLE_LENGTH = NAMES * SLOT.size

# The records by their flags, which stand in the order of their fields
A, AAAA, DHCID = FLAGS = 1, 2, 4
ADDRESS = {4: A, 6: AAAA}
ADDRESS_SIZE = {4: 4, 6: 16}
DHCID_HEADS = (b"\0\0\1", b"\0\1\1", b"\0\2\1")  # identifier type, digest type

Records = Dict[int, bytes]
Table = Dict[bytes, Records]
Answer = Union[Tuple[str, int, bytes], Tuple[str, int]]


class Call(NamedTuple):
    word: str  # add, remove, clear, find or count, which have no more fields than they need
    table: bytes
    name: bytes = b""
    dhcid: bytes = b""
    family: int = 0
    address: bytes = b""
    policy: int = 0


is_proper = functools.lru_cache(100000)(message_model.is_proper)  # the same names stand in many tables


def is_dhcid(data: bytes) -> bool:
    return len(data) == message_model.DHCID_LENGTH and data.startswith(DHCID_HEADS)


# A table's bytes

def written(table: Table) -> bytes:
    slots = [SLOT.pack(len(name), name, sum(records), *(records.get(flag, b"") for flag in FLAGS)) for name, records in table.items()]
    return b"".join(slots).ljust(TABLE_LENGTH, b"\0")


def is_sound(name: bytes, records: Records) -> bool:
    return is_proper(name) and name == name.lower() and len(records) > 0 and (DHCID not in records or is_dhcid(records[DHCID]))


def read(data: bytes) -> Table:
    """What does not fit into a table, a name that comes again among it, is not written out again."""
    table: Table = {}
    if len(data) == TABLE_LENGTH:
        for length, name, flags, *fields in itertools.takewhile(lambda slot: slot[0] > 0, SLOT.iter_unpack(data)):
            table[name[:length]] = {flag: field for flag, field in zip(FLAGS, fields) if flags & flag}
    if written(table) != data or not all(itertools.starmap(is_sound, table.items())):
        raise Refusal(TABLE_NOT_SOUND)
    return table


# The steps

def add(table: Table, name: bytes, call: Call) -> int:
    new = {ADDRESS[call.family]: call.address, DHCID: call.dhcid}
    held = table.get(name)
    if held is None:
        if len(table) == NAMES:
            raise Refusal(TABLE_FULL)
        table[name] = new
        return 0
    if DHCID not in held:
        raise Refusal(KEPT_BY_HAND)
    if held[DHCID] == call.dhcid:
        held.update(new)
        return 1
    if call.policy == 0:
        raise Refusal(HELD_BY_ANOTHER)
    table[name] = new  # it stays where it was
    return 2


def remove(table: Table, name: bytes, call: Call) -> int:
    if name not in table:
        raise Refusal(NAME_UNKNOWN)
    held = table[name]
    if DHCID not in held:
        raise Refusal(KEPT_BY_HAND)
    if held[DHCID] != call.dhcid:
        raise Refusal(HELD_BY_ANOTHER)
    if held.get(ADDRESS[call.family]) != call.address:
        raise Refusal(ADDRESS_NOT_HELD)
    del held[ADDRESS[call.family]]
    if A not in held and AAAA not in held:  # document 02, K1: with the last address the DHCID goes, and so the name; later names move up
        del table[name]
    return 0


def clear(table: Table, name: bytes, _: Call) -> int:
    if name not in table:
        raise Refusal(NAME_UNKNOWN)
    del table[name]
    return 0


STEPS = {"add": add, "remove": remove, "clear": clear}


# The other calls

def find(table: Table, name: bytes) -> int:
    if name not in table:
        raise Refusal(NAME_UNKNOWN)
    return list(table).index(name)


def answered(call: Call) -> Answer:
    has_address = call.word in ("add", "remove")
    if has_address and (call.family not in ADDRESS or call.policy not in (0, 1)):
        raise Refusal(UNKNOWN_SETTING)
    table = read(call.table)
    if call.word == "count":
        return ("ok", len(table))
    if not is_proper(call.name):
        raise Refusal(NO_PROPER_NAME)
    if call.word == "find":
        return ("ok", find(table, call.name.lower()))
    if has_address and not is_dhcid(call.dhcid):
        raise Refusal(DHCID_MALFORMED)
    if has_address and len(call.address) != ADDRESS_SIZE[call.family]:
        raise Refusal(ADDRESS_LENGTH)
    value = STEPS[call.word](table, call.name.lower(), call)
    return ("ok", value, written(table))


def answer(call: Call) -> Answer:
    try:
        return answered(call)
    except Refusal as refusal:
        return ("refused", refusal.args[0])


# Lines

ZEROS = re.compile(rb"(\0{8,})")


def packed(data: bytes) -> str:
    """Pieces with commas between them: hexadecimal, or `-` for no bytes, and `+N` for the zeros behind them, where they are eight or more."""
    parts = ZEROS.split(data)  # bytes, zeros, bytes, zeros, ... , bytes
    pieces = ["%s+%d" % (some.hex() or "-", len(zeros)) for some, zeros in zip(parts[::2], parts[1::2])]
    return ",".join(pieces + ([parts[-1].hex()] if parts[-1] else [])) or "-"


def printed(given: Answer) -> str:
    if given[0] == "refused":
        return "refused %d at 0" % given[1]
    return " ".join(["ok %d" % given[1]] + [packed(table) for table in given[2:]])
