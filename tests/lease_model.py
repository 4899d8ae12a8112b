"""What the calls on the reverse side have to answer: a second implementation of document 02, K7, over the table of document 01 (docs/RULES.md, 7).

It was written from the papers and from include/vichrelka.h and not from the library, and goes another way: the bytes of a reverse side are read into
a dictionary from an address with its family to the name behind it, which keeps the order of arrival by itself; they are sound if that dictionary,
written out again, gives them back. The forward step is the one that the table's model has. A PTR name is made from the digits of its text. A call
that is cut is run, the state is put together that the cut leaves, and the call is run again on that.

    answer(call)      of a Call: ("ok", value, the PTR name), ("ok", value, table, reverse side), or ("refused", number)
    printed(answer)   an answer as the harness prints it

A refusal has place 0 and changes nothing; what stands behind a PTR name in out stays. The harness looks at that by itself.
"""

import itertools
import struct
from typing import Dict, NamedTuple, Optional, Tuple, Union

import table_model
from message_model import NO_PROPER_NAME, OUTPUT_SHORT, UNKNOWN_SETTING, Refusal
from table_model import ADDRESS_LENGTH, ADDRESS_SIZE, DHCID_MALFORMED, TABLE_NOT_SOUND, Table, is_dhcid, is_proper

REVERSE_FULL = 46

ADDRESSES = 128
SLOT = struct.Struct("B 16s B 255s")  # the family, the address, the name's length, the name; what is shorter is filled up with zeros
REVERSE_LENGTH = ADDRESSES * SLOT.size

Address = Tuple[int, bytes]  # with its family: the same four bytes may begin one of either
Reverse = Dict[Address, bytes]
Answer = Union[Tuple[str, int], Tuple[str, int, bytes], Tuple[str, int, bytes, bytes]]


class Call(NamedTuple):
    word: str  # ptr, lease or end, which have no more fields than they need
    table: bytes = b""
    reverse: bytes = b""
    name: bytes = b""
    dhcid: bytes = b""
    family: int = 0
    address: bytes = b""
    policy: int = 0
    out: int = 0  # an output's length
    cut: Optional[int] = None  # after so many writes power fails, and the call is run again on what was written


# PTR names

def ptr_name(family: int, address: bytes) -> bytes:
    """In-addr.arpa by bytes, ip6.arpa by half bytes (RFC 3596), the last one first"""
    labels = [str(byte) for byte in address[::-1]] + ["in-addr"] if family == 4 else list(address.hex()[::-1]) + ["ip6"]
    return b"".join(bytes([len(label)]) + label.encode("ascii") for label in labels + ["arpa", ""])


def ptr(call: Call) -> Answer:
    name = ptr_name(call.family, call.address)
    if call.out < len(name):
        raise Refusal(OUTPUT_SHORT)
    return ("ok", len(name), name)


# A reverse side's bytes

def written(reverse: Reverse) -> bytes:
    return b"".join(SLOT.pack(family, address, len(name), name) for (family, address), name in reverse.items()).ljust(REVERSE_LENGTH, b"\0")


def read(data: bytes) -> Reverse:
    """What does not fit into a reverse side, an address that comes again among it, is not written out again."""
    reverse: Reverse = {}
    if len(data) == REVERSE_LENGTH:
        for family, address, length, name in itertools.takewhile(lambda slot: slot[0] in ADDRESS_SIZE, SLOT.iter_unpack(data)):
            reverse[family, address[:ADDRESS_SIZE[family]]] = name[:length]
    if written(reverse) != data or not all(is_proper(name) and name == name.lower() for name in reverse.values()):
        raise Refusal(TABLE_NOT_SOUND)
    return reverse


# Leases. Both answer as the forward step does, and a step that is refused raises before anything is done to the reverse side.

def lease(table: Table, reverse: Reverse, step: table_model.Call) -> int:
    address = (step.family, step.address)
    if len(reverse) == ADDRESSES and address not in reverse:
        raise Refusal(REVERSE_FULL)
    value = table_model.add(table, step.name, step)
    reverse[address] = step.name  # an address that is there keeps its place, a new one stands last
    return value


def end(table: Table, reverse: Reverse, step: table_model.Call) -> int:
    address = (step.family, step.address)
    value = table_model.remove(table, step.name, step)
    if reverse.get(address) == step.name:
        del reverse[address]
    return value


def on_both_sides(call: Call) -> Answer:
    table, reverse = table_model.read(call.table), read(call.reverse)
    if not is_proper(call.name):
        raise Refusal(NO_PROPER_NAME)
    if not is_dhcid(call.dhcid):
        raise Refusal(DHCID_MALFORMED)
    if len(call.address) != ADDRESS_SIZE[call.family]:
        raise Refusal(ADDRESS_LENGTH)
    step = table_model.Call(call.word, b"", call.name.lower(), call.dhcid, call.family, call.address, call.policy)
    value = (lease if call.word == "lease" else end)(table, reverse, step)
    return ("ok", value, table_model.written(table), written(reverse))


def after_cut(call: Call) -> Call:
    """The same call on what is there after so many writes: a lease writes the table first, an end the reverse side."""
    call, cut = call._replace(cut=None), call.cut
    done = answer(call)
    if done[0] == "refused":  # it has written nothing
        return call
    sides = (("table", done[2]), ("reverse", done[3]))
    return call._replace(**dict((sides if call.word == "lease" else sides[::-1])[:cut]))


def answered(call: Call) -> Answer:
    if call.cut is not None:
        return answered(after_cut(call))
    if call.family not in ADDRESS_SIZE or call.policy not in (0, 1):
        raise Refusal(UNKNOWN_SETTING)
    if call.word != "ptr":
        return on_both_sides(call)
    if len(call.address) != ADDRESS_SIZE[call.family]:
        raise Refusal(ADDRESS_LENGTH)
    return ptr(call)


def answer(call: Call) -> Answer:
    try:
        return answered(call)
    except Refusal as refusal:
        return ("refused", refusal.args[0])


packed = table_model.packed


def printed(given: Answer) -> str:
    """The table and the reverse side stand one behind the other, as the harness has them."""
    if given[0] == "refused":
        return "refused %d at 0" % given[1]
    return "ok %d %s" % (given[1], packed(b"".join(given[2:])))


assert SLOT.size == 273 and REVERSE_LENGTH == 34944
