"""The hand-written calls of lease_edges.txt, which says what they mean.

    read_edges()         [Edge(call, zeros, answer, why), ...]
    read_reverse(form)   a reverse side in the form of that file
"""

import os
import re
from typing import Iterator, List, NamedTuple, Tuple

from lease_model import Answer, Call
from message_edges import Bytes, read_bytes
from table_edges import read_lines, read_row, read_table

PATH = os.path.join(os.path.dirname(os.path.abspath(__file__)), "lease_edges.txt")
SLOT, REVERSE = 273, 34944
TABLE_SLOT = 312
SHARED = (12, 40, 9, 15, 16)  # the refusals that a lease and an end have in common, before all others


class Edge(NamedTuple):
    call: Call
    zeros: Tuple[int, int, int, int, int]  # behind the table, the reverse side, the name, the DHCID and the address
    answer: Answer
    why: str
    is_same_again: bool = False  # the same call on the same sides, asked again


# Reverse sides

POINTER = re.compile(r"\s*(?P<family>\d+)\s+(?P<address>\S.*?)\s+PTR\s+(?P<name>\S.*)")
NUMBERED = "4 0a0000%02x PTR 'n%d.'"


def slot_bytes(form: str) -> bytes:
    """A family, an address and the name behind it; nothing is an unused slot."""
    if not form.strip():
        return bytes(SLOT)
    said = POINTER.fullmatch(form)
    if not said:
        raise ValueError("no slot: " + form)
    address, name = read_bytes(said["address"], {}).data, read_bytes(said["name"], {}).data
    return bytes([int(said["family"])]) + address.ljust(16, b"\0") + bytes([len(name)]) + name.ljust(255, b"\0")


def read_reverse(form: str) -> Bytes:
    return read_row(form, slot_bytes, NUMBERED, SLOT, REVERSE)


# Lines

COLUMNS = {"ptr": 6, "lease": 10, "end": 9}


def answer_of(call: Call, form: str) -> Answer:
    refused = re.fullmatch(r"refused (\d+)", form)
    if refused:
        return ("refused", int(refused[1]))
    value, written = form.split(" ", 1)
    if call.word == "ptr":
        return ("ok", int(value), read_bytes(written, {}).data)
    table, reverse = (side.strip() for side in written.split("/"))
    return ("ok", int(value), call.table if table == "=" else read_table(table).data, call.reverse if reverse == "=" else read_reverse(reverse).data)


def edge_of(line: str) -> Edge:
    word, *rest, answer_form, why = (column.strip() for column in line.split("|"))
    if COLUMNS.get(word) != 3 + len(rest) or not why:
        raise ValueError("no call: " + line)
    if word == "ptr":
        family, address_form, out = rest
        address = read_bytes(address_form, {})
        call, zeros = Call(word, family=int(family), address=address.data, out=int(out)), (0, 0, 0, 0, address.zeros)
    else:
        table_form, reverse_form, name_form, dhcid_form, family, address_form, policy = rest + ["0"][len(rest) - 6:]
        table, reverse = read_table(table_form), read_reverse(reverse_form)
        name, dhcid, address = (read_bytes(form, {}) for form in (name_form, dhcid_form, address_form))
        call = Call(word, table.data, reverse.data, name.data, dhcid.data, int(family), address.data, int(policy))
        zeros = (table.zeros, reverse.zeros, name.zeros, dhcid.zeros, address.zeros)
    return Edge(call, zeros, answer_of(call, answer_form), why)


def has_name(table: bytes, name: bytes) -> bool:
    return any(table[at + 1:at + 1 + table[at]] == name for at in range(0, len(table), TABLE_SLOT))


def again(call: Call, answer: Answer, cut: int) -> Answer:
    """What an accepted call answers when it is run again after a cut: it ends in the same state."""
    if cut == 0:
        return answer
    if call.word == "lease":
        return ("ok", 1, *answer[2:])
    if cut == 1:
        return answer
    return ("refused", 34 if has_name(answer[2], call.name.lower()) else 33)


def also_asked(edge: Edge) -> Iterator[Edge]:
    """The same call after each cut; and a lease that is refused because an end is"""
    call, zeros, answer, why, _ = edge
    if call.word == "ptr":
        return
    if not any(zeros):
        for cut in (0, 1, 2) if answer[0] == "ok" else (2,):
            yield Edge(call._replace(cut=cut), zeros, answer if answer[0] == "refused" else again(call, answer, cut),
                       "again after %d writes: %s" % (cut, why), cut == 0 or answer[0] == "refused")
    if call.word == "end" and answer[0] == "refused" and answer[1] in SHARED:
        yield Edge(call._replace(word="lease"), zeros, answer, "lease too: " + why)


def read_edges() -> List[Edge]:
    edges = read_lines(PATH, edge_of)
    return edges + [asked for edge in edges for asked in also_asked(edge)]
