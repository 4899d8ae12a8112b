"""The hand-written steps of table_edges.txt, which says what they mean.

    read_edges()            [Edge(call, zeros, answer, why), ...]
    read_table(form)        a table in the form of that file
    read_row(form, ..)      any row of slots in that form
    read_lines(path, of)    the lines of such a file
"""

import os
import re
from typing import Any, Callable, Dict, Iterator, List, NamedTuple, Tuple

from message_edges import Bytes, read_bytes
from table_model import A, AAAA, DHCID, SLOT, TABLE_LENGTH, Answer, Call

PATH = os.path.join(os.path.dirname(os.path.abspath(__file__)), "table_edges.txt")
WRITTEN_OUT = 200000  # a longer row has zeros behind it that are not


class Edge(NamedTuple):
    call: Call
    zeros: Tuple[int, int, int, int]  # behind the table, the name, the DHCID and the address
    answer: Answer
    why: str


# Tables

TOKEN = re.compile(r"\s+|\{(?P<slot>[^}]*)\}|n(?P<first>\d+)\.\.n(?P<last>\d+)(?!\S)|@(?P<at>\d+)\.(?P<offset>\d+):(?P<bytes>\S+)"
                   r"|length:(?P<length>\d+)$|-(?!\S)")
RECORD = re.compile(r"\s(A|AAAA|DHCID)\s")
FLAGS = {"A": A, "AAAA": AAAA, "DHCID": DHCID}
NUMBERED = "'n%d.' A 0a0000%02x DHCID 000001 d1*32"


def slot_bytes(form: str) -> bytes:
    """A name, and records behind their types; nothing is an unused slot."""
    name_form, *rest = RECORD.split(form)
    name = read_bytes(name_form, {}).data
    records = {FLAGS[kind]: read_bytes(data, {}).data for kind, data in zip(rest[::2], rest[1::2])}
    return SLOT.pack(len(name), name, sum(records), *(records.get(flag, b"") for flag in FLAGS.values()))


def read_row(form: str, slot_of: Callable[[str], bytes], numbered: str, size: int, length: int) -> Bytes:
    """A row of slots, each of that size and read by slot_of; together they have that length, if the form names no other."""
    slots, patches, full, at = b"", [], length, 0
    form = form.strip()
    while at < len(form):
        token = TOKEN.match(form, at)
        if not token:
            raise ValueError("no row of slots: " + form[at:])
        at = token.end()
        if token["slot"] is not None:
            slots += slot_of(token["slot"])
        elif token["first"]:
            slots += b"".join(slot_of(numbered % (number, number)) for number in range(int(token["first"]), int(token["last"]) + 1))
        elif token["bytes"]:
            patches.append((size * int(token["at"]) + int(token["offset"]), read_bytes(token["bytes"], {}).data))
        elif token["length"]:
            length = int(token["length"])
    data = slots.ljust(full, b"\0")
    for first, patch in patches:
        data = data[:first] + patch + data[first + len(patch):]
    return Bytes(data.ljust(length, b"\0")[:length]) if length <= WRITTEN_OUT else Bytes(data, length - len(data))


def read_table(form: str) -> Bytes:
    return read_row(form, slot_bytes, NUMBERED, SLOT.size, TABLE_LENGTH)


# Lines

COLUMNS = {"add": 9, "remove": 8, "clear": 5, "find": 5, "count": 4}


def answer_of(word: str, form: str) -> Answer:
    refused = re.fullmatch(r"refused (\d+)", form)
    if refused:
        return ("refused", int(refused[1]))
    if word in ("find", "count"):
        return ("ok", int(form))
    value, table_form = form.split(" ", 1)
    return ("ok", int(value), read_table(table_form).data)


def edge_of(line: str) -> Edge:
    word, table_form, *rest, answer_form, why = (column.strip() for column in line.split("|"))
    if COLUMNS.get(word) != 4 + len(rest) or not why:
        raise ValueError("no step: " + line)
    name_form, dhcid_form, family, address_form, policy = rest + ["-", "-", "0", "-", "0"][len(rest):]
    table = read_table(table_form)
    name, dhcid, address = (read_bytes(form, {}) for form in (name_form, dhcid_form, address_form))
    call = Call(word, table.data, name.data, dhcid.data, int(family), address.data, int(policy))
    return Edge(call, (table.zeros, name.zeros, dhcid.zeros, address.zeros), answer_of(word, answer_form), why)


def also_asked(edge: Edge) -> Iterator[Edge]:
    """The calls that are refused because this one is: a find with a clear, and a count where the table is not sound"""
    if edge.call.word == "clear" and edge.answer[0] == "refused":
        yield edge._replace(call=edge.call._replace(word="find"), why="find too: " + edge.why)
        if edge.answer == ("refused", 40):
            yield edge._replace(call=edge.call._replace(word="count", name=b""), why="count too: " + edge.why)


def read_lines(path: str, edge_of_line: Callable[[str], Any]) -> List[Any]:
    """What each line means, with the words put in that other lines define."""
    words: Dict[str, str] = {}
    edges = []
    with open(path, encoding="ascii") as file:
        for number, line in enumerate(file, 1):
            line = line.strip()
            try:
                if line and not line.startswith("#"):
                    defined = re.match(r"\$(\w+) = ", line)
                    whole = re.sub(r"\$(\w+)", lambda word: words[word[1]], line[defined.end() if defined else 0:])
                    if defined:
                        words[defined[1]] = whole
                    else:
                        edges.append(edge_of_line(whole))
            except (KeyError, ValueError) as error:
                raise SystemExit("%s:%d: %s" % (path, number, error)) from error
    return edges


def read_edges() -> List[Edge]:
    edges = read_lines(PATH, edge_of)
    return edges + [asked for edge in edges for asked in also_asked(edge)]
