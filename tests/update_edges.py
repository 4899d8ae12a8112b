"""The hand-written calls of update_edges.txt, which says what they mean.

    read_edges()   [Edge(call, zeros, answer, why), ...]
    read_rows()    what the model's name server has to do: [Row(before, message, code, after, why), ...]
"""

import os
import re
from typing import Iterator, List, NamedTuple, Tuple, Union

from message_edges import read_bytes
from table_edges import RECORD, read_lines
from update_model import FIELDS, SLICES, Answer, Call
from update_server import Names

PATH = os.path.join(os.path.dirname(os.path.abspath(__file__)), "update_edges.txt")
TYPES = {"A": 1, "AAAA": 28, "DHCID": 49}
LIFETIME = 3600
NUMBERS = ("id", "family", "out")
ROW = ("names", "message")
SHARED = (12, 9, 15, 16)  # the refusals that the messages with an address have in common, before the last
SHARED_BY_ALL = (9, 15)


class Edge(NamedTuple):
    call: Call
    zeros: Tuple[int, ...]  # behind each of SLICES
    answer: Answer
    why: str


class Row(NamedTuple):
    before: Names
    message: bytes
    code: int
    after: Names
    why: str


def names_of(form: str) -> Names:
    names: Names = {}
    for node in re.findall(r"\{([^}]*)\}", form):
        name_form, *rest = RECORD.split(node)
        records = {(TYPES[kind], read_bytes(data, {}).data): LIFETIME for kind, data in zip(rest[::2], rest[1::2])}
        names[read_bytes(name_form, {}).data] = records
    return names


def row_of(before_form: str, message_form: str, answer_form: str, why: str) -> Row:
    code, after_form = answer_form.split(" ", 1)
    before = names_of(before_form)
    return Row(before, read_bytes(message_form, {}).data, int(code), before if after_form == "=" else names_of(after_form), why)


def answer_of(form: str) -> Answer:
    refused = re.fullmatch(r"refused (\d+)", form)
    if refused:
        return ("refused", int(refused[1]))
    value, *message = form.split(" ", 1)
    return ("ok", int(value), *(read_bytes(part, {}).data for part in message))


def edge_of(word: str, rest: List[str], answer: Answer, why: str) -> Edge:
    given = dict(zip(FIELDS[word], rest))
    numbers = {field: int(form) for field, form in given.items() if field in NUMBERS}
    parts = {field: read_bytes(given.get(field, "-"), {}) for field in SLICES}
    call = Call(word, **numbers, **{field: part.data for field, part in parts.items()})
    return Edge(call, tuple(part.zeros for part in parts.values()), answer, why)


def line_of(line: str) -> Union[Edge, Row]:
    word, *rest, answer_form, why = (column.strip() for column in line.split("|"))
    fields = ROW if word == "carried" else FIELDS.get(word)
    if fields is None or len(fields) != len(rest) or not why:
        raise ValueError("no call: " + line)
    return row_of(*rest, answer_form, why) if word == "carried" else edge_of(word, rest, answer_of(answer_form), why)


def also_asked(edge: Edge) -> Iterator[Edge]:
    """With just enough room, and with a byte less; and the other messages that are refused because a first add is"""
    call, zeros, answer, why = edge
    if len(answer) == 3:
        yield Edge(call._replace(out=answer[1]), zeros, answer, "just enough room: " + why)
        yield Edge(call._replace(out=answer[1] - 1), zeros, ("refused", 13), "a byte less room: " + why)
    if call.word == "add_first" and answer[0] == "refused" and answer[1] in SHARED:
        for word in ("add_second", "remove_first"):
            yield Edge(call._replace(word=word), zeros, answer, "%s too: %s" % (word, why))
        if answer[1] in SHARED_BY_ALL:
            yield Edge(call._replace(word="remove_second"), zeros, answer, "remove_second too: " + why)


def read_all() -> Tuple[List[Edge], List[Row]]:
    lines = read_lines(PATH, line_of)
    return [line for line in lines if isinstance(line, Edge)], [line for line in lines if isinstance(line, Row)]


def read_edges() -> List[Edge]:
    edges = read_all()[0]
    return edges + [asked for edge in edges for asked in also_asked(edge)]


def read_rows() -> List[Row]:
    return read_all()[1]
