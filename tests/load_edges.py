"""The hand-written calls of load_edges.txt, which says what they mean.

    read_edges()   [Edge(call, zeros, answer, why), ...]
"""

import os
import re
from typing import List, NamedTuple, Tuple

from compare import unescaped
from load_model import Answer, Call
from message_edges import Bytes
from table_edges import read_lines, read_table

PATH = os.path.join(os.path.dirname(os.path.abspath(__file__)), "load_edges.txt")


class Edge(NamedTuple):
    call: Call
    zeros: Tuple[int, int, int]  # behind the table, the area and the text
    answer: Answer
    why: str


NUMBERED = re.compile(r"\[(\d+)\.\.(\d+): ([^]]*)\]")
NUMBER = re.compile(r"%(?:02)?[dx]")


def numbered(many: "re.Match[str]") -> str:
    first, last = int(many[1]), int(many[2])
    numbers = range(first, last + 1) if first <= last else range(first, last - 1, -1)
    return "".join(NUMBER.sub(lambda form, number=number: form[0] % number, many[3]) for number in numbers)


def read_text(form: str) -> Bytes:
    said = re.fullmatch(r'"(.*)"(?: \+(\d+))?', form)
    if not said:
        raise ValueError("no text: " + form)
    return Bytes(unescaped(said[1]), int(said[2] or 0))


def answer_of(word: str, form: str) -> Answer:
    refused = re.fullmatch(r"refused (\d+)(?: at (\d+))?", form)
    if refused:
        return ("refused", int(refused[1]), int(refused[2] or 0))
    if word != "write":
        return ("ok", 0, read_table(form).data)
    length, text = form.split(" ", 1)
    return ("ok", int(length), read_text(text).data)


def edge_of(line: str) -> Edge:
    word, one, other, answer, why = (column.strip() for column in NUMBERED.sub(numbered, line).split("|"))
    if not why:
        raise ValueError("no reason")
    table, area, text, out = Bytes(b""), Bytes(b""), Bytes(b""), 0
    if word == "load":
        area, text = read_table(one), read_text(other)
    elif word == "write":
        table, out = read_table(one), int(other)
    elif word == "again":
        table, area = read_table(one), read_table(other)
    else:
        raise ValueError("no call: " + word)
    return Edge(Call(word, table.data, out, area.data, text.data), (table.zeros, area.zeros, text.zeros), answer_of(word, answer), why)


def read_edges() -> List[Edge]:
    return read_lines(PATH, edge_of)
