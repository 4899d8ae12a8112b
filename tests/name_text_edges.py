"""The hand-written names of name_text_edges.txt, which says what they mean.

    read_edges()   [Edge(call, zeros, answer, why), ...]
"""

import os
import re
from typing import Iterator, List, NamedTuple, Tuple

from compare import unescaped
from message_edges import Bytes, read_bytes
from name_text_model import Answer, Call
from table_edges import read_lines

PATH = os.path.join(os.path.dirname(os.path.abspath(__file__)), "name_text_edges.txt")
THERE_AND_BACK = {"from": "again", "to": "back"}


class Edge(NamedTuple):
    call: Call
    zeros: Tuple[int]  # behind the text or the name
    answer: Answer
    why: str


def read_given(form: str) -> Bytes:
    """A text in quotes, with zeros behind it or not, or the bytes of a name"""
    text = re.fullmatch(r'"((?:[^"\\]|\\.)*)"(?: \+(\d+))?', form)
    return Bytes(unescaped(text[1]), int(text[2] or 0)) if text else read_bytes(form, {})


def answer_of(form: str) -> Answer:
    refused = re.fullmatch(r"refused (\d+)", form)
    return ("refused", int(refused[1])) if refused else ("ok", read_given(form).data)


def edges_of(line: str) -> Iterator[Edge]:
    word, given_form, out_len, answer_form, why = (column.strip() for column in line.split("|"))
    if word not in THERE_AND_BACK or not why:
        raise ValueError("no call: " + line)
    given, answer = read_given(given_form), answer_of(answer_form)
    yield Edge(Call(word, given.data, int(out_len)), (given.zeros,), answer, why)
    if answer != ("refused", 13):
        back = ("ok", given.data.lower()) if answer[0] == "ok" else answer  # a label's length is no letter
        yield Edge(Call(THERE_AND_BACK[word], given.data), (given.zeros,), back, "there and back: " + why)


def read_edges() -> List[Edge]:
    return [edge for edges in read_lines(PATH, lambda line: list(edges_of(line))) for edge in edges]
