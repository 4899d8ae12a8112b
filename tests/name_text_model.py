"""What the calls on names in text have to answer: a second implementation of document 01's rules for names
(docs/RULES.md, 3.1 to 3.3).

It was written from the paper and the header and not from the library, and goes another way: a regular expression judges a text, and its labels are
what is between the dots; a name is cut by the lengths that it says, and is proper exactly if its text, read again, is that name.

    answer(call)      of a Call: ("ok", the bytes written) or ("refused", number)
    printed(answer)   an answer as the harness prints it

A refusal has place 0 and writes nothing; an accepted call leaves what is behind the written bytes in out as it was. The harness looks at that by
itself.
"""

import re
from typing import NamedTuple, Tuple, Union

from message_model import NO_PROPER_NAME, OUTPUT_SHORT, Refusal

TEXT = re.compile(rb"(?:[A-Za-z0-9_-]{1,63}\.)+")
TEXT_LIMIT = 254

Answer = Union[Tuple[str, bytes], Tuple[str, int]]


class Call(NamedTuple):
    word: str  # from, to; again, back: there and back from a text, from a name
    given: bytes
    out_len: int = 255  # of from and to


def from_text(text: bytes) -> bytes:
    if not TEXT.fullmatch(text) or len(text) > TEXT_LIMIT:
        raise Refusal(NO_PROPER_NAME)
    return b"".join(bytes([len(label)]) + label for label in text.lower().split(b"."))  # nothing is behind the last dot: the zero byte


def to_text(name: bytes) -> bytes:
    labels, rest = [], name
    while rest:
        labels.append(rest[1:1 + rest[0]].lower())
        rest = rest[1 + rest[0]:]
    text = b".".join(labels)
    if from_text(text) != name.lower():  # a length over 63 may be a letter's byte, and its text is none
        raise Refusal(NO_PROPER_NAME)
    return text


WRITTEN = {
    "from": from_text,
    "to": to_text,
    "again": lambda text: to_text(from_text(text)),
    "back": lambda name: from_text(to_text(name)),
}


def answer(call: Call) -> Answer:
    try:
        written = WRITTEN[call.word](call.given)
    except Refusal as refusal:
        return ("refused", refusal.args[0])
    return ("refused", OUTPUT_SHORT) if len(written) > call.out_len else ("ok", written)


def printed(given: Answer) -> str:
    return "refused %d at 0" % given[1] if given[0] == "refused" else "ok %d %s" % (len(given[1]), given[1].hex())
