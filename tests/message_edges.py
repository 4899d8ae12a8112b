"""The hand-written requests of message_edges.txt, which says what they mean.

    read_edges()   [Edge(call, zeros, answer, why), ...]
"""

import os
import re
from typing import Callable, Dict, List, NamedTuple, Tuple

from message_model import DHCID_LENGTH, RELAY_FORWARD, Answer, Call, dhcid_bytes

PATH = os.path.join(os.path.dirname(os.path.abspath(__file__)), "message_edges.txt")


class Bytes(NamedTuple):
    """Bytes with zeros behind them, of which there may be more than memory."""
    data: bytes
    zeros: int = 0


class Edge(NamedTuple):
    call: Call
    zeros: Tuple[int, int]  # behind the message and behind the site's name
    answer: Answer
    why: str


# Bytes

TOKEN = re.compile(r"\s+|(?P<hex>[0-9a-f]{2})(?:\*(?P<times>\d+))?|'(?P<name>[^']*)'|<<(?P<option6>\d+):|<(?P<option4>\d+):|(?P<relay>\[)"
                   r"|(?P<close>>>|>|\])|\$(?P<word>\w+)|\+(?P<zeros>\d+)\s*$|^(?P<none>-)$")


def name_bytes(text: str) -> bytes:
    """Labels with their lengths, a*63 for many; with a dot at its end the root's too."""
    labels = [re.sub(r"(.)\*(\d+)", lambda many: many[1] * int(many[2]), label).encode("ascii") for label in text.split(".")]
    return b"".join(bytes([len(label)]) + label for label in labels)


def option4(code: int, data: bytes) -> bytes:
    return bytes([code, len(data)]) + data


def option6(code: int, data: bytes) -> bytes:
    return code.to_bytes(2, "big") + len(data).to_bytes(2, "big") + data


def relay(data: bytes) -> bytes:
    return bytes([RELAY_FORWARD]) + bytes(33) + option6(9, data)


def read_bytes(form: str, words: Dict[str, bytes]) -> Bytes:
    # what stands outside of all brackets, and inside each that is open, with what closes it and what it then is
    levels: List[Tuple[str, Callable[[bytes], bytes], List[bytes]]] = [("", bytes, [])]
    at, zeros = 0, 0
    form = form.strip()
    while at < len(form):
        token = TOKEN.match(form, at)
        if not token:
            raise ValueError("no bytes: " + form[at:])
        at = token.end()
        if token["option4"]:
            levels.append((">", lambda data, code=int(token["option4"]): option4(code, data), []))
        elif token["option6"]:
            levels.append((">>", lambda data, code=int(token["option6"]): option6(code, data), []))
        elif token["relay"]:
            levels.append(("]", relay, []))
        elif token["close"]:
            close, make, parts = levels.pop()
            if close != token["close"]:
                raise ValueError("a %s too many: %s" % (token["close"], form))
            levels[-1][2].append(make(b"".join(parts)))
        elif token["zeros"]:
            zeros = int(token["zeros"])
        elif token["hex"]:
            levels[-1][2].append(bytes.fromhex(token["hex"]) * int(token["times"] or 1))
        elif token["word"]:
            levels[-1][2].append(words[token["word"]])
        elif token["name"] is not None:
            levels[-1][2].append(name_bytes(token["name"]))
    if len(levels) != 1:
        raise ValueError("not closed: " + form)
    return Bytes(b"".join(levels[0][2]), zeros)


# Lines

CALL = re.compile(r"(?P<word>name |dhcid )?(?P<family>\d+) (?P<setting>\d+)(?: (?P<out>\d+))?")
ANSWER = re.compile(r"refused (?P<refused>\d+)|type (?P<type>[012]): (?P<parts>\d+\+\d+(?: \d+\+\d+)?);"
                    r" (?:message (?P<name>\d+\+\d+)|site)(?:; (?P<dhcid>[0-9a-f]{70}))?")


def part_of(form: str) -> Tuple[int, int]:
    start, length = form.split("+")
    return int(start), int(length)


def answer_of(form: str, call: Call) -> Answer:
    said = ANSWER.fullmatch(form)
    if not said:
        raise ValueError("no answer: " + form)
    if said["refused"]:
        return ("refused", int(said["refused"]))
    start, length = part_of(said["name"]) if said["name"] else (0, len(call.site))
    name = (call.message if said["name"] else call.site)[start:start + length]
    if call.out_len is None:
        return ("ok", "message" if said["name"] else "site", start, length)
    identifier = b"".join(call.message[first:first + count] for first, count in map(part_of, said["parts"].split()))
    dhcid = dhcid_bytes(int(said["type"]), identifier, name)
    if said["dhcid"] and bytes.fromhex(said["dhcid"]) != dhcid:
        raise ValueError("type, identifier and name do not give this DHCID: " + form)
    return ("ok", dhcid)


def edges_of(line: str, words: Dict[str, bytes]) -> List[Edge]:
    call_form, message_form, site_form, answer_form, why = (column.strip() for column in line.split("|"))
    said = CALL.fullmatch(call_form)
    if not said or not why or (said["out"] is not None) != (said["word"] == "dhcid "):
        raise ValueError("no call: " + call_form)
    outs = [int(said["out"])] if said["out"] else [None] if said["word"] else [None, DHCID_LENGTH]
    message, site = read_bytes(message_form, words), read_bytes(site_form, words)
    calls = [Call(int(said["family"]), int(said["setting"]), message.data, site.data, out) for out in outs]
    return [Edge(call, (message.zeros, site.zeros), answer_of(answer_form, call), why) for call in calls]


def read_edges() -> List[Edge]:
    words: Dict[str, bytes] = {}
    edges: List[Edge] = []
    with open(PATH, encoding="ascii") as file:
        for number, line in enumerate(file, 1):
            line = line.strip()
            try:
                if line.startswith("$"):
                    word, form = line[1:].split("=")
                    words[word.strip()] = read_bytes(form, words).data
                elif line and not line.startswith("#"):
                    edges += edges_of(line, words)
            except (KeyError, ValueError) as error:
                raise SystemExit("%s:%d: %s" % (PATH, number, error)) from error
    return edges
