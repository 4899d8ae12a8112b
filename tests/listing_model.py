"""What the listing check has to answer: a second implementation of document 01's rules for a listing (docs/RULES.md, 6).

It was written from the paper and not from the library, and goes another way: comments are blanked out in the whole text, regular
expressions then cut it into entries and words, and each datum is compared with its own encoding or with a table of all spellings.

    read(text)    the answer with the records: ("ok", [record, ...]) or ("refused", number, place)
    answer(text)  the same as the harness prints it: "ok COUNT" or "refused NUMBER at PLACE"
"""

import base64
import binascii
import re
from typing import List, NamedTuple, Optional, Tuple, Union

LIMIT = 65536

LISTING_LONG, ENTRY_SHAPE, ENTRY_OWNER, ENTRY_TYPE, ENTRY_DATA = 17, 20, 21, 22, 24


class Record(NamedTuple):
    owner: bytes  # canonical wire form
    rtype: bytes  # b"A", b"AAAA" or b"DHCID"
    rdata: bytes  # 4, 16 or 35 bytes


Answer = Union[Tuple[str, List[Record]], Tuple[str, int, int]]


class Refusal(Exception):
    """A fault of an entry's contents: its number."""


# A comment does not care for parentheses: it is the rest of a line from the line's first semicolon on.
COMMENT = re.compile(rb";[^\n]*")
ALLOWED = re.compile(rb"[\t -~]")

# The longest piece of shape that is right, of a text without comments: bytes that are neither line end nor parenthesis, and pairs of
# parentheses with line ends among the bytes between. What follows it must be a line end or the end of the text.
ENTRY = re.compile(rb"[\t -'*-~]*(?:\([\t\n -'*-~]*\)[\t -'*-~]*)*")

WORD = re.compile(rb"[!-'*-~]+")  # no semicolon is left to be met

OWNER = re.compile(rb"(?:[A-Za-z0-9_-]{1,63}\.)+")
OWNER_TEXT_LIMIT = 254  # in wire form a length stands for each dot, and a zero byte follows: 255

DECIMAL = {b"%d" % number: number for number in range(256)}
GROUPS = re.compile(rb"[0-9A-Fa-f]{1,4}(?::[0-9A-Fa-f]{1,4}){7}")
HEX_WORD = re.compile(rb"(?:[0-9A-Fa-f]{2})+")


def without_comments(text: bytes) -> bytes:
    """Blanks for the bytes of comments; a byte that is not allowed stays and is met later, as it is a fault there too."""
    return COMMENT.sub(lambda comment: ALLOWED.sub(b" ", comment[0]), text) if b";" in text else text


def owner_wire(word: bytes) -> bytes:
    """A proper name in text, in canonical wire form."""
    if len(word) > OWNER_TEXT_LIMIT or not OWNER.fullmatch(word):
        raise Refusal(ENTRY_OWNER)
    labels = word.lower().split(b".")  # the last one is empty, and is the root's
    return b"".join(bytes([len(label)]) + label for label in labels)


def a_data(words: List[bytes]) -> Optional[bytes]:
    numbers = [DECIMAL.get(number) for number in words[0].split(b".")] if len(words) == 1 else []
    return bytes(numbers) if len(numbers) == 4 and None not in numbers else None


def aaaa_data(words: List[bytes]) -> Optional[bytes]:
    if len(words) != 1 or not GROUPS.fullmatch(words[0]):
        return None
    return b"".join(int(group, 16).to_bytes(2, "big") for group in words[0].split(b":"))


def dhcid_data(words: List[bytes]) -> Optional[bytes]:
    if words[:1] == [b"\\#"]:
        if words[1:2] != [b"35"] or not all(HEX_WORD.fullmatch(word) for word in words[2:]):
            return None
        data = bytes.fromhex(b"".join(words[2:]).decode("ascii"))
    else:
        digits = b"".join(words)
        try:
            data = base64.b64decode(digits, validate=True)
        except binascii.Error:
            return None
        if base64.b64encode(data) != digits:  # spare bits, or padding that the decoder overlooks
            return None
    # Refusal 15's test: 35 bytes, identifier type 0, 1 or 2 in two bytes, digest type 1
    return data if len(data) == 35 and data[:3] in (b"\0\0\1", b"\0\1\1", b"\0\2\1") else None


DATA = {b"A": a_data, b"AAAA": aaaa_data, b"DHCID": dhcid_data}


def record_of(entry: bytes) -> Optional[Record]:
    """What an entry of right shape is: a record, none if it has no words, or a refusal."""
    words = WORD.findall(entry)
    if not words:
        return None
    if not entry.startswith(words[0]):
        raise Refusal(ENTRY_OWNER)
    owner = owner_wire(words[0])
    head = 2 if words[1:2] and words[1].upper() == b"IN" else 1
    rtype = words[head].upper() if len(words) > head else b""
    if rtype not in DATA:
        raise Refusal(ENTRY_TYPE)
    data = DATA[rtype](words[head + 1:])
    if data is None:
        raise Refusal(ENTRY_DATA)
    return Record(owner, rtype, data)


def read(text: bytes) -> Answer:
    if len(text) > LIMIT:
        return ("refused", LISTING_LONG, 0)
    text = without_comments(text)
    records: List[Record] = []
    place = 0
    while True:
        end = ENTRY.match(text, place).end()
        if end < len(text) and text[end] != 10:
            return ("refused", ENTRY_SHAPE, place)
        try:
            record = record_of(text[place:end])
        except Refusal as refusal:
            return ("refused", refusal.args[0], place)
        if record is not None:
            records.append(record)
        if end == len(text):
            return ("ok", records)
        place = end + 1


def printed(answer_: Answer) -> str:
    """An answer as the harness prints it."""
    if answer_[0] == "ok":
        return "ok %d" % len(answer_[1])
    return "refused %d at %d" % answer_[1:]


def answer(text: bytes) -> str:
    return printed(read(text))
