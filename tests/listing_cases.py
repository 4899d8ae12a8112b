"""Texts for the listing check: sound ones, damaged ones, and every text of some small forms.

    generated(seed, batch, count)  cases by chance, the same ones for the same numbers
    small_forms()                  every text of three small forms
    python3 -B tests/listing_cases.py SEED COUNT   the lines for the harness

A case says what it was meant to be wherever the way that it was made settles that: a sound listing is put together from records that
are known, and a faulty entry is made to have one fault. The model has to agree, so that it is not the only judge.
"""

import base64
import itertools
import random
import re
import struct
from typing import Callable, Dict, Iterator, List, NamedTuple, Optional, Tuple

from chance import LABEL_BYTES, label_lengths, pick_bytes, print_lines
from listing_model import LIMIT, Answer, Record

BATCH = 2000


class Case(NamedTuple):
    kind: str
    text: bytes
    meant: Optional[Answer]


class Entry(NamedTuple):
    text: bytes
    record: Optional[Record]


class Fault(NamedTuple):
    text: bytes
    number: int
    last: bool = False  # whether it is this fault only as the last entry


PRINTABLE = bytes(range(32, 127)) + b"\t"
FORBIDDEN = bytes(range(0, 9)) + bytes(range(11, 32)) + bytes(range(127, 256))
# The first and last byte of every class that the rules know, and the bytes beside them
EDGE_BYTES = (b"\x00\x08\t\n\x0b\x0d\x1f !\"#$'()*+,-./09:;<=@AFGINZ[\\]^_`afginz{|}~\x7f\x80\x8a\xa8\xff")


def either_case(rng: random.Random, word: bytes) -> bytes:
    way = rng.randrange(4)
    if way == 0:
        return bytes(rng.choice((byte, byte ^ 32)) if 65 <= byte <= 90 else byte for byte in word)
    return word.lower() if way == 1 else word


# Owners

def name_of(rng: random.Random, lengths: List[int]) -> bytes:
    return b"".join(pick_bytes(rng, LABEL_BYTES, length) + b"." for length in lengths)


def wire(name: bytes) -> bytes:
    return b"".join(bytes([len(label)]) + label for label in name.lower().split(b"."))


# Data: a spelling in words

def cut(rng: random.Random, digits: bytes, step: int) -> List[bytes]:
    """The same characters in some number of words, cut at multiples of a step."""
    places = range(step, len(digits), step)
    count = rng.choice((0, 0, 1, 1, 2, 3, rng.randint(0, len(places))))
    marks = [0] + sorted(rng.sample(places, min(count, len(places)))) + [len(digits)]
    return [digits[a:b] for a, b in zip(marks, marks[1:])]


def a_words(_: random.Random, data: bytes) -> List[bytes]:
    return [b".".join(b"%d" % byte for byte in data)]


def aaaa_words(rng: random.Random, data: bytes) -> List[bytes]:
    spelled = [b"%x" % group for group in struct.unpack(">8H", data)]
    spelled = [group.rjust(rng.randint(len(group), 4), b"0") for group in spelled]
    return [b":".join(group.upper() if rng.random() < 0.5 else group for group in spelled)]


def hex_words(rng: random.Random, data: bytes, length: bytes = b"35") -> List[bytes]:
    digits = bytes(data.hex(), "ascii")
    way = rng.randrange(3)
    digits = digits.upper() if way == 0 else either_case(rng, digits.upper()) if way == 1 else digits
    return [b"\\#", length] + cut(rng, digits, 2)


def dhcid_words(rng: random.Random, data: bytes) -> List[bytes]:
    return hex_words(rng, data) if rng.random() < 0.4 else cut(rng, base64.b64encode(data), 1)


WORDS_OF: Dict[bytes, Callable[[random.Random, bytes], List[bytes]]] = {b"A": a_words, b"AAAA": aaaa_words, b"DHCID": dhcid_words}


def some_a(rng: random.Random) -> bytes:
    return bytes(rng.choice((0, 1, 9, 10, 99, 100, 199, 200, 249, 250, 255, rng.randrange(256))) for _ in range(4))


def some_aaaa(rng: random.Random) -> bytes:
    return struct.pack(">8H", *(rng.choice((0, 1, 0xF, 0x10, 0xFF, 0x100, 0xFFF, 0x1000, 0xFFFF, rng.randrange(65536))) for _ in range(8)))


def some_dhcid(rng: random.Random) -> bytes:
    digest = rng.choice((bytes(32), b"\xff" * 32, None, None, None, None)) or bytes(rng.getrandbits(8) for _ in range(32))
    return bytes([0, rng.randrange(3), 1]) + digest


SOME_DATA: Dict[bytes, Callable[[random.Random], bytes]] = {b"A": some_a, b"AAAA": some_aaaa, b"DHCID": some_dhcid}


# Entries

def comment(rng: random.Random) -> bytes:
    return b";" + rng.choice((b"", b" ( ", b")", b";;", b" a. A 1.2.3.4", pick_bytes(rng, PRINTABLE, rng.randint(1, 20))))


BLANKS = (b" ", b" ", b"\t", b"  ", b" \t ")


def gap(rng: random.Random, inside: bool, needed: bool) -> Tuple[bytes, bool]:
    """What stands between two words: some blanks, parentheses, comments and line ends; whether it leads into parentheses."""
    out = b""
    for _ in range(rng.choice((1, 1, 2, 3))):
        way = rng.randrange(7)
        if way < 3:
            out += rng.choice(BLANKS)
        elif way < 5:
            out += b")" if inside else b"("
            inside = not inside
        elif inside:
            out += (comment(rng) if way == 5 else rng.choice((b"", b" "))) + b"\n"
        else:
            out += rng.choice((b"()", b"(\n)", b"(" + comment(rng) + b"\n)"))
    return out or (b" " if needed else b""), inside


def laid_out(rng: random.Random, words: List[bytes], plain: bool = False) -> bytes:
    """Words as an entry of right shape that begins with the first of them."""
    if plain or rng.random() < 0.5:
        return b" ".join(words)
    out, inside = words[0], False
    for word in words[1:]:
        between, inside = gap(rng, inside, True)
        out += between + word
    behind, inside = gap(rng, inside, False)
    out += behind + (b")" if inside else b"")
    return out + comment(rng) if rng.random() < 0.3 else out


def words_of(rng: random.Random, owner: bytes, rtype: bytes, data: bytes) -> List[bytes]:
    spelled = WORDS_OF[rtype](rng, data)
    head = [either_case(rng, b"IN")] if rng.random() < 0.4 else []
    return [owner] + head + [either_case(rng, rtype)] + spelled


def record_words(rng: random.Random, rtype: Optional[bytes] = None) -> Tuple[Record, List[bytes]]:
    rtype = rtype or rng.choice((b"A", b"AAAA", b"DHCID"))
    owner = name_of(rng, label_lengths(rng))
    data = SOME_DATA[rtype](rng)
    return Record(wire(owner), rtype, data), words_of(rng, owner, rtype, data)


def sound_entry(rng: random.Random) -> Entry:
    record, words = record_words(rng)
    return Entry(laid_out(rng, words), record)


def silent_entry(rng: random.Random) -> Entry:
    """No words."""
    shape, inside = b"", False
    for _ in range(rng.randrange(4)):
        piece, inside = gap(rng, inside, False)
        shape += piece
    shape += b")" if inside else b""
    return Entry(shape + comment(rng) if rng.random() < 0.4 else shape, None)


# Entries with one fault

def bad_name(rng: random.Random) -> bytes:
    way = rng.randrange(8)
    if way == 0:  # a label of 64 and more
        lengths = [rng.randint(1, 5) for _ in range(rng.randrange(3))] + [rng.choice((64, 64, 65, 100))]
        rng.shuffle(lengths)
        return name_of(rng, lengths)
    if way == 1:  # 256 bytes in wire form and more
        return name_of(rng, rng.choice(([63, 63, 63, 62], [63, 63, 63, 63], [1] * 128, [1] * 126 + [2], [50, 50, 50, 50, 50],
                                        [62, 63, 63, 63])))
    name = name_of(rng, label_lengths(rng))
    if way == 2:
        return name[:-1]  # the last dot is missing
    if way == 3:
        return rng.choice((b".", b"..", b"." + name, name + b".", name.replace(b".", b"..", 1)))
    if way == 4:
        return rng.choice((b"@", b"*." + name, b"$ORIGIN", b"\\097.", b'"a."'))
    at = rng.randrange(len(name))
    return name[:at] + pick_bytes(rng, b"!\"#$%&'*+,/:<=>?@[\\]^`{|}~", 1) + name[at + 1:]


def bad_head(rng: random.Random) -> List[bytes]:
    other = [rng.choice((b"CH", b"HS", b"ANY", b"TXT", b"NS", b"AA", b"AAA", b"AAAAA", b"DHCI", b"DHCIDX", b"DHCD", b"3600", b"1h", b"I",
                         b"INA", b"TYPE1", b"TYPE49", b"CLASS1", b"1.2.3.4", b"a.", b"\\#", b"*", b"A.", b"A,", b"-A", b"aaab", b"@"))]
    return rng.choice(([], [b"IN"], [b"IN", b"IN"], other, other, other, [b"in"] + other, other + [b"IN"], [b"IN", b"In", b"A"]))


def bad_number(rng: random.Random) -> bytes:
    return rng.choice((b"256", b"257", b"260", b"300", b"999", b"1000", b"01", b"00", b"000", b"007", b"0255", b"", b"a", b"-1", b"+1", b"0x1",
                       b"1e1", b"4294967296", b"18446744073709551616", b"1/", b":", b"1,"))


def bad_group(rng: random.Random) -> bytes:
    return rng.choice((b"00000", b"12345", b"fffff", b"", b"g", b"G", b"0x1", b"-1", b"@", b"`", b"/", b"1.", b"fffg", b"1%1", b"123456789"))


def bad_a(rng: random.Random) -> List[bytes]:
    numbers = a_words(rng, some_a(rng))[0].split(b".")
    way = rng.randrange(5)
    if way == 0:
        return [b".".join(numbers[:rng.randrange(1, 4)])]
    if way == 1:
        return [b".".join(numbers + [b"%d" % rng.randrange(256)])]
    if way == 2:
        return rng.choice(([b".".join(numbers) + b"."], [b"." + b".".join(numbers)], numbers, [b":".join(numbers)], [b"\\#", b"4", b"01020304"]))
    numbers[rng.randrange(4)] = bad_number(rng)
    return [b".".join(numbers)] if numbers != [b"", b"", b"", b""] else [b"..."]


def bad_aaaa(rng: random.Random) -> List[bytes]:
    groups = aaaa_words(rng, some_aaaa(rng))[0].split(b":")
    way = rng.randrange(6)
    if way == 0:
        return [b":".join(groups[:rng.choice((1, 2, 6, 7, 7, 7))])]
    if way == 1:
        return [b":".join(groups + [b"%x" % rng.randrange(65536)])]
    if way == 2:
        at = rng.randrange(8)
        return [b":".join(groups[:at]) + b"::" + b":".join(groups[at + 1:])]
    if way == 3:
        return rng.choice(([b":".join(groups) + b":"], [b":" + b":".join(groups)], [b".".join(groups)], [b":".join(groups[:6]) + b":1.2.3.4"],
                           [b":".join(groups[:4]), b":".join(groups[4:])], [b":".join(groups) + b"%eth0"], [b"::"], [b"::1"]))
    groups[rng.randrange(8)] = bad_group(rng)
    return [b":".join(groups)]


BASE64 = b"ABCDEFGHIJKLMNOPQRSTUVWXYZabcdefghijklmnopqrstuvwxyz0123456789+/"


def bad_dhcid(rng: random.Random) -> List[bytes]:
    data = some_dhcid(rng)
    way = rng.choice((0, 0, 1, 2, 3, 4, 5, 6, 7, 8))
    if way == 0:  # the form of the data
        head = rng.choice((b"\0\3\1", b"\0\3\1", b"\0\3\1", b"\1\0\1", b"\1\2\1", b"\xff\xff\1", b"\0\x80\1", b"\0\0\0", b"\0\1\2", b"\0\2\xff", b"\0\4\1"))
        return hex_words(rng, head + data[3:]) if rng.random() < 0.5 else cut(rng, base64.b64encode(head + data[3:]), 1)
    if way == 1:  # another length, in either form
        data = rng.choice((data[:-1], data[:-2], data + b"\0", data + b"\0\0", data * 2, data[:3], data[1:]))
        return (hex_words(rng, data, rng.choice((b"35", b"%d" % len(data)))) if rng.random() < 0.5
                else cut(rng, base64.b64encode(data), 1))
    digits = base64.b64encode(data)
    if way == 2:  # spare bits
        last = BASE64[BASE64.index(digits[46]) + rng.randint(1, 3)]
        return cut(rng, digits[:46] + bytes([last]) + b"=", 1)
    if way == 3:  # padding
        at = rng.randrange(47)
        return cut(rng, rng.choice((digits[:-1], digits + b"=", digits[:-1] + b"A", digits[:at] + b"=" + digits[at + 1:],
                                    digits[:at] + b"=" + digits[at:], digits[:-2] + b"==", digits[:-2] + b"=")), 1)
    if way == 4:  # a digit of no alphabet, or of the other one
        at = rng.randrange(47)
        return cut(rng, digits[:at] + pick_bytes(rng, b"-_.,*:@[`{!\"#\\]^|}~?&'%$<>", 1) + digits[at + 1:], 1)
    words = hex_words(rng, data)
    if way == 5:  # the length's word
        words[1] = rng.choice((b"34", b"36", b"035", b"3", b"0", b"35.", b"+35", b"0x23", b"350", b"23"))
        return words
    if way == 6:  # words of an odd number of digits
        digits = b"".join(words[2:])
        at = rng.randrange(1, 70, 2)
        return words[:2] + [digits[:at], digits[at:]]
    if way == 7:  # a digit of no hexadecimal number
        at = rng.randrange(2, len(words))
        place = rng.randrange(len(words[at]))
        words[at] = words[at][:place] + pick_bytes(rng, b"gG/:@`xzZ-.=+", 1) + words[at][place + 1:]
        return words
    return rng.choice((words[:1], words[:2], words[1:], words[:1] + words[2:], [b"\\#35"] + words[2:], [b"\\", b"#"] + words[1:],
                       [b"#"] + words[1:], words[:-1], words + [b"00"], [b"\\#", b"3", b"5"] + words[2:], [words[0]] + words))


BAD_DATA = {b"A": bad_a, b"AAAA": bad_aaaa, b"DHCID": bad_dhcid}
WORD_BEHIND = (b"x", b"=", b"A", b"IN", b"1.2.3.4", b"1", b"0", b"!", b"~", b"\\", b"a.")


def faulty_entry(rng: random.Random) -> Fault:
    record, words = record_words(rng)
    number = rng.choice((20, 21, 22, 24, 24))
    if number == 20:
        way = rng.randrange(4)
        if way == 0:
            return Fault(words[0] + b"(" + rng.choice(BLANKS) + laid_out(rng, words[1:], True), 20, last=True)
        if way == 1:
            return Fault(words[0] + rng.choice((b" ((", b"()(\n(", b"(;\n(", b")", b"())", b"(;)\n))")) + laid_out(rng, words[1:], True), 20)
        text = laid_out(rng, words) if way == 2 else silent_entry(rng).text
        at = rng.randint(0, len(text))
        return Fault(text[:at] + pick_bytes(rng, FORBIDDEN, 1) + text[at:], 20)
    if number == 21:
        if rng.random() < 0.3:
            in_front = rng.choice((b" ", b"\t", b"()", b"(\n)", b"( ", b"(;\n"))
            behind = b"" if in_front.count(b"(") == in_front.count(b")") else b")"
            return Fault(in_front + laid_out(rng, words, plain=behind == b")") + behind, 21)
        return Fault(laid_out(rng, [bad_name(rng)] + words[1:]), 21)
    if number == 22:
        head = bad_head(rng)
        rest = words[1:] if head not in ([], [b"IN"]) else []
        return Fault(laid_out(rng, words[:1] + head + rest), 22)
    head = words[:words.index(next(word for word in words[1:] if word.upper() == record.rtype), 1) + 1]
    way = rng.randrange(8)
    if way == 0:
        return Fault(laid_out(rng, head), 24)  # no data
    if way == 1:
        return Fault(laid_out(rng, words + [rng.choice(WORD_BEHIND)]), 24)
    return Fault(laid_out(rng, head + [word for word in BAD_DATA[record.rtype](rng) if word]), 24)


# Listings

class Parts:
    """A stock of entries; listings are put together from it."""

    def __init__(self, rng: random.Random) -> None:
        self.sound = [sound_entry(rng) for _ in range(400)]
        self.silent = [silent_entry(rng) for _ in range(60)]
        self.faulty = [faulty_entry(rng) for _ in range(600)]


def some_entries(rng: random.Random, parts: Parts, count: int) -> List[Entry]:
    entries = []
    for _ in range(count):
        if rng.random() < 0.2:
            entries.append(rng.choice(parts.silent))
        entries.append(rng.choice(parts.sound))
    return entries


def joined(rng: random.Random, entries: List[Entry]) -> bytes:
    text = b"\n".join(entry.text for entry in entries)
    return text + b"\n" if rng.random() < 0.7 else text


def records_of(entries: List[Entry]) -> List[Record]:
    return [entry.record for entry in entries if entry.record is not None]


def how_many(rng: random.Random) -> int:
    return rng.choice((1, 1, 1, 2, 2, 3, 3, 4, 5, rng.randint(6, 12))) if rng.random() < 0.97 else rng.randint(13, 30)


def sound(rng: random.Random, parts: Parts) -> Case:
    entries = some_entries(rng, parts, how_many(rng))
    return Case("sound", joined(rng, entries), ("ok", records_of(entries)))


def silent(rng: random.Random, parts: Parts) -> Case:
    return Case("silent", joined(rng, rng.choices(parts.silent, k=rng.randint(1, 6))), ("ok", []))


def faulty(rng: random.Random, parts: Parts) -> Case:
    fault = rng.choice(parts.faulty)
    before = some_entries(rng, parts, how_many(rng) - 1)
    if not before and rng.random() < 0.5:
        before = [rng.choice(parts.silent)]
    after = [] if fault.last else [entry.text for entry in some_entries(rng, parts, rng.randrange(3))]
    if after and rng.random() < 0.3:  # a second faulty entry changes nothing
        after.append(rng.choice(parts.faulty).text)
    start = b"".join(entry.text + b"\n" for entry in before)
    return Case("faulty", start + b"\n".join([fault.text] + after), ("refused", fault.number, len(start)))


WORDS = re.compile(rb"[!-'*-:<-~]+")
EXTRA = WORD_BEHIND + (b"IN", b"in", b"A", b"AAAA", b"DHCID", b"\\#", b"35", b"00", b"b.", b"CH", b"3600")


def place_in(rng: random.Random, text: bytes) -> int:
    """A place of the text: any one, or one beside a word's edge, or beside a line end."""
    way = rng.randrange(3)
    if way == 0 or not text:
        return rng.randint(0, len(text))
    if way == 1:
        spans = [match.span() for match in WORDS.finditer(text)]
        return rng.choice(rng.choice(spans)) if spans else 0
    ends = [match.start() for match in re.finditer(rb"\n", text)] + [0, len(text)]
    return min(len(text), max(0, rng.choice(ends) + rng.randint(-1, 2)))


def damage(rng: random.Random, text: bytes) -> bytes:
    """One change, at a place of any kind."""
    way = rng.randrange(16)
    at = place_in(rng, text)
    if way == 0:
        return text[:at] + pick_bytes(rng, EDGE_BYTES, 1) + text[at + 1:]
    if way == 1:
        return text[:at] + pick_bytes(rng, EDGE_BYTES, 1) + text[at:]
    if way == 2:
        return text[:at] + text[at + 1:]
    if way == 3:
        return text[:at + 1] + text[at:]
    if way == 4:
        return text[:at] + bytes([text[at] ^ 1 << rng.randrange(8)]) + text[at + 1:] if at < len(text) else text[:-1]
    if way == 5:
        return text[:at] if rng.random() < 0.6 else text[at:]
    if way == 6:
        return text[:at] + rng.choice((b"(", b")", b"(", b")", b";", b"()", b")(", b"(\n", b"\n)", b";\n")) + text[at:]
    if way == 7:
        return text[:at] + rng.choice((b" ", b"\t", b"\n", b"\r\n", b"\n\n", b" \n", b"\n ")) + text[at:]
    if way == 8:
        lines = text.split(b"\n")
        rng.shuffle(lines)
        return b"\n".join(lines)
    if way == 9:
        lines = text.split(b"\n")
        at = rng.randrange(len(lines))
        return b"\n".join(lines[:at] + rng.choice(([], [lines[at]] * 2)) + lines[at + 1:])
    if way == 10:
        return text.replace(b"\n", b"\r\n") if rng.random() < 0.2 else text.replace(b"\n", b" ", 1)
    if way == 11:
        return text[:at] + pick_bytes(rng, b"\x00\x7f\x80\xff", 1) + text[at:]
    if way == 12:
        return text[:at] + b" " + rng.choice(EXTRA) + b" " + text[at:]
    spans = [match.span() for match in WORDS.finditer(text)]
    if not spans:
        return text + b"x"
    start, end = rng.choice(spans)
    if way == 13:  # a word cut short, or gone
        return text[:start] + text[start:rng.randint(start, end)] + text[end:]
    if way == 14:  # a word twice, or with another one's case
        return text[:end] + b" " + text[start:end] + text[end:] if rng.random() < 0.5 else text[:start] + text[start:end].swapcase() + text[end:]
    other = rng.choice(spans)
    return text[:start] + text[other[0]:other[1]] + text[end:]  # a word in another one's place


def damaged(rng: random.Random, parts: Parts) -> Case:
    text = joined(rng, some_entries(rng, parts, rng.choice((1, 1, 1, 2, 2, 3, 5))))
    for _ in range(rng.choice((1, 1, 1, 1, 2, 3))):
        text = damage(rng, text)
    return Case("damaged", text, None)


TOKENS = [b"a.", b"b-1._x.", b"A", b"a", b"AAAA", b"DHCID", b"IN", b"1.2.3.4", b"0.0.0.0", b"1:2:3:4:5:6:7:8", b"\\#", b"35", b"0002",
          b"AAIBAAAAAAAAAAAAAAAAAAAAAAAAAAAAAAAAAAAAAAAAAAA=", b"AAIB" + b"A" * 20, b"A" * 23, b"=", b"00" * 32, b"000201", b"x"]


def chance(rng: random.Random, parts: Parts) -> Case:
    """Bytes by chance, or words by chance with something between them."""
    way = rng.randrange(4)
    if way == 0:
        return Case("chance", pick_bytes(rng, PRINTABLE + b"\n" * 8 + b" ();" * 4, rng.randrange(60)), None)
    if way == 1:
        return Case("chance", pick_bytes(rng, b"aA.1: ();\n\t=", rng.randrange(30)), None)
    text = b"" if way == 2 else b"a. " + rng.choice((b"", b"IN ", b"A ", b"AAAA ", b"DHCID ", b"in dhcid ", b"DHCID \\# 35 "))
    for _ in range(rng.randint(1, 14 if way == 2 else 4)):
        text += rng.choice(TOKENS) + rng.choice((b" ", b" ", b" ", b" ", b"\n", b"\n", b"(", b")", b"()", b";", b"\t", b""))
    return Case("chance", text, None)


def of_length(rng: random.Random, parts: Parts, length: int, kept: int = 0) -> Tuple[bytes, List[Record]]:
    """A sound listing of so many bytes, with so many bytes of comment or emptiness at its end at least."""
    entries: List[Entry] = []
    room = length - kept
    while True:
        entry = rng.choice(parts.sound)
        if len(entry.text) + 1 > room:
            break
        entries.append(entry)
        room -= len(entry.text) + 1
    filler = rng.choice((b" ", b"\n", b"\t", b";"))
    return b"".join(entry.text + b"\n" for entry in entries) + filler * (room + kept), records_of(entries)


def longest(rng: random.Random, parts: Parts, which: int) -> Case:
    """Texts round the limit; these are slow, and few."""
    if which == 0:
        text, records = of_length(rng, parts, LIMIT)
        return Case("longest", text, ("ok", records))
    if which == 1:
        return Case("longest", of_length(rng, parts, LIMIT + 1)[0], ("refused", 17, 0))
    if which == 2:  # the last bytes below the limit are a faulty entry
        fault = rng.choice(parts.faulty)
        start = of_length(rng, parts, LIMIT - len(fault.text) - 1)[0] + b"\n"
        return Case("longest", start + fault.text, ("refused", fault.number, len(start)))
    text = of_length(rng, parts, LIMIT + rng.randint(-1, 1))[0]
    return Case("longest", damage(rng, text), None)


def generated(seed: int, batch: int, count: int = BATCH) -> Iterator[Case]:
    rng = random.Random("%d/%d" % (seed, batch))
    parts = Parts(rng)
    ways = (sound,) * 5 + (silent,) + (faulty,) * 6 + (damaged,) * 9 + (chance,) * 3
    for number in range(count):
        if number < 4:
            yield longest(rng, parts, number)
        else:
            yield rng.choice(ways)(rng, parts)


# Small forms, whole

FORM_BYTES = (b"a", b".", b"(", b")", b";", b" ", b"\n")
FORM_TOKENS = (b"a.", b"IN", b"A", b"1.2.3.4", b" ", b"\n", b"(", b")", b";")
FORM_GAPS = [b"".join(gap) for count in range(3) for gap in itertools.product((b" ", b"\n", b"(", b")", b";", b"\x7f"), repeat=count)]


def small_forms() -> Iterator[Case]:
    """Every text of at most five bytes over a few; of at most five words, blanks and signs; and a record with all short gaps."""
    for count in range(6):
        for text in itertools.product(FORM_BYTES, repeat=count):
            yield Case("few bytes", b"".join(text), None)
    for count in range(6):
        for text in itertools.product(FORM_TOKENS, repeat=count):
            yield Case("few words", b"".join(text), None)
    for one, two, three in itertools.product(FORM_GAPS, repeat=3):
        yield Case("all gaps", b"a." + one + b"A" + two + b"1.2.3.4" + three, None)


def line(text: bytes) -> str:
    """A case as the harness reads it."""
    return "check " + (text.hex() or "-")


if __name__ == "__main__":
    print_lines(__doc__, BATCH, lambda seed, batch, count: [line(case.text) for case in generated(seed, batch, count)])
