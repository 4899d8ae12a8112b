"""Names in text and in wire form: proper names, faulty and damaged ones, and every one of some small forms.

    generated(seed, batch, count)  cases by chance, the same ones for the same numbers
    small_forms()                  every text and every name of some small forms
    python3 -B tests/name_text_cases.py SEED COUNT   the lines for the harness

A case says what it was meant to be wherever the way that it was made settles that: a proper name is put together from labels that are known, a
faulty one is given a fault, and the room in out is chosen. The model has to agree, so that it is not the only judge.
"""

import itertools
import random
from typing import Callable, Iterator, List, NamedTuple, Optional, Sequence, Tuple

from chance import LABEL_BYTES, label_lengths, pick_bytes, print_lines
from message_cases import NO_LABEL_BYTES, bad_name, labels_of, some_bytes, wire, with_byte
from name_text_model import Answer, Call

BATCH = 1000

NEIGHBOURS = b",./:@[^`{\\ \0\t\n\"'*\x7f\x80\xc1\xe1\xff"  # of the bytes that a label may have, and others that mean something elsewhere


class Case(NamedTuple):
    kind: str
    call: Call
    meant: Optional[Answer]


def dotted(labels: Sequence[bytes]) -> bytes:
    return b"".join(label + b"." for label in labels)


def lower(labels: Sequence[bytes]) -> List[bytes]:
    return [label.lower() for label in labels]


# Room in out: how many bytes there are for so many

def enough(rng: random.Random, needed: int) -> int:
    return needed + rng.choice((0, 0, 0, 1, 2, rng.randrange(300), 255, 256, 65536 - needed, 65537, 2 ** 32 - needed))


def too_little(rng: random.Random, needed: int) -> int:
    return rng.choice((0, 1, needed - 1, needed - 1, needed - 2, rng.randrange(needed)))


# Proper names

def sound(rng: random.Random) -> Iterator[Case]:
    """One name in every call, with room or without"""
    labels = labels_of(rng, label_lengths(rng))
    text, name = dotted(labels), wire(labels)
    small_text, small_name = dotted(lower(labels)), wire(lower(labels))
    for word, given, written in (("from", text, small_name), ("to", name, small_text)):
        yield Case("sound", Call(word, given, enough(rng, len(written))), ("ok", written))
        yield Case("no room", Call(word, given, too_little(rng, len(written))), ("refused", 13))
    yield Case("again", Call("again", text), ("ok", small_text))
    yield Case("back", Call("back", name), ("ok", small_name))


# Faults of a text: functions of labels that give a text which is no name

def no_last_dot(_: random.Random, labels: List[bytes]) -> bytes:
    return dotted(labels)[:-1]


def dot_more(rng: random.Random, labels: List[bytes]) -> bytes:
    labels.insert(rng.randint(0, len(labels)), b"")
    return dotted(labels)


def long_label(rng: random.Random, labels: List[bytes]) -> bytes:
    labels.insert(rng.randint(0, len(labels)), pick_bytes(rng, LABEL_BYTES, rng.choice((64, 64, 65, 100, 128, 192, 253))))
    return dotted(labels)


def long_text(rng: random.Random, _: List[bytes]) -> bytes:
    lengths = rng.choice(([63, 63, 63, 62], [63, 63, 63, 63], [1] * 128, [1] * 126 + [2], [50] * 5 + [1], [60, 60, 60, 60, 10], [9] * 300))
    return dotted(labels_of(rng, lengths))


def other_byte(rng: random.Random, labels: List[bytes]) -> bytes:
    which = rng.randrange(len(labels))
    at = rng.randrange(len(labels[which]))
    byte = rng.choice(rng.choice((NO_LABEL_BYTES, NEIGHBOURS)))
    while byte == ord("."):
        byte = rng.choice(NEIGHBOURS)
    labels[which] = with_byte(labels[which], at, byte)
    return dotted(labels)


def beside(rng: random.Random, labels: List[bytes]) -> bytes:
    """Something before the text or behind it that is not trimmed"""
    more = rng.choice((b" ", b"\t", b"\n", b"\r\n", b"\0", b".", b"\\", b'"', b"a", b";a", b" a."))
    return dotted(labels) + more if rng.random() < 0.6 or more == b"a" else more + dotted(labels)


def wire_form(_: random.Random, labels: List[bytes]) -> bytes:
    return wire(labels)  # its zero byte is in no text


TEXT_FAULTS: Tuple[Callable[[random.Random, List[bytes]], bytes], ...] = (
    no_last_dot, dot_more, long_label, long_text, other_byte, other_byte, other_byte, beside, beside, wire_form)


def faulty(rng: random.Random) -> Iterator[Case]:
    """9, whatever room there is"""
    text = rng.choice(TEXT_FAULTS)(rng, labels_of(rng, label_lengths(rng)))
    name = bad_name(rng).data
    room = rng.choice((0, 1, len(name), 255, 256, 1000))
    for call in (Call("from", text, room), Call("to", name, room), Call("again", text), Call("back", name)):
        yield Case("faulty", call, ("refused", 9))


def damaged(rng: random.Random) -> Iterator[Case]:
    """A byte changed, lost or put in, which may leave a proper name: the model alone is the judge."""
    labels = labels_of(rng, label_lengths(rng))
    word, given = rng.choice((("from", dotted(labels)), ("to", wire(labels))))
    at = rng.randrange(len(given))
    byte = bytes([rng.choice((given[at] ^ 1 << rng.randrange(8), rng.randrange(256), rng.choice(b".\0\1\2a")))])
    given = given[:at] + rng.choice((byte, b"", byte + given[at:at + 1])) + given[at + rng.choice((0, 1, 1)):]
    yield Case("damaged", Call(word, given, rng.choice((255, 255, len(given), len(given) + 1, max(len(given) - 1, 0)))), None)


def chance(rng: random.Random) -> Iterator[Case]:
    for word, alphabet in (("from", b"aZ0-_.. "), ("to", b"\0\1\1\2\3aZ-")):
        yield Case("chance", Call(word, pick_bytes(rng, alphabet, rng.randint(0, 9)), rng.randint(0, 12)), None)
        yield Case("chance", Call(word, some_bytes(rng, rng.randint(1, 4)), 255), None)


def generated(seed: int, batch: int, count: int = BATCH) -> Iterator[Case]:
    rng = random.Random("%d/%d" % (seed, batch))
    ways = (sound, sound, sound, faulty, faulty, damaged, damaged, damaged, chance)
    return itertools.islice(itertools.chain.from_iterable(rng.choice(ways)(rng) for _ in itertools.count()), count)


# Small forms, whole

LONGEST = [b"a" * 63, b"B" * 63, b"c" * 63, b"D" * 61]


def short_ones() -> Iterator[Call]:
    """Every text of up to six bytes, and every name of up to five, out of a few bytes"""
    for length in range(7):
        for text in itertools.product(b"aQ. ", repeat=length):
            yield Call("from", bytes(text), 8)
    for length in range(6):
        for name in itertools.product(b"\0\1\2aQ\xc0", repeat=length):
            yield Call("to", bytes(name), 8)


def every_byte() -> Iterator[Call]:
    """Every value of a byte: alone, in a label's first, middle and last place, for a dot or a length, and beside a name"""
    for value in range(256):
        byte = bytes([value])
        for text in (byte, byte + b".", byte + b"b.", b"a" + byte + b"b.", b"a" + byte + b".", b"a.b" + byte, b"a.b" + byte + b"c.", b"a." + byte,
                     b"a.b." + byte + b"."):
            yield Call("from", text, 9)
        for name in (byte, byte + b"\0", b"\1" + byte + b"\0", b"\2" + byte + b"b\0", b"\3a" + byte + b"b\0", b"\2a" + byte + b"\0", byte + b"ab\0",
                     b"\1a" + byte + b"b\0", b"\1a" + byte, b"\1a\0" + byte, b"\1a\1b" + byte + b"\0"):
            yield Call("to", name, 9)


def every_length() -> Iterator[Call]:
    """Every length of a label, at each place; of a name in labels of each of some lengths; and of out, about some names"""
    for length in range(260):
        label = b"x" * length
        for labels in ([label], [label, b"b"], [b"a", label], [b"a", label, b"c"]):
            yield Call("from", dotted(labels), 255)
            if length < 256:
                yield Call("to", wire(labels), 255)
    for size in (1, 2, 10, 62, 63):
        for length in range(size + 1, 270):
            labels = [b"y" * size] * (length // (size + 1)) + ([b"z" * (length % (size + 1) - 1)] if length % (size + 1) > 1 else [])
            yield Call("from", dotted(labels), 300)
            yield Call("to", wire(labels), 300)
    for labels in ([b"a"], [b"AB", b"c"], [b"d" * 63], LONGEST):
        for room in range(300):
            yield Call("from", dotted(labels), room)
            yield Call("to", wire(labels), room)


def small_forms() -> Iterator[Case]:
    for kind, calls in (("short ones", short_ones()), ("every byte", every_byte()), ("every length", every_length())):
        for call in calls:
            yield Case(kind, call, None)
            if call.out_len >= 255:
                yield Case(kind, Call("again" if call.word == "from" else "back", call.given), None)


def line(call: Call, zeros: Tuple[int, ...] = (0,)) -> str:
    """A call as the harness reads it, with zeros behind what is given."""
    given = (call.given.hex() or "-") + ("+%d" % zeros[0] if zeros[0] else "")
    return "%s %s %d" % (call.word, given, call.out_len) if call.word in ("from", "to") else "%s %s" % (call.word, given)


if __name__ == "__main__":
    print_lines(__doc__, BATCH, lambda seed, batch, count: [line(case.call) for case in generated(seed, batch, count)])
