"""UPDATE messages and the answers to them: sound calls, calls with faults, damaged names, and every call of some small forms.

    generated(seed, batch, count)  cases by chance, the same ones for the same numbers
    small_forms()                  every call of some small forms
    python3 -B tests/update_cases.py SEED COUNT   the lines for the harness

A case says what it was meant to be wherever the way that it was made settles that: a message is filled into a form whose bytes are written out, from a
name and a zone that are put together from known labels; faults are given to a call, of which the rules' order picks one; whether a zone is a name's last
labels is asked of their texts. The model has to agree, so that it is not the only judge.
"""

import itertools
import random
import struct
from typing import Callable, Dict, Iterator, List, NamedTuple, Optional, Tuple

import table_cases
import table_model
from chance import LABEL_BYTES, label_lengths, pick_bytes, print_lines
from message_cases import bad_name, labels_of, some_bytes, wire, with_byte
from name_text_cases import dotted, too_little
from table_cases import in_either_case
from update_model import FIELDS, SLICES, WITH_ADDRESS, Answer, Call

BATCH = 300

LIMIT = 1401
SIZE = {4: 4, 6: 16}
MESSAGES = (*WITH_ADDRESS, "remove_second")

Labels = List[bytes]


class Case(NamedTuple):
    kind: str
    call: Call
    meant: Optional[Answer]


# The four messages, whole. I is the message number, Z the zone, N the name, D the DHCID, A the address, L its length and T its type.

FORMS = {
    "add_first": "I 2800 0001 0001 0002 0000  Z 0006 0001"
                 "  N 00ff 00fe 00000000 0000"
                 "  N T 0001 00000e10 L A  N 0031 0001 00000e10 0023 D",
    "add_second": "I 2800 0001 0001 0002 0000  Z 0006 0001"
                  "  N 0031 0001 00000000 0023 D"
                  "  N T 00ff 00000000 0000  N T 0001 00000e10 L A",
    "remove_first": "I 2800 0001 0002 0001 0000  Z 0006 0001"
                    "  N 0031 0001 00000000 0023 D  N T 0001 00000000 L A"
                    "  N T 00fe 00000000 L A",
    "remove_second": "I 2800 0001 0003 0001 0000  Z 0006 0001"
                     "  N 0031 0001 00000000 0023 D  N 0001 00fe 00000000 0000  N 001c 00fe 00000000 0000"
                     "  N 0031 00fe 00000000 0023 D",
}


def filled(call: Call) -> bytes:
    """The message of a call without faults"""
    words = {"I": call.id.to_bytes(2, "big"), "Z": call.zone.lower(), "N": call.name.lower(), "D": call.dhcid, "A": call.address,
             "L": bytes([0, len(call.address)]), "T": b"\0\1" if call.family == 4 else b"\0\x1c"}
    return b"".join(words[token] if token in words else bytes.fromhex(token) for token in FORMS[call.word].split())


# Calls without faults

def some_id(rng: random.Random) -> int:
    return rng.choice((0, 1, 255, 256, 0x2800, 65280, 65535, rng.randrange(65536), rng.randrange(65536), rng.randrange(65536)))


def some_dhcid(rng: random.Random) -> bytes:
    return bytes([0, rng.randrange(3), 1]) + rng.choice((some_bytes(rng, 32), some_bytes(rng, 32), bytes(32), b"A" * 32))


def sound_calls(rng: random.Random) -> List[Call]:
    """The four messages of one client, in a zone of any number of the name's last labels, all of them too; there is no room yet."""
    labels = labels_of(rng, label_lengths(rng))
    first = rng.choice((0, 0, len(labels) - 1, rng.randrange(len(labels)), rng.randrange(len(labels))))
    family = rng.choice((4, 6))
    call = Call("", some_id(rng), in_either_case(rng, wire(labels[first:])), wire(labels), some_dhcid(rng), family,
                rng.choice((some_bytes(rng, SIZE[family]), some_bytes(rng, SIZE[family]), bytes(SIZE[family]), b"Z" * SIZE[family])))
    return [call._replace(word=word) for word in MESSAGES]


def with_room(rng: random.Random, call: Call) -> Case:
    message = filled(call)
    needed = len(message)
    out = rng.choice((needed, needed, needed + 1, needed + rng.randrange(2000), LIMIT, LIMIT, 2048))
    return Case("sound", call._replace(out=out), ("ok", needed, message))


def sound(rng: random.Random) -> Iterator[Case]:
    for call in sound_calls(rng):
        yield with_room(rng, call)
        if rng.random() < 0.3:
            yield Case("no room", call._replace(out=too_little(rng, len(filled(call)))), ("refused", 13))


# Zones that are not the last labels: functions of a name's labels that give a name and a zone

def is_last(labels: Labels, zone: Labels) -> bool:
    """No label has a dot in it, so this can be asked of the texts."""
    return (b"." + dotted(labels)).lower().endswith((b"." + dotted(zone)).lower())


Names = Tuple[Labels, Labels]


def other_letter(rng: random.Random, labels: Labels) -> Names:
    zone = labels[rng.randrange(len(labels)):]
    which = rng.randrange(len(zone))
    at = rng.choice((0, len(zone[which]) - 1, rng.randrange(len(zone[which]))))
    zone[which] = with_byte(zone[which], at, rng.choice(LABEL_BYTES))
    return labels, zone


def cut_label(rng: random.Random, labels: Labels) -> Names:
    """The zone's first label without its first letters, or its last one without its last"""
    zone = labels[rng.randrange(len(labels)):]
    which, cut = rng.choice(((0, slice(rng.randint(1, 3), None)), (-1, slice(-1))))
    zone[which] = zone[which][cut] or b"q"
    return labels, zone


def zone_below(rng: random.Random, labels: Labels) -> Names:
    """The name is the zone's last labels"""
    return labels, labels_of(rng, [rng.randint(1, 3) for _ in range(rng.randint(1, 2))]) + labels


def first_labels(rng: random.Random, labels: Labels) -> Names:
    return labels, labels[:rng.randint(1, len(labels))]


def label_lost(rng: random.Random, labels: Labels) -> Names:
    zone = list(labels)
    zone.pop(rng.randrange(len(zone)))
    return labels, zone or [b"q"]


def labels_joined(rng: random.Random, labels: Labels) -> Names:
    at = rng.randrange(len(labels))
    return labels, [b"".join(labels[at:at + 2])] + labels[at + 2:]


def labels_moved(rng: random.Random, labels: Labels) -> Names:
    zone = labels[rng.randrange(len(labels)):]
    rng.shuffle(zone)
    return labels, zone


LENGTHS = b"-0123456789"  # the bytes of a label that are a label's length too


def last_bytes(rng: random.Random, _: Labels) -> Names:
    """The name ends in the bytes of a proper zone: a label has the length of the zone's first label in it, as a hyphen or a digit."""
    size = rng.choice(LENGTHS)
    zone = labels_of(rng, [size] + [rng.randint(1, 5) for _ in range(rng.randrange(3))])
    label = pick_bytes(rng, LABEL_BYTES, rng.randint(0, 62 - size)) + bytes([size]) + zone[0]
    return labels_of(rng, [rng.randint(1, 5) for _ in range(rng.randrange(3))]) + [label] + zone[1:], zone


def other_zone(rng: random.Random, labels: Labels) -> Names:
    return labels, labels_of(rng, label_lengths(rng))


OUTSIDE: Tuple[Callable[[random.Random, Labels], Names], ...] = (
    other_letter, other_letter, cut_label, cut_label, zone_below, first_labels, label_lost, labels_joined, labels_moved, last_bytes, last_bytes,
    other_zone)


def outside(rng: random.Random) -> Tuple[bytes, bytes]:
    while True:
        labels, zone = rng.choice(OUTSIDE)(rng, labels_of(rng, label_lengths(rng)))
        if not is_last(labels, zone):
            return in_either_case(rng, wire(labels)), in_either_case(rng, wire(zone))


# Faults

ORDER = (12, 9, 15, 16, 13)
FAULTS = {**dict.fromkeys(WITH_ADDRESS, ORDER), "remove_second": (9, 15, 13)}


def with_fault(rng: random.Random, call: Call, fault: int, needed: int) -> Call:
    if fault == 13:
        return call._replace(out=too_little(rng, needed))
    if fault == 9:
        name, zone = outside(rng)
        return call._replace(**rng.choice((dict(name=bad_name(rng).data), dict(zone=bad_name(rng).data), dict(name=name, zone=zone),
                                           dict(name=name, zone=zone))))
    step = table_cases.with_fault(rng, table_model.Call("remove", b"", call.name, call.dhcid, call.family, call.address), fault)
    return call._replace(dhcid=step.dhcid, family=step.family, address=step.address)


def faulty(rng: random.Random) -> Iterator[Case]:
    for sound_call in sound_calls(rng):
        needed = len(filled(sound_call))
        call = sound_call._replace(out=rng.choice((needed, LIMIT, LIMIT)))
        possible = FAULTS[call.word]
        faults = rng.sample(possible, min(len(possible), rng.choice((1, 1, 1, 2, 2, 3))))
        for fault in faults:
            call = with_fault(rng, call, fault, needed)
        yield Case("faulty", call, ("refused", min(faults, key=ORDER.index)))


# What only the model judges

def one_byte(rng: random.Random) -> Iterator[Case]:
    """A byte of the zone, the name or the DHCID is another"""
    for call in sound_calls(rng):
        field = rng.choice(("zone", "name", "name", "dhcid"))
        data = getattr(call, field)
        at = rng.choice((0, 1, len(data) - 1, rng.randrange(len(data))))
        other = with_byte(data, at, rng.choice((0, 1, 2, 45, 48, 63, 64, 65, 97, 192, data[at] ^ 32, data[at] ^ 1 << rng.randrange(8))))
        yield Case("one byte", call._replace(out=LIMIT, **{field: other}), None)


def few_labels(rng: random.Random) -> Iterator[Case]:
    """Names and zones of a few short labels, which are often the one's last of the other"""
    call = rng.choice(sound_calls(rng))
    name, zone = (wire([rng.choice((b"a", b"A", b"a", b"ab", b"0")) for _ in range(rng.choice(counts))])
                  for counts in ((1, 2, 3, 4), (1, 1, 2)))
    yield Case("few labels", call._replace(name=name, zone=zone, out=LIMIT), None)


# Answers

CODES = (0, 6, 7, 8)


def header(number: int, flags: int) -> bytes:
    return struct.pack(">HH", number, flags)


def some_answer(rng: random.Random) -> Iterator[Case]:
    """A response of UPDATE, with any other flags, any counts and anything behind it; often with a fault or two"""
    number = some_id(rng)
    code = rng.choice((0, 6, 7, 8, rng.randrange(16)))
    flags = 0xa800 | rng.choice((0, rng.getrandbits(11) & 0x7f0)) | code
    faults = rng.choice(((), (), (), ("QR",), ("opcode",), ("number",), ("length",), ("number", "opcode"), ("QR", "length")))
    said, length = number, 12 + rng.choice((0, 0, 1, rng.randrange(100), rng.randrange(600)))
    if "QR" in faults:
        flags &= 0x7fff
    if "opcode" in faults:
        flags ^= rng.randint(1, 15) << 11
    if "number" in faults:
        said = rng.choice([other for other in (number ^ 1 << rng.randrange(16), number >> 8 | (number & 255) << 8, number ^ 0xff00, number ^ 0xff,
                                               rng.randrange(65536)) if other != number])
    if "length" in faults:
        length = rng.choice((11, 11, 10, 4, 2, 0, rng.randrange(12)))
    message = (header(said, flags) + some_bytes(rng, 8) + some_bytes(rng, 600))[:length]
    yield Case("answer", Call("answer", number, message=message), ("refused", 47) if faults else ("ok", code) if code in CODES else ("refused", 48))


def generated(seed: int, batch: int, count: int = BATCH) -> Iterator[Case]:
    rng = random.Random("%d/%d" % (seed, batch))
    ways = (sound,) * 4 + (faulty,) * 5 + (one_byte,) * 2 + (few_labels,) * 3 + (some_answer,) * 12
    return itertools.islice(itertools.chain.from_iterable(rng.choice(ways)(rng) for _ in itertools.count()), count)


# Small forms, whole

D = b"\0\0\1" + b"\xd1" * 32
ADDRESSES = {4: b"\xc0\0\2\1", 6: b"\x20\1\x0d\xb8" + bytes(11) + b"\1"}
SMALL = Call("", 0x1234, wire([b"z"]), wire([b"a", b"z"]), D, 4, ADDRESSES[4], LIMIT)
SMALL_CALLS = tuple(SMALL._replace(word=word, family=family, address=ADDRESSES[family]) for family in (4, 6) for word in MESSAGES)


def few_names() -> Iterator[Call]:
    """Every name and every zone of up to three labels out of three"""
    names = [wire(list(labels)) for count in (1, 2, 3) for labels in itertools.product((b"a", b"B", b"ab"), repeat=count)]
    for number, (name, zone) in enumerate(itertools.product(names, names)):
        yield SMALL_CALLS[number % 8]._replace(name=name, zone=zone.swapcase() if number % 3 else zone)


def every_room() -> Iterator[Call]:
    """Every length of an output up to beyond what is needed, of small and of long messages"""
    long_name = wire([b"a" * 63, b"B" * 63, b"c" * 63, b"D" * 61])
    for call in SMALL_CALLS:
        for out in range(len(filled(call)) + 4):
            yield call._replace(out=out)
        longest = call._replace(name=long_name, zone=long_name)
        for out in range(len(filled(longest)) - 4, len(filled(longest)) + 4):
            yield longest._replace(out=out)


def every_length() -> Iterator[Call]:
    """Names of every length up to 255 and some longer ones, in labels of several sizes, in the zone of the last label and in that of the name itself"""
    for size in (1, 2, 10, 63):
        for length in range(size + 1, 260, 1 if size > 2 else 3):
            last = length % (size + 1)
            labels = ([b"Y" * (last - 1)] if last > 1 else []) + [b"y" * size] * (length // (size + 1))
            for number, zone in enumerate((labels[-1:], labels)):
                yield SMALL_CALLS[(length + number) % 8]._replace(name=wire(labels), zone=wire(zone))


def every_length_as_a_byte() -> Iterator[Call]:
    """Names that end in a zone's bytes, for each length that a label's byte can be and each label that it fits into; and one label's length beside it"""
    for size in LENGTHS:
        for before in range(63 - size):
            zone = wire([b"x" * size, b"z"])
            inside, beside = wire([b"a" * before + bytes([size]) + b"x" * size, b"z"]), wire([b"a" * (before + 1), b"x" * size, b"z"])
            for number, name in enumerate((inside, beside)):
                yield SMALL_CALLS[(size + before + number) % 8]._replace(name=name, zone=zone)


def arguments() -> Iterator[Call]:
    """Every byte's value of a number, a family, a short name, a short zone and a DHCID's head; every length up to 255"""
    for value in range(256):
        byte = bytes([value])
        for call in SMALL_CALLS:
            yield call._replace(id=value)
            yield call._replace(id=value << 8 | 0x34)
            for at in range(3):
                yield call._replace(dhcid=with_byte(D, at, value))
        call = SMALL_CALLS[value % 8]
        yield call._replace(dhcid=(D + bytes(256))[:value])
        for name, zone in ((b"\1" + byte + SMALL.zone, SMALL.zone), (byte + b"a" + SMALL.zone, SMALL.zone), (b"\1a\1" + byte + b"\0", SMALL.zone),
                           (b"\1a" + byte + b"z\0", SMALL.zone), (SMALL.name[:-1] + byte, SMALL.zone), (SMALL.name, b"\1" + byte + b"\0"),
                           (SMALL.name, byte + b"z\0"), (SMALL.name, b"\1z" + byte), (b"\1a\1" + byte + b"\0", b"\1" + byte + b"\0"),
                           (SMALL.name + byte, SMALL.zone + byte), (SMALL.name, (SMALL.name + bytes(256))[:value])):
            yield call._replace(name=name, zone=zone)
    for call, value in itertools.product((call for call in SMALL_CALLS if call.word in WITH_ADDRESS), range(256)):
        yield call._replace(family=value)
        yield call._replace(family=value << 8 | 4)
        yield call._replace(address=(call.address + bytes(256))[:value])


def answers() -> Iterator[Call]:
    """Every value of the flags; every length up to 299; every value of the other bytes of a header"""
    for flags in range(65536):
        yield Call("answer", flags >> 3 & 255, message=header(flags >> 3 & 255, flags) + b"\x06" * 8)
    for code, length in itertools.product((0, 3, 6), range(300)):
        yield Call("answer", 0x1234, message=(header(0x1234, 0xa800 | code) + bytes(300))[:length])
    right = header(0x1234, 0xa806) + bytes(range(9))
    for at, value in itertools.product(range(13), range(256)):
        yield Call("answer", 0x1234, message=with_byte(right, at, value))
        yield Call("answer", (0x34, 0x1200, 0, 0xffff)[value % 4], message=with_byte(right, at, value))


def small_forms() -> Iterator[Case]:
    for kind, calls in (("few names", few_names()), ("room", every_room()), ("lengths", every_length()), ("lengths as bytes", every_length_as_a_byte()),
                        ("arguments", arguments()), ("answers", answers())):
        for call in calls:
            yield Case(kind, call, None)


def line(call: Call, zeros: Tuple[int, ...] = (0,) * len(SLICES)) -> str:
    """A call as the harness reads it, with zeros behind the zone, the name, the DHCID, the address and the server's message."""
    behind: Dict[str, int] = dict(zip(SLICES, zeros))
    fields = [call.word]
    for field in FIELDS[call.word]:
        value = getattr(call, field)
        fields.append((value.hex() or "-") + ("+%d" % behind[field] if behind[field] else "") if field in behind else str(value))
    return " ".join(fields)


if __name__ == "__main__":
    print_lines(__doc__, BATCH, lambda seed, batch, count: [line(case.call) for case in generated(seed, batch, count)])
