"""Load and write: tables that are written, listings of known tables that are loaded, whole round trips, and every call of some small forms.

    generated(seed, batch, count)  cases by chance, the same ones for the same numbers
    small_forms()                  every call of some small forms
    python3 -B tests/load_cases.py SEED COUNT   the lines for the harness

A case says what it was meant to be wherever the way that it was made settles that: a table is put together from slots that are known, its lines are
brought into some order and spelled in some way, and faults are given to it, of which the rules' order picks one. The model has to agree, so that it is
not the only judge.
"""

import binascii
import itertools
import random
from typing import Iterator, List, NamedTuple, Optional, Sequence, Tuple

import listing_cases
import table_cases
from chance import print_lines
from listing_cases import laid_out, some_a, some_aaaa, some_dhcid, words_of
from listing_model import LIMIT, Record
from load_model import Answer, Call
from message_cases import some_bytes, wire
from table_cases import NAMES, SLOT, TABLE, Slot, Slots, in_either_case, table_bytes
from table_model import packed

BATCH = 50
LONGEST_EVERY = 20  # batches, of which the last has the longest listings; these are slow, and no shim is asked them


class Case(NamedTuple):
    kind: str
    call: Call
    meant: Optional[Answer]


# Records and lines

def records_of(slots: Sequence[Slot]) -> List[Record]:
    return [Record(slot.name, rtype, data) for slot in slots for rtype, data in zip((b"A", b"AAAA", b"DHCID"), slot[1:]) if data]


def dotted(name: bytes) -> bytes:
    """A name in text: dots for the lengths but the first, which goes."""
    text, at = bytearray(name[1:]), name[0]
    while at < len(text):
        text[at], at = ord("."), at + 1 + text[at]
    return bytes(text)


def line_of(record: Record) -> bytes:
    """As write has it, without the line's end"""
    if record.rtype == b"A":
        data = b"%d.%d.%d.%d" % tuple(record.rdata)
    elif record.rtype == b"AAAA":
        data = b":".join(binascii.hexlify(record.rdata[at:at + 2]) for at in range(0, 16, 2))
    else:
        data = binascii.b2a_base64(record.rdata, newline=False)
    return dotted(record.owner) + b" " + record.rtype + b" " + data


def listing_of(slots: Sequence[Slot]) -> bytes:
    return b"".join(line_of(record) + b"\n" for record in records_of(slots))


def spelled(rng: random.Random, record: Record) -> bytes:
    return laid_out(rng, words_of(rng, in_either_case(rng, dotted(record.owner)), record.rtype, record.rdata))


# Tables

def some_names(rng: random.Random, count: int) -> List[bytes]:
    return table_cases.Stock(rng, count, rng.random() < 0.05).names


def some_slots(rng: random.Random, count: int) -> Slots:
    flags = rng.choice((0, 0, 0, 1, 2, 4, 7))  # the same for all names, or by chance
    slots = []
    for name in some_names(rng, count):
        has = flags or rng.randint(1, 7)
        slots.append(Slot(name, some_a(rng) if has & 1 else b"", some_aaaa(rng) if has & 2 else b"", some_dhcid(rng) if has & 4 else b""))
    return tuple(slots)


def how_many(rng: random.Random) -> int:
    way = rng.randrange(20)
    if way < 15:
        return rng.choice((0, 1, 1, 2, 2, 3, 4, 5, 6))
    return rng.randint(7, 40) if way < 18 else rng.choice((62, 63, 64, 64))


def some_area(rng: random.Random) -> bytes:
    """What stands where a table is loaded: nothing, a table, anything; with more behind it."""
    way = rng.randrange(10)
    if way < 4:
        area = bytes(TABLE)
    elif way < 8:
        area = table_bytes(some_slots(rng, how_many(rng)))
    elif way < 9:
        area = bytes([rng.choice((1, 46, 97, 160, 255))]) * TABLE
    else:
        area = some_bytes(rng, TABLE)
    return area if rng.random() < 0.8 else area + some_bytes(rng, rng.choice((1, 32, SLOT, TABLE, 65536 - TABLE)))


def short_area(rng: random.Random) -> bytes:
    return some_area(rng)[:rng.choice((0, 1, SLOT, TABLE - SLOT, TABLE - 1, TABLE - 1, rng.randrange(TABLE)))]


# Write

def out_for(rng: random.Random, need: int) -> int:
    return rng.choice((need, need, need + 1, need + rng.randint(1, 400), LIMIT, max(0, need - 1), max(0, need - 1), need // 2, rng.randint(0, need), 0))


def write(rng: random.Random, slots: Slots) -> Case:
    text = listing_of(slots)
    out = out_for(rng, len(text))
    if rng.random() < 0.1:
        return Case("one byte", Call("write", table_cases.one_byte(rng, slots), out), None)
    damaged = rng.choice(table_cases.DAMAGES)(rng, slots) if rng.random() < 0.2 else None
    if damaged is not None:
        return Case("damaged", Call("write", damaged, out), ("refused", 40, 0))
    return Case("write", Call("write", table_bytes(slots), out), ("ok", len(text), text) if len(text) <= out else ("refused", 13, 0))


def again(rng: random.Random, slots: Slots) -> Case:
    """A whole round trip"""
    table = table_bytes(slots)
    if rng.random() < 0.1:
        return Case("again", Call("again", table, area=short_area(rng)), ("refused", 13, 0))
    damaged = rng.choice(table_cases.DAMAGES)(rng, slots) if rng.random() < 0.1 else None
    if damaged is not None:
        return Case("again", Call("again", damaged, area=some_area(rng)), ("refused", 40, 0))
    return Case("again", Call("again", table, area=some_area(rng)), ("ok", 0, table))


# Load

def arranged(rng: random.Random, records: List[Record]) -> List[Record]:
    """The records of a table in another order: by type, in turns, the first one of each name first, any."""
    way = rng.randrange(6)
    if way == 0:
        return records
    if way == 1:
        types = rng.sample((b"A", b"AAAA", b"DHCID"), 3)
        return sorted(records, key=lambda record: types.index(record.rtype))
    if way == 2:
        cut = rng.randint(0, len(records))
        return [record for pair in itertools.zip_longest(records[:cut], records[cut:]) for record in pair if record]
    if way == 3:
        first = [record for at, record in enumerate(records) if at == 0 or records[at - 1].owner != record.owner]
        rest = [record for record in records if record not in first]
        return first + rng.sample(rest, len(rest))
    return rng.sample(records, len(records))


def by_first_record(slots: Slots, records: List[Record]) -> Slots:
    owners = [record.owner for record in records]
    return tuple(sorted(slots, key=lambda slot: owners.index(slot.name)))


def other_data(rng: random.Random, record: Record) -> Record:
    return record._replace(rdata=listing_cases.SOME_DATA[record.rtype](rng))


def repeated(rng: random.Random, records: List[Record]) -> List[Record]:
    """One record stands there twice: side by side, far apart, at both ends, with the same data or others."""
    at = rng.choice((0, len(records) - 1, rng.randrange(len(records))))
    second = rng.choice((at + 1, len(records), rng.randint(0, len(records))))
    record = records[at] if rng.random() < 0.5 else other_data(rng, records[at])
    return records[:second] + [record] + records[second:]


def entries_of(rng: random.Random, records: List[Record]) -> List[bytes]:
    """Spelled as write does, or in any way, with entries of no words between them"""
    if rng.random() < 0.3:
        return [line_of(record) for record in records]
    entries = []
    for record in records:
        if rng.random() < 0.1:
            entries.append(listing_cases.silent_entry(rng).text)
        entries.append(spelled(rng, record))
    return entries


ORDER = (17, 24, 35, 32, 13)  # 24 stands for all faults of an entry


def some_faults(rng: random.Random) -> List[int]:
    if rng.random() < 0.35:
        return []
    return [fault for fault in rng.sample(ORDER, rng.choice((1, 1, 1, 2, 2, 3))) if fault != 17 or rng.random() < 0.15]


def with_faulty(rng: random.Random, entries: List[bytes]) -> Tuple[bytes, Answer]:
    fault = listing_cases.faulty_entry(rng)
    at = len(entries) if fault.last else rng.choice((0, len(entries), rng.randint(0, len(entries))))
    before = b"".join(entry + b"\n" for entry in entries[:at])
    return b"\n".join([before + fault.text] + entries[at:]), ("refused", fault.number, len(before))


def load(rng: random.Random, slots: Slots) -> Case:
    faults = some_faults(rng)
    if 32 in faults:
        slots = some_slots(rng, rng.choice((NAMES + 1, NAMES + 1, rng.randint(NAMES + 1, 2 * NAMES))))
    if not slots and 35 in faults:
        faults.remove(35)
    records = arranged(rng, records_of(slots))
    meant: Answer = ("ok", 0, table_bytes(by_first_record(slots, records)))
    entries = entries_of(rng, repeated(rng, records) if 35 in faults else records)
    text = b"\n".join(entries) + (b"\n" if rng.random() < 0.7 else b"")
    fault = min(faults, key=ORDER.index, default=0)
    if fault:
        meant = ("refused", fault, 0)
    if 24 in faults:
        text, judged = with_faulty(rng, entries)
        meant = judged if fault == 24 else meant
    if 17 in faults:
        text = text.ljust(LIMIT + rng.choice((1, 1, 2, 300)), rng.choice((b" ", b"\n", b";")))
    if len(text) > LIMIT:  # many long names can do that too
        meant = ("refused", 17, 0)
    return Case("load", Call("load", area=short_area(rng) if 13 in faults else some_area(rng), text=text), meant)


def damaged_text(rng: random.Random, slots: Slots) -> Case:
    text = b"\n".join(entries_of(rng, arranged(rng, records_of(slots))))
    for _ in range(rng.choice((1, 1, 1, 2, 3))):
        text = listing_cases.damage(rng, text)
    return Case("damaged text", Call("load", area=some_area(rng), text=text), None)


# Long listings

LETTERS = b"abcdefghijklmnopqrstuvwxyz0123456789-_"


def short_names() -> Iterator[bytes]:
    for count in itertools.count(1):
        for label in itertools.product(LETTERS, repeat=count):
            yield wire([bytes(label)])


def many_records(rng: random.Random, most: int) -> List[Record]:
    """As many of short names as fit into so many bytes, each of them once"""
    records, room = [], most
    for name in short_names():
        record = Record(name, b"A", bytes(rng.choices(range(10), k=4)))
        if rng.random() < 0.01:
            record = Record(name, b"DHCID", some_dhcid(rng))
        room -= len(line_of(record)) + 1
        if room < 0:
            break
        records.append(record)
    return rng.sample(records, len(records)) if rng.random() < 0.5 else records


MANY_REPEATS, NO_REPEAT, ONE_REPEAT, FAULT_AT_END = LONG_WAYS = range(4)


def long_listing(rng: random.Random, most: int, way: int) -> Case:
    """Many more names than a table has, in at most so many bytes: 35, or 32; or the fault of the last entry, with a repeat before it."""
    if way == MANY_REPEATS:
        text = b"".join(b"%c. A 1.2.3.4\n" % letter for letter in rng.choices(LETTERS, k=most // 13))  # no record is shorter
        return Case("long", Call("load", area=some_area(rng), text=text), ("refused", 35, 0))
    records = many_records(rng, most - 100)
    if way != NO_REPEAT:
        records = repeated(rng, records)
    text = b"".join(line_of(record) + b"\n" for record in records)
    meant = ("refused", 24, len(text)) if way == FAULT_AT_END else ("refused", 32 if way == NO_REPEAT else 35, 0)
    return Case("long", Call("load", area=some_area(rng), text=text + b"a. A 1.2.3\n" * (way == FAULT_AT_END)), meant)


def long_listings(rng: random.Random, has_longest: bool) -> Iterator[Case]:
    for _ in range(2):
        yield long_listing(rng, rng.randint(1400, 6000), rng.choice(LONG_WAYS))
    if has_longest:
        yield long_listing(rng, LIMIT, MANY_REPEATS)
        yield long_listing(rng, LIMIT, rng.choice((NO_REPEAT, ONE_REPEAT, ONE_REPEAT)))
        yield long_listing(rng, LIMIT // 2, rng.choice(LONG_WAYS))


# Cases

def scene(rng: random.Random) -> Iterator[Case]:
    """Several calls on one table"""
    slots = some_slots(rng, how_many(rng))
    for _ in range(4):
        yield rng.choice((write, write, again, load, load, load, load, damaged_text))(rng, slots)


def generated(seed: int, batch: int, count: int = BATCH) -> Iterator[Case]:
    rng = random.Random("%d/%d" % (seed, batch))
    long = long_listings(rng, batch % LONGEST_EVERY == LONGEST_EVERY - 1)
    return itertools.islice(itertools.chain(long, itertools.chain.from_iterable(scene(rng) for _ in itertools.count())), count)


# Small forms, whole

A_NAME, B_NAME = wire([b"a"]), wire([b"b", b"c"])
A_DATA, AAAA_DATA, DHCID_DATA = b"\xc0\0\2\1", b"\x20\1\x0d\xb8" + bytes(11) + b"\1", b"\0\1\1" + b"\xd1" * 32
OLD = table_bytes([Slot(wire([b"old%d" % number]), b"\1\2\3\4", b"\5" * 16, b"\0\2\1" + b"\6" * 32) for number in range(5)])


def whole_slot(name: bytes) -> Slot:
    return Slot(name, A_DATA, AAAA_DATA, DHCID_DATA)


def few_records() -> Iterator[Call]:
    """Every sequence of at most four records of two names"""
    lines = [line_of(record) for record in records_of([whole_slot(A_NAME), whole_slot(B_NAME)])]
    for count in range(5):
        for text in itertools.product(lines, repeat=count):
            yield Call("load", area=OLD, text=b"\n".join(text))


def rooms() -> Iterator[Call]:
    """Every length of an out, and many of an area"""
    slots = [whole_slot(A_NAME), Slot(B_NAME, A_DATA)]
    text, table = listing_of(slots), table_bytes(slots)
    for out in range(len(text) + 3):
        yield Call("write", table, out)
    for length in itertools.chain(range(320), range(SLOT, 66 * SLOT, SLOT), range(TABLE - 40, TABLE + 40)):
        yield Call("load", area=OLD.ljust(length, b"x")[:length], text=text)


def values() -> Iterator[Call]:
    """Every value of every byte of an address and of a digest; every length of a name"""
    for value in range(256):
        data = bytes((value + 37 * at) % 256 for at in range(32))
        table = table_bytes([Slot(A_NAME, data[:4], data[:16], bytes([0, value % 3, 1]) + data)])
        yield Call("write", table, 200)
        yield Call("again", table, area=OLD)
    for length in range(3, 256):
        whole = [b"a" * 63] * ((length - 1) // 64) + [b"b" * ((length - 1) % 64 - 1)]
        labels = whole if whole[-1] or (length - 1) % 64 == 0 else whole[:-2] + [b"a" * 62, b"b"]
        name = wire([label for label in labels if label])
        yield Call("write", table_bytes([whole_slot(name)]), 900)
        yield Call("again", table_bytes([whole_slot(name)]), area=OLD)
        yield Call("load", area=OLD, text=dotted(name).upper() + b" A 1.2.3.4")


def numbers_of_names() -> Iterator[Call]:
    """Up to 70 names, with each of the types and all; written, loaded, both"""
    slots = [whole_slot(wire([b"n%d" % number])) for number in range(70)]
    for count in range(71):
        for kept in ((1,), (2,), (3,), (1, 2, 3)):
            some = [Slot(slot.name, *(slot[at] if at in kept else b"" for at in (1, 2, 3))) for slot in slots[:count]]
            yield Call("load", area=OLD, text=listing_of(some))
            if count <= NAMES:
                yield Call("again", table_bytes(some), area=OLD)
                yield Call("write", table_bytes(some), len(listing_of(some)) - count % 2)


def repeats() -> Iterator[Call]:
    """Of 64 names and more, each record once more, at several places; of ten at every place"""
    for count in (10, 64, 67, 131, 200):
        lines = [b"n%d. A 10.0.0.%d\n" % (number, number % 256) for number in range(count)]
        places = range(count + 1) if count == 10 else (0, 63, 64, count // 2, count - 1, count)
        for at, line_ in enumerate(lines):
            for second in {at, *places}:
                yield Call("load", area=OLD, text=b"".join(lines[:second] + [line_] + lines[second:]))


def damaged_tables() -> Iterator[Call]:
    """Some of the table's own small forms"""
    for number, call in enumerate(itertools.islice(table_cases.bytes_of_tables(), 0, None, 11)):
        yield Call("write", call.table, (0, 200, 400)[number % 3])


def small_forms() -> Iterator[Case]:
    for kind, calls in (("few records", few_records()), ("rooms", rooms()), ("values", values()), ("names", numbers_of_names()), ("repeats", repeats()),
                        ("bytes", damaged_tables())):
        for call in calls:
            yield Case(kind, call, None)


def line(call: Call, zeros: Tuple[int, int, int] = (0, 0, 0)) -> str:
    """A call as the harness reads it, with zeros behind table, area and text."""
    table, area = (packed(data) + (",-+%d" % count if count else "") for data, count in zip((call.table, call.area), zeros))
    if call.word == "load":
        return "load %s %s" % (area, (call.text.hex() or "-") + ("+%d" % zeros[2] if zeros[2] else ""))
    return "write %s %d" % (table, call.out) if call.word == "write" else "again %s %s" % (table, area)


if __name__ == "__main__":
    print_lines(__doc__, BATCH, lambda seed, batch, count: [line(case.call) for case in generated(seed, batch, count)])
