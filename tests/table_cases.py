"""Steps on tables of names, with find and count: sequences of them, with faults and on damaged tables, and every step of some small forms.

    generated(seed, batch, count)  cases by chance, the same ones for the same numbers
    small_forms()                  every step of some small forms
    python3 -B tests/table_cases.py SEED COUNT   the lines for the harness

A case says what it was meant to be wherever the way that it was made settles that: a step is chosen for its answer, the table that it leaves is put
together from slots that are known, faults are given to it, of which the rules' order picks one, and a damaged table is not sound. The model has to
agree, so that it is not the only judge. Each step of a sequence is a case of its own, on the table that the one before it should leave.
"""

import itertools
import random
from typing import Callable, Iterator, List, NamedTuple, Optional, Sequence, Tuple

from chance import print_lines
from message_cases import bad_name, good_name, some_bytes, wire, with_byte
from table_model import Answer, Call, packed

BATCH = 300

NAMES = 64
SLOT = 312
TABLE = NAMES * SLOT
NAME_AT, FLAGS_AT, A_AT, AAAA_AT, DHCID_AT = 1, 256, 257, 261, 277  # in a slot


class Case(NamedTuple):
    kind: str
    call: Call
    meant: Optional[Answer]


# Tables

class Slot(NamedTuple):
    """A name in lower case, and its records; one that is not there has no bytes."""
    name: bytes
    a: bytes = b""
    aaaa: bytes = b""
    dhcid: bytes = b""

    def with_address(self, family: int, address: bytes) -> "Slot":
        return self._replace(a=address) if family == 4 else self._replace(aaaa=address)

    def address(self, family: int) -> bytes:
        return self.a if family == 4 else self.aaaa

    def families(self) -> List[int]:
        return [family for family in (4, 6) if self.address(family)]


Slots = Tuple[Slot, ...]


def slot_bytes(slot: Slot) -> bytes:
    flags = (1 if slot.a else 0) + (2 if slot.aaaa else 0) + (4 if slot.dhcid else 0)
    fields = ((slot.name, 255), (bytes([flags]), 1), (slot.a, 4), (slot.aaaa, 16), (slot.dhcid, 35))
    return bytes([len(slot.name)]) + b"".join(field.ljust(size, b"\0") for field, size in fields)


def table_bytes(slots: Sequence[Slot]) -> bytes:
    return b"".join(map(slot_bytes, slots)).ljust(TABLE, b"\0")


def replaced(slots: Slots, at: int, *by: Slot) -> Slots:
    return slots[:at] + by + slots[at + 1:]


# What the steps are given. Names, DHCIDs and addresses are few, and differ in little.

def nudged(rng: random.Random, data: bytes, first: int = 0) -> bytes:
    at = rng.choice((first, len(data) - 1, rng.randrange(first, len(data))))
    return with_byte(data, at, data[at] ^ 1 << rng.randrange(8))


def other_names(rng: random.Random, name: bytes) -> Iterator[bytes]:
    """Names in lower case that are nearly this one."""
    for at in (1, len(name) - 2):  # another first letter, and another last one
        yield with_byte(name, at, rng.choice(b"abcxyz019-_"))
    if len(name) <= 253:
        yield name[:-1] + b"\1a\0"
        yield b"\1a" + name
    if name[0] + 1 < len(name) - 1:
        yield name[1 + name[0]:]


class Stock:
    """What the steps of a sequence choose from."""

    def __init__(self, rng: random.Random, count: int, is_long: bool) -> None:
        names: List[bytes] = []
        while len(names) < count:
            name = good_name(rng).canonical
            if not is_long or len(name) > 200 or rng.random() < 0.05:
                names += [name] + list(other_names(rng, name))
                names = list(dict.fromkeys(names))
        self.names = names[:count]
        dhcid = bytes([0, rng.randrange(3), 1]) + some_bytes(rng, 32)
        self.dhcids = [dhcid, bytes([0, (dhcid[1] + 1) % 3]) + dhcid[2:], nudged(rng, dhcid, 3), b"\0\0\1" + bytes(32)]
        self.addresses = {}
        for family, size in ((4, 4), (6, 16)):
            address = some_bytes(rng, size)
            self.addresses[family] = [address, nudged(rng, address), some_bytes(rng, size), bytes(size)]

    def slot(self, rng: random.Random, name: bytes) -> Slot:
        """With records by chance, one at least; mostly a DHCID."""
        flags = rng.choice((1, 2, 3, 4, 5, 5, 6, 7))
        return Slot(name, *(rng.choice(some) if flags & 1 << bit else b""
                            for bit, some in enumerate((self.addresses[4], self.addresses[6], self.dhcids))))


def in_either_case(rng: random.Random, name: bytes) -> bytes:
    way = rng.randrange(3)
    if way == 0:
        return name
    upper = name.upper()  # a label's length is no letter
    return upper if way == 1 else bytes(map(rng.choice, zip(name, upper)))


def another(rng: random.Random, some: Sequence[bytes], than: bytes) -> bytes:
    return rng.choice([one for one in some if one != than])


# Steps with a known answer

class Step(NamedTuple):
    """A call without its table, and its answer on a sound one: the refusal, or the value and the slots that it leaves; find and count leave all."""
    call: Call
    refusal: Optional[int]
    value: int = 0
    after: Slots = ()


class State(NamedTuple):
    stock: Stock
    slots: Slots

    def pick(self, rng: random.Random, has_dhcid: bool) -> Optional[int]:
        places = [at for at, slot in enumerate(self.slots) if bool(slot.dhcid) == has_dhcid]
        return rng.choice(places) if places else None

    def pick_held(self, rng: random.Random, addresses: int) -> Optional[int]:
        """A name with a DHCID and so many addresses: the first one, the last or any."""
        places = [at for at, slot in enumerate(self.slots) if slot.dhcid and len(slot.families()) == addresses]
        return rng.choice((places[0], places[-1], rng.choice(places))) if places else None

    def unused(self, rng: random.Random) -> Optional[bytes]:
        used = {slot.name for slot in self.slots}
        names = [name for name in self.stock.names if name not in used]
        return rng.choice(names) if names else None

    def call(self, rng: random.Random, word: str, name: bytes, dhcid: bytes = b"") -> Call:
        """With the rest by chance."""
        if word in ("clear", "find"):
            return Call(word, b"", in_either_case(rng, name))
        family = rng.choice((4, 6))
        return Call(word, b"", in_either_case(rng, name), dhcid or rng.choice(self.stock.dhcids), family,
                    rng.choice(self.stock.addresses[family]), rng.randrange(2) if word == "add" else 0)


def new_slot(call: Call) -> Slot:
    return Slot(call.name.lower(), dhcid=call.dhcid).with_address(call.family, call.address)


def add_unused(rng: random.Random, state: State) -> Optional[Step]:
    name = state.unused(rng)
    if name is None:
        return None
    call = state.call(rng, "add", name)
    return Step(call, 32) if len(state.slots) == NAMES else Step(call, None, 0, state.slots + (new_slot(call),))


def add_same(rng: random.Random, state: State) -> Optional[Step]:
    at = state.pick(rng, True)
    if at is None:
        return None
    slot = state.slots[at]
    call = state.call(rng, "add", slot.name, slot.dhcid)
    return Step(call, None, 1, replaced(state.slots, at, slot.with_address(call.family, call.address)))


def add_other(rng: random.Random, state: State) -> Optional[Step]:
    at = state.pick(rng, True)
    if at is None:
        return None
    slot = state.slots[at]
    call = state.call(rng, "add", slot.name, another(rng, state.stock.dhcids, slot.dhcid))
    return Step(call, None, 2, replaced(state.slots, at, new_slot(call))) if call.policy == 1 else Step(call, 30)


def remove_right(rng: random.Random, state: State, at: int) -> Tuple[Call, Slot]:
    """A remove of an address that is there, by who holds the name, and the slot without that address"""
    slot = state.slots[at]
    family = rng.choice(slot.families())
    call = state.call(rng, "remove", slot.name, slot.dhcid)._replace(family=family, address=slot.address(family))
    return call, slot.with_address(family, b"")


def remove_one_of_two(rng: random.Random, state: State) -> Optional[Step]:
    at = state.pick_held(rng, 2)
    if at is None:
        return None
    call, left = remove_right(rng, state, at)
    return Step(call, None, 0, replaced(state.slots, at, left))


def remove_last(rng: random.Random, state: State) -> Optional[Step]:
    """The name goes with its last address (document 02, K1)."""
    at = state.pick_held(rng, 1)
    return None if at is None else Step(remove_right(rng, state, at)[0], None, 0, replaced(state.slots, at))


def remove_at_dhcid_alone(rng: random.Random, state: State) -> Optional[Step]:
    """No address is there to remove: 34, or 30 for another client."""
    at = state.pick_held(rng, 0)
    if at is None:
        return None
    call = state.call(rng, "remove", state.slots[at].name, rng.choice((state.slots[at].dhcid, b"")))
    return Step(call, 34 if call.dhcid == state.slots[at].dhcid else 30)


def remove_other_address(rng: random.Random, state: State) -> Optional[Step]:
    at = state.pick(rng, True)
    if at is None:
        return None
    slot = state.slots[at]
    call = state.call(rng, "remove", slot.name, slot.dhcid)
    held = slot.address(call.family)
    return Step(call._replace(address=another(rng, state.stock.addresses[call.family], held)), 34)


def remove_other_dhcid(rng: random.Random, state: State) -> Optional[Step]:
    at = state.pick(rng, True)
    if at is None:
        return None
    slot = state.slots[at]
    return Step(state.call(rng, "remove", slot.name, another(rng, state.stock.dhcids, slot.dhcid)), 30)


def by_hand(rng: random.Random, state: State) -> Optional[Step]:
    at = state.pick(rng, False)
    return None if at is None else Step(state.call(rng, rng.choice(("add", "remove")), state.slots[at].name), 31)


def unknown(rng: random.Random, state: State) -> Optional[Step]:
    name = state.unused(rng)
    return None if name is None else Step(state.call(rng, rng.choice(("remove", "clear", "find")), name), 33)


def clear_known(rng: random.Random, state: State) -> Optional[Step]:
    if not state.slots:
        return None
    at = rng.choice((0, len(state.slots) - 1, rng.randrange(len(state.slots))))
    return Step(state.call(rng, "clear", state.slots[at].name), None, 0, replaced(state.slots, at))


def find_known(rng: random.Random, state: State) -> Optional[Step]:
    if not state.slots:
        return None
    at = rng.choice((0, len(state.slots) - 1, rng.randrange(len(state.slots))))
    return Step(state.call(rng, "find", state.slots[at].name), None, at, state.slots)


def count_names(_: random.Random, state: State) -> Step:
    return Step(Call("count", b""), None, len(state.slots), state.slots)


STEPS = ((add_unused,) * 6 + (add_same,) * 3 + (add_other,) * 5
         + (remove_last,) * 2 + (remove_one_of_two,) * 2
         + (remove_at_dhcid_alone, remove_other_address, remove_other_address, remove_other_dhcid, by_hand, unknown) + (clear_known,) * 2
         + (find_known,) * 3 + (count_names,) * 2)


# Faults

ORDER = (12, 40, 9, 15, 16)
FAULTS = {"add": (12, 9, 15, 16), "remove": (12, 9, 15, 16), "clear": (9,), "find": (9,), "count": ()}
OTHER_NUMBERS = (2, 3, 5, 7, 12, 255, 256, 257, 260, 262, 2 ** 31, 2 ** 32 - 1)


def bad_dhcid(rng: random.Random, dhcid: bytes) -> bytes:
    way = rng.randrange(5)
    if way == 0:
        return (dhcid + some_bytes(rng, 40))[:rng.choice((0, 1, 3, 34, 34, 36, 36, 70))]
    if way == 1:
        return bytes([rng.choice((1, 2, 128, 255))]) + dhcid[1:]
    if way == 2:
        return with_byte(dhcid, 1, rng.choice((3, 3, 4, 130, 255)))
    return with_byte(dhcid, 2, rng.choice((0, 0, 2, 3, 129, 255)))


def with_fault(rng: random.Random, call: Call, fault: int) -> Call:
    if fault == 12:
        other = rng.choice(OTHER_NUMBERS)
        if call.word == "add" and rng.random() < 0.5:
            return call._replace(policy=other)
        return call._replace(family=rng.choice((0, 1, other)))
    if fault == 9:
        return call._replace(name=bad_name(rng).data)
    if fault == 15:
        return call._replace(dhcid=bad_dhcid(rng, call.dhcid))
    lengths = (0, 1, 3, 5, 15, 16, 17, 20) if len(call.address) == 4 else (0, 3, 4, 5, 15, 17, 32)
    return call._replace(address=some_bytes(rng, rng.choice(lengths)))


# Damage to the bytes of a row of slots of one size, of which the first `used` are used

SlotDamage = Callable[[random.Random, bytes], Optional[bytes]]


def stray(rng: random.Random, data: bytes, first: int, end: int) -> Optional[bytes]:
    """A byte among these zeros, if there are any: their first, their last or any."""
    if first >= end:
        return None
    at = rng.choice((first, end - 1, rng.randrange(first, end)))
    return with_byte(data, at, rng.choice((1, 32, 97, 128, 255)))


def with_gap(rng: random.Random, row: bytes, size: int, used: int) -> Optional[bytes]:
    """Unused slots before the first, the last or any."""
    free = len(row) // size - used
    if not used or not free:
        return None
    at = size * rng.choice((0, used - 1, rng.randrange(used)))
    width = size * rng.choice((1, 1, rng.randint(1, free), free))
    return row[:at] + bytes(width) + row[at:len(row) - width]


def damaged_in_one(rng: random.Random, row: bytes, size: int, used: int, damage: SlotDamage) -> Optional[bytes]:
    """Damage to one slot: the first, the last or any."""
    if not used:
        return None
    at = size * rng.choice((0, used - 1, rng.randrange(used)))
    slot = damage(rng, row[at:at + size])
    return None if slot is None else row[:at] + slot + row[at + size:]


def with_stray(rng: random.Random, row: bytes, size: int, used: int) -> Optional[bytes]:
    """A byte in the first unused slot, or in any."""
    first = size * used
    end = rng.choice((first + size, len(row))) if first < len(row) else first
    return stray(rng, row, first, end)


# Damage: functions of a table's slots that give bytes which are not sound, or None if these slots have no place for it

Damage = Callable[[random.Random, Slots], Optional[bytes]]


def wrong_length(rng: random.Random, slots: Slots) -> bytes:
    length = rng.choice((0, 1, 311, 312, 313, TABLE - SLOT, TABLE - 1, TABLE + 1, TABLE + SLOT, 2 * TABLE, SLOT * len(slots), rng.randrange(TABLE)))
    data = table_bytes(slots).ljust(length, b"\0")
    return data[:length] if length != TABLE else data[:-1]


def one_name_more(rng: random.Random, slots: Slots) -> Optional[bytes]:
    """65 names, or one behind a table's end"""
    return table_bytes(slots) + slot_bytes(rng.choice(slots)._replace(name=b"\2zz\0")) if slots else None


def gap(rng: random.Random, slots: Slots) -> Optional[bytes]:
    return with_gap(rng, table_bytes(slots), SLOT, len(slots))


def in_one(damage: SlotDamage) -> Damage:
    return lambda rng, slots: damaged_in_one(rng, table_bytes(slots), SLOT, len(slots), damage)


def flags_high(rng: random.Random, slot: bytes) -> bytes:
    return with_byte(slot, FLAGS_AT, slot[FLAGS_AT] | 8 << rng.randrange(5))


def no_records(_: random.Random, slot: bytes) -> bytes:
    return slot[:FLAGS_AT] + bytes(SLOT - FLAGS_AT)


def flag_lost(rng: random.Random, slot: bytes) -> Optional[bytes]:
    """Of a record that has bytes; its only one, or one of them"""
    held = [flag for flag, first, end in ((1, A_AT, AAAA_AT), (2, AAAA_AT, DHCID_AT), (4, DHCID_AT, SLOT)) if any(slot[first:end])]
    return with_byte(slot, FLAGS_AT, slot[FLAGS_AT] & ~rng.choice(held)) if held else None


def dhcid_of_zeros(_: random.Random, slot: bytes) -> Optional[bytes]:
    return None if slot[FLAGS_AT] & 4 else with_byte(slot, FLAGS_AT, slot[FLAGS_AT] | 4)


def stray_in_field(rng: random.Random, slot: bytes) -> Optional[bytes]:
    flag, first, end = rng.choice(((1, A_AT, AAAA_AT), (2, AAAA_AT, DHCID_AT), (4, DHCID_AT, SLOT)))
    return None if slot[FLAGS_AT] & flag else stray(rng, slot, first, end)


def stray_after_name(rng: random.Random, slot: bytes) -> Optional[bytes]:
    return stray(rng, slot, NAME_AT + slot[0], FLAGS_AT)


def length_off(rng: random.Random, slot: bytes) -> bytes:
    return with_byte(slot, 0, rng.choice([length for length in (slot[0] - 1, slot[0] + 1, 1, 255) if length not in (slot[0], 256)]))


def improper(rng: random.Random, slot: bytes) -> bytes:
    while True:
        name = bad_name(rng).data.lower()
        if 0 < len(name) <= 255:
            return bytes([len(name)]) + name.ljust(255, b"\0") + slot[FLAGS_AT:]


def upper_case(rng: random.Random, slot: bytes) -> Optional[bytes]:
    letters = [at for at in range(NAME_AT, NAME_AT + slot[0]) if slot[at:at + 1].islower()]
    if not letters:
        return None
    at = rng.choice((letters[0], letters[-1], rng.choice(letters)))
    return with_byte(slot, at, slot[at] - 32)


def stored_dhcid(rng: random.Random, slot: bytes) -> bytes:
    dhcid = b""
    while len(dhcid) != SLOT - DHCID_AT:
        dhcid = bad_dhcid(rng, bytes([0, rng.randrange(3), 1]) + some_bytes(rng, 32))
    return with_byte(slot, FLAGS_AT, slot[FLAGS_AT] | 4)[:DHCID_AT] + dhcid


def stray_in_unused(rng: random.Random, slots: Slots) -> Optional[bytes]:
    return with_stray(rng, table_bytes(slots), SLOT, len(slots))


def twice(rng: random.Random, slots: Slots) -> Optional[bytes]:
    """One name has another slot's name: first and last, neighbours, any."""
    if len(slots) < 2:
        return None
    last = len(slots) - 1
    first = rng.randrange(last)
    one, other = rng.choice(((0, last), (first, first + 1), (first, last), tuple(rng.sample(range(last + 1), 2))))
    return table_bytes(replaced(slots, other, slots[other]._replace(name=slots[one].name)))


DAMAGES: Tuple[Damage, ...] = (
    wrong_length, one_name_more, gap, twice, twice, stray_in_unused, stray_in_unused,
    *map(in_one, (flags_high, no_records, flag_lost, dhcid_of_zeros, stray_in_field, stray_in_field, stray_after_name, length_off, improper,
                  upper_case, stored_dhcid)))


def one_byte(rng: random.Random, slots: Slots) -> bytes:
    """One byte is another: the table is sound or not, and the model alone is the judge."""
    slot = rng.choice((0, max(0, len(slots) - 1), min(NAMES - 1, len(slots)), NAMES - 1, rng.randrange(NAMES)))
    length = len(slots[slot].name) if slot < len(slots) else 0
    at = rng.choice((0, 1, length - 1, length, length + 1, 255, FLAGS_AT, FLAGS_AT, A_AT, A_AT + 3, AAAA_AT, AAAA_AT + 15, DHCID_AT, DHCID_AT + 1,
                     DHCID_AT + 2, DHCID_AT + 3, SLOT - 1, rng.randrange(SLOT)))
    at = SLOT * slot + min(SLOT - 1, max(0, at))
    data = table_bytes(slots)
    return with_byte(data, at, rng.choice((0, 1, 2, 3, 4, 5, 6, 7, 8, 45, 95, 97, 65, 255, data[at] ^ 1 << rng.randrange(8))))


# Cases

ASKING = ("find", "count")  # they leave no table


def case(rng: random.Random, state: State, step: Step) -> Case:
    """A step as it is, or with faults; on the table as it is, or damaged."""
    faults: List[int] = []
    if rng.random() < 0.2:
        possible = FAULTS[step.call.word]
        faults = rng.sample(possible, min(len(possible), rng.choice((1, 1, 2, 3))))
    call = step.call
    for fault in faults:
        call = with_fault(rng, call, fault)
    if rng.random() < 0.08:
        return Case("one byte", call._replace(table=one_byte(rng, state.slots)), None)
    kind, table = "faulty" if faults else "step", None
    if rng.random() < 0.25:
        table = rng.choice(DAMAGES)(rng, state.slots)
    if table is None:
        table = table_bytes(state.slots)
    else:
        kind = "damaged"
        faults.append(40)
    refusal = min(faults, key=ORDER.index, default=step.refusal)
    left = () if call.word in ASKING else (table_bytes(step.after),)
    return Case(kind, call._replace(table=table), ("ok", step.value, *left) if refusal is None else ("refused", refusal))


def sequence(rng: random.Random) -> Iterator[Case]:
    """Steps on one table: of few names, of many, or about full from the start; seldom with long names then, which take long."""
    way = rng.randrange(12)
    if way < 8:
        count, start = rng.randint(2, 6), rng.choice((0, 3, 3))
    elif way < 10:
        count, start = 20, rng.randint(0, 20)
    else:
        count, start = 68, rng.choice((62, 63, 64, 64))
    stock = Stock(rng, count, way == 11 and rng.random() < 0.3)
    slots = tuple(stock.slot(rng, name) for name in stock.names[:start])
    for _ in range(rng.randint(5, 40)):
        state = State(stock, slots)
        step = rng.choice(STEPS)(rng, state)
        if step is not None:
            made = case(rng, state, step)
            yield made
            if made.meant is not None and made.meant[0] == "ok":
                slots = step.after


def generated(seed: int, batch: int, count: int = BATCH) -> Iterator[Case]:
    rng = random.Random("%d/%d" % (seed, batch))
    return itertools.islice(itertools.chain.from_iterable(sequence(rng) for _ in itertools.count()), count)


# Small forms, whole

A_NAME, B_NAME, C_NAME = wire([b"a"]), wire([b"ab"]), wire([b"a", b"b"])
DHCIDS = (b"\0\0\1" + b"\xd1" * 32, b"\0\0\1" + b"\xd1" * 31 + b"\xd2")
ADDRESSES = {4: (b"\xc0\0\2\1", b"\xc0\0\2\2"), 6: (b"\x20\1" + bytes(13) + b"\1", b"\x20\1" + bytes(13) + b"\2")}
ADD = Call("add", b"", B_NAME, DHCIDS[0], 4, ADDRESSES[4][0], 1)
REMOVE = ADD._replace(word="remove", policy=0)
CLEAR = Call("clear", b"", B_NAME)
FIND = Call("find", b"", B_NAME)
COUNT = Call("count", b"")
CALLS = (ADD, REMOVE, CLEAR, FIND, COUNT)
NAMED = (ADD, REMOVE, CLEAR, FIND)


def few_names() -> Iterator[Call]:
    """At most two names with any records, and every step on them, on a third name too."""
    records = [fields for fields in itertools.product((b"", ADDRESSES[4][0]), (b"", ADDRESSES[6][0]), (b"",) + DHCIDS) if any(fields)]
    tables = [[Slot(name, *fields) for name, fields in zip((A_NAME, B_NAME), chosen)]
              for count in range(3) for chosen in itertools.product(records, repeat=count)]
    steps = [Call(word, b"", name) for word in ("clear", "find") for name in (A_NAME, B_NAME.upper(), C_NAME)] + [COUNT]
    for name, dhcid, family, which in itertools.product((A_NAME.upper(), B_NAME, C_NAME), DHCIDS, (4, 6), (0, 1)):
        step = ADD._replace(name=name, dhcid=dhcid, family=family, address=ADDRESSES[family][which])
        steps += [step, step._replace(policy=0), step._replace(word="remove", policy=0)]
    for table in map(table_bytes, tables):
        for step in steps:
            yield step._replace(table=table)


SOME = (Slot(A_NAME, a=ADDRESSES[4][0]), Slot(C_NAME, aaaa=ADDRESSES[6][0]), Slot(B_NAME, ADDRESSES[4][0], b"", DHCIDS[0]))
SOME_TABLE = table_bytes(SOME)


def bytes_of_tables() -> Iterator[Call]:
    """Every byte of a small table is another; every value of those that say something; every length about a few."""
    for at in range(TABLE):
        yield CALLS[at % 5]._replace(table=with_byte(SOME_TABLE, at, SOME_TABLE[at] ^ 1))
    start = 2 * SLOT
    for at in (0, 1, 2, 3, 4, 5, 255, FLAGS_AT, A_AT, AAAA_AT, DHCID_AT, DHCID_AT + 1, DHCID_AT + 2, DHCID_AT + 3, SLOT - 1, SLOT, SLOT + 1):
        for value in range(256):
            yield CALLS[value % 5]._replace(table=with_byte(SOME_TABLE, start + at, value))
            yield (COUNT if value % 5 < 4 else FIND)._replace(table=with_byte(SOME_TABLE, start + at, value))
    for length in itertools.chain(range(2 * SLOT), range(SLOT, 66 * SLOT, SLOT), range(TABLE - 40, TABLE + 40), (65536, TABLE + 65536, 131072)):
        yield CALLS[length % 5]._replace(table=SOME_TABLE.ljust(length, b"\0")[:length])


def full_tables() -> Iterator[Call]:
    """62, 63 and 64 names: steps on each of them and on another; each removed with its last address, in both families; every number of names counted;
    every two of 64 with one name."""
    names = [wire([b"n%d" % number]) for number in range(NAMES)]
    full = tuple(Slot(name, ADDRESSES[4][0], ADDRESSES[6][0], DHCIDS[0]) for name in names)
    for count in (62, 63, 64):
        table = table_bytes(full[:count])
        for name in names[:count] + [B_NAME]:
            for step in NAMED + (ADD._replace(dhcid=DHCIDS[1]), ADD._replace(dhcid=DHCIDS[1], policy=0)):
                yield step._replace(table=table, name=name)
    for count, family in itertools.product((62, 63, 64), (4, 6)):
        address = ADDRESSES[family][0]
        table = table_bytes([Slot(name, dhcid=DHCIDS[0]).with_address(family, address) for name in names[:count]])
        for name in names[:count]:
            yield REMOVE._replace(table=table, name=name, family=family, address=address)
    for count in range(NAMES + 1):
        yield COUNT._replace(table=table_bytes(full[:count]))
    for one, other in itertools.combinations(range(NAMES), 2):
        call = (CLEAR, FIND, COUNT)[(one + other) % 3]
        yield call._replace(table=table_bytes(replaced(full, other, full[other]._replace(name=names[one]))), name=names[one])


def arguments() -> Iterator[Call]:
    """Every byte's value of a family, a policy, a short name, a DHCID's head; every length."""
    long_name = wire([b"a" * 63] * 3 + [b"b" * 61])
    for call in (ADD._replace(table=SOME_TABLE), REMOVE._replace(table=SOME_TABLE)):
        for value in range(256):
            yield call._replace(family=value)
            yield call._replace(policy=value) if call.word == "add" else call._replace(family=value << 8 | 4)
            for at in range(3):
                yield call._replace(dhcid=with_byte(DHCIDS[0], at, value))
            yield call._replace(dhcid=(DHCIDS[0] + bytes(256))[:value])
            for family in (4, 6):
                yield call._replace(family=family, address=(ADDRESSES[family][0] + bytes(256))[:value])
    for call in (call._replace(table=SOME_TABLE) for call in NAMED):
        for value in range(256):
            for name in (bytes([2, value, 98, 0]), bytes([value, 97, 98, 0]), bytes([2, 97, 98, value]), B_NAME + bytes([value]),
                         bytes([value]) + b"a" * value + b"\0", (long_name + b"\0")[:value + 1]):
                yield call._replace(name=name)


def small_forms() -> Iterator[Case]:
    for kind, calls in (("few names", few_names()), ("bytes", bytes_of_tables()), ("full", full_tables()), ("arguments", arguments())):
        for call in calls:
            yield Case(kind, call, None)


def line(call: Call, zeros: Tuple[int, int, int, int] = (0, 0, 0, 0)) -> str:
    """A call as the harness reads it, with zeros behind table, name, DHCID and address."""
    table = packed(call.table) + (",-+%d" % zeros[0] if zeros[0] else "")
    name, dhcid, address = ((data.hex() or "-") + ("+%d" % count if count else "")
                            for data, count in zip((call.name, call.dhcid, call.address), zeros[1:]))
    if call.word == "count":
        return "count " + table
    if call.word in ("clear", "find"):
        return "%s %s %s" % (call.word, table, name)
    fields = "%s %s %s %s %d %s" % (call.word, table, name, dhcid, call.family, address)
    return fields + " %d" % call.policy if call.word == "add" else fields


if __name__ == "__main__":
    print_lines(__doc__, BATCH, lambda seed, batch, count: [line(case.call) for case in generated(seed, batch, count)])
