"""PTR names, leases and their ends: sequences of them on a table with its reverse side, each cut and run again, with faults and on damaged sides; and
every call of some small forms.

    generated(seed, batch, count)  cases by chance, the same ones for the same numbers
    small_forms()                  every call of some small forms
    python3 -B tests/lease_cases.py SEED COUNT   the lines for the harness

A case says what it was meant to be wherever the way that it was made settles that: the table's part is a step of table_cases.py, which is chosen for
its answer; the reverse side that is left is put together from pointers that are known; faults are given to the call, of which the rules' order picks
one; and a damaged side is not sound. A PTR name is the one that Python's ipaddress has. The model has to agree, so that it is not the only judge.
"""

import ipaddress
import itertools
import random
from typing import Callable, Iterator, List, NamedTuple, Optional, Sequence, Tuple

import table_cases
import table_model
from chance import print_lines
from lease_model import Answer, Call, packed
from message_cases import bad_name, some_bytes, wire, with_byte
from table_cases import Slot, SlotDamage, Slots, State, Step, Stock, damaged_in_one, nudged, stray, table_bytes, with_gap, with_stray

BATCH = 60

ADDRESSES = 128
SLOT = 273
REVERSE = ADDRESSES * SLOT
ADDRESS_AT, LENGTH_AT, NAME_AT = 1, 17, 18  # in a slot
SIZE = {4: 4, 6: 16}


class Case(NamedTuple):
    kind: str
    call: Call
    meant: Optional[Answer]


# Reverse sides

class Pointer(NamedTuple):
    """An address, and the name behind it in lower case"""
    family: int
    address: bytes
    name: bytes


Pointers = Tuple[Pointer, ...]


def pointer_bytes(pointer: Pointer) -> bytes:
    return b"".join([bytes([pointer.family]), pointer.address.ljust(16, b"\0"), bytes([len(pointer.name)]), pointer.name.ljust(255, b"\0")])


def reverse_bytes(pointers: Sequence[Pointer]) -> bytes:
    return b"".join(map(pointer_bytes, pointers)).ljust(REVERSE, b"\0")


def place_of(pointers: Pointers, family: int, address: bytes) -> Optional[int]:
    return next((at for at, pointer in enumerate(pointers) if (pointer.family, pointer.address) == (family, address)), None)


def leased(pointers: Pointers, new: Pointer) -> Pointers:
    at = place_of(pointers, new.family, new.address)
    return pointers + (new,) if at is None else pointers[:at] + (new,) + pointers[at + 1:]


def ended(pointers: Pointers, old: Pointer) -> Pointers:
    return tuple(pointer for pointer in pointers if pointer != old)


# What the calls choose from: names, DHCIDs and addresses that differ in little, and as many addresses as a full side needs

def stock_of(rng: random.Random, names: int, addresses: int, is_long: bool) -> Stock:
    stock = Stock(rng, names, is_long)
    four, six = (stock.addresses[family] for family in (4, 6))
    six.append(four[0].ljust(16, b"\0"))  # the same bytes in both families
    while len(four) + len(six) < addresses:
        family = rng.choice((4, 4, 6))
        old = rng.choice(stock.addresses[family])
        stock.addresses[family].append(rng.choice((nudged(rng, old), some_bytes(rng, SIZE[family]))))
        four[:], six[:] = dict.fromkeys(four), dict.fromkeys(six)
    return stock


def some_pointers(rng: random.Random, stock: Stock, slots: Slots, count: int) -> Pointers:
    """So many addresses, if there are as many: behind most of those in the table a name that has them, kept by hand or not; behind the others any"""
    held = [(family, slot.address(family), slot.name) for slot in slots for family in slot.families() if rng.random() < 0.8]
    every = [(family, address) for family in (4, 6) for address in dict.fromkeys(stock.addresses[family])]
    rng.shuffle(every)
    named = {address: rng.choice(stock.names) for address in every[:count]}
    for family, address, name in held:
        if (family, address) in named or len(named) < count:
            named[family, address] = name
    return tuple(Pointer(family, address, name) for (family, address), name in itertools.islice(named.items(), count))


# Calls with a known answer

class Sides(NamedTuple):
    slots: Slots
    pointers: Pointers

    def data(self) -> Tuple[bytes, bytes]:
        return table_bytes(self.slots), reverse_bytes(self.pointers)


class Made(NamedTuple):
    """A call without its sides, and its answer on sound ones: the refusal, or the value and the sides that it leaves"""
    call: Call
    refusal: Optional[int]
    value: int
    after: Sides


WORDS = {"add": "lease", "remove": "end"}
FORWARD = tuple(step for step in table_cases.STEPS if step not in (table_cases.clear_known, table_cases.find_known, table_cases.count_names))


def made_of(step: Step, sides: Sides) -> Optional[Made]:
    """The lease or the end whose forward step this is"""
    given = step.call
    if given.word not in WORDS:
        return None
    call = Call(WORDS[given.word], b"", b"", given.name, given.dhcid, given.family, given.address, given.policy)
    pointer = Pointer(given.family, given.address, given.name.lower())
    if call.word == "lease" and len(sides.pointers) == ADDRESSES and place_of(sides.pointers, call.family, call.address) is None:
        return Made(call, 46, 0, sides)
    if step.refusal is not None:
        return Made(call, step.refusal, 0, sides)
    after = leased(sides.pointers, pointer) if call.word == "lease" else ended(sides.pointers, pointer)
    return Made(call, None, step.value, Sides(step.after, after))


def forward(rng: random.Random, stock: Stock, sides: Sides) -> Optional[Made]:
    """A step by chance; some leases are at an address that has a name behind it, and many at one that a nearly full side is without."""
    step = rng.choice(FORWARD)(rng, State(stock, sides.slots))
    if step is None or step.call.word != "add":
        return None if step is None else made_of(step, sides)
    known = [pointer[:2] for pointer in sides.pointers]
    if known and rng.random() < 0.15:
        return made_of(at_address(step, sides.slots, *rng.choice((known[0], known[-1], rng.choice(known)))), sides)
    if len(known) > ADDRESSES - 3 and rng.random() < 0.5:
        others = [(family, address) for family in (4, 6) for address in stock.addresses[family] if (family, address) not in known]
        return made_of(at_address(step, sides.slots, *rng.choice(others)), sides)
    return made_of(step, sides)


def at_address(step: Step, slots: Slots, family: int, address: bytes) -> Step:
    """The same add with another address: the slot that it leaves is put together anew."""
    name = step.call.name.lower()
    before = next((slot for slot in slots if slot.name == name), Slot(name))
    kept = before if before.dhcid == step.call.dhcid else Slot(name)
    left = kept.with_address(family, address)._replace(dhcid=step.call.dhcid)
    after = tuple(left if slot.name == name else slot for slot in step.after)
    return step._replace(call=step.call._replace(family=family, address=address), after=after)


# Cuts

def again(call: Call, made: Made, cut: int) -> Answer:
    """An accepted call that is run again ends in the state of the uncut run."""
    if call.word == "end" and cut == 2:
        return ("refused", 34 if any(slot.name == call.name.lower() for slot in made.after.slots) else 33)
    return ("ok", 1 if call.word == "lease" and cut > 0 else made.value, *made.after.data())


# Faults and damage

ORDER = (12, 40, 9, 15, 16)
STEP_OF = {"lease": "add", "end": "remove"}


def faulty(rng: random.Random, call: Call, fault: int) -> Call:
    step = table_model.Call(STEP_OF[call.word], b"", call.name, call.dhcid, call.family, call.address, call.policy)
    given = table_cases.with_fault(rng, step, fault)
    return call._replace(name=given.name, dhcid=given.dhcid, family=given.family, address=given.address, policy=given.policy)


Damage = Callable[[random.Random, Pointers], Optional[bytes]]  # bytes that are not sound, or None if these pointers have no place for it


def wrong_length(rng: random.Random, pointers: Pointers) -> bytes:
    length = rng.choice((0, 1, 272, 273, 274, REVERSE - SLOT, REVERSE - 1, REVERSE + 1, REVERSE + SLOT, 2 * REVERSE, 19968, SLOT * len(pointers),
                         rng.randrange(REVERSE)))
    data = reverse_bytes(pointers).ljust(length, b"\0")
    return data[:length] if length != REVERSE else data[:-1]


def one_more(rng: random.Random, pointers: Pointers) -> Optional[bytes]:
    """129 addresses, or one behind a side's end"""
    return reverse_bytes(pointers) + pointer_bytes(Pointer(4, some_bytes(rng, 4), b"\2zz\0"))


def gap(rng: random.Random, pointers: Pointers) -> Optional[bytes]:
    return with_gap(rng, reverse_bytes(pointers), SLOT, len(pointers))


def twice(rng: random.Random, pointers: Pointers) -> Optional[bytes]:
    """One address is another slot's: first and last, neighbours, any."""
    if len(pointers) < 2:
        return None
    last = len(pointers) - 1
    first = rng.randrange(last)
    one, other = rng.choice(((0, last), (first, first + 1), (first, last), tuple(rng.sample(range(last + 1), 2))))
    again_there = pointers[one]._replace(name=rng.choice((pointers[one].name, pointers[other].name)))
    return reverse_bytes(pointers[:other] + (again_there,) + pointers[other + 1:])


def stray_in_unused(rng: random.Random, pointers: Pointers) -> Optional[bytes]:
    return with_stray(rng, reverse_bytes(pointers), SLOT, len(pointers))


def in_one(damage: SlotDamage) -> Damage:
    return lambda rng, pointers: damaged_in_one(rng, reverse_bytes(pointers), SLOT, len(pointers), damage)


def other_family(rng: random.Random, slot: bytes) -> bytes:
    """No family; 0 too, since the slot has a name"""
    return with_byte(slot, 0, rng.choice((0, 0, 1, 2, 3, 5, 5, 7, 12, 132, 255)))


def behind_address(rng: random.Random, slot: bytes) -> Optional[bytes]:
    return stray(rng, slot, ADDRESS_AT + 4, LENGTH_AT) if slot[0] == 4 else None


def behind_name(rng: random.Random, slot: bytes) -> Optional[bytes]:
    return stray(rng, slot, NAME_AT + slot[LENGTH_AT], SLOT)


def length_off(rng: random.Random, slot: bytes) -> bytes:
    length = slot[LENGTH_AT]
    return with_byte(slot, LENGTH_AT, rng.choice([other for other in (0, length - 1, length + 1, 1, 255) if other not in (length, 256)]))


def with_name(slot: bytes, name: bytes) -> bytes:
    return slot[:LENGTH_AT] + bytes([len(name)]) + name.ljust(255, b"\0")


def improper(rng: random.Random, slot: bytes) -> bytes:
    while True:
        name = bad_name(rng).data.lower()
        if len(name) <= 255:
            return with_name(slot, name)


def upper_case(rng: random.Random, slot: bytes) -> Optional[bytes]:
    letters = [at for at in range(NAME_AT, NAME_AT + slot[LENGTH_AT]) if slot[at:at + 1].islower()]
    if not letters:
        return None
    at = rng.choice((letters[0], letters[-1], rng.choice(letters)))
    return with_byte(slot, at, slot[at] - 32)


DAMAGES: Tuple[Damage, ...] = (
    wrong_length, one_more, gap, twice, twice, twice, stray_in_unused, stray_in_unused,
    *map(in_one, (other_family, other_family, behind_address, behind_address, behind_name, behind_name, length_off, improper, upper_case)))


def one_byte(rng: random.Random, pointers: Pointers) -> bytes:
    """One byte is another: the side is sound or not, and the model alone is the judge."""
    slot = rng.choice((0, max(0, len(pointers) - 1), min(ADDRESSES - 1, len(pointers)), ADDRESSES - 1, rng.randrange(ADDRESSES)))
    length = len(pointers[slot].name) if slot < len(pointers) else 0
    end = NAME_AT + length
    at = rng.choice((0, 0, 1, 4, 5, 16, LENGTH_AT, LENGTH_AT, NAME_AT, NAME_AT + 1, end - 1, end, SLOT - 1, rng.randrange(SLOT)))
    at = SLOT * slot + min(SLOT - 1, at)
    data = reverse_bytes(pointers)
    return with_byte(data, at, rng.choice((0, 1, 3, 4, 4, 5, 6, 6, 45, 95, 97, 65, 255, data[at] ^ 1 << rng.randrange(8))))


# Cases

def cases_of(rng: random.Random, sides: Sides, made: Made) -> Iterator[Case]:
    """A call as it is, and again after each cut if it is accepted; or with faults; or on a damaged side"""
    call, (table, reverse) = made.call, sides.data()
    faults: List[int] = []
    if rng.random() < 0.2:
        faults = rng.sample((12, 9, 15, 16), rng.choice((1, 1, 2, 3)))
    for fault in faults:
        call = faulty(rng, call, fault)
    if rng.random() < 0.08:
        if rng.random() < 0.25:
            table = table_cases.one_byte(rng, sides.slots)
        else:
            reverse = one_byte(rng, sides.pointers)
        yield Case("one byte", call._replace(table=table, reverse=reverse), None)
        return
    kind = "faulty" if faults else "call"
    if rng.random() < 0.25:
        damaged = rng.choice(table_cases.DAMAGES)(rng, sides.slots) if rng.random() < 0.3 else None
        damaged_reverse = rng.choice(DAMAGES)(rng, sides.pointers) if damaged is None or rng.random() < 0.2 else None
        if damaged is not None or damaged_reverse is not None:
            table, reverse = table if damaged is None else damaged, reverse if damaged_reverse is None else damaged_reverse
            kind = "damaged"
            faults.append(40)
    refusal = min(faults, key=ORDER.index, default=made.refusal)
    call = call._replace(table=table, reverse=reverse)
    if refusal is not None:
        yield Case(kind, call, ("refused", refusal))
        if rng.random() < 0.3:
            yield Case("refused and again", call._replace(cut=rng.randrange(3)), ("refused", refusal))
        return
    yield Case(kind, call, ("ok", made.value, *made.after.data()))
    for cut in range(3):
        yield Case("again after %d" % cut, call._replace(cut=cut), again(call, made, cut))


def pointed(address: bytes) -> bytes:
    """The PTR name by Python's ipaddress"""
    return wire([label.encode("ascii") for label in ipaddress.ip_address(address).reverse_pointer.split(".")])


def ptr_case(family: int, address: bytes, out: int) -> Case:
    name = pointed(address)
    return Case("PTR name", Call("ptr", family=family, address=address, out=out), ("ok", len(name), name) if len(name) <= out else ("refused", 13))


def some_address(rng: random.Random, family: int) -> bytes:
    """By chance, of about as many digits each, or of bytes at the edges"""
    first, end = rng.choice(((0, 10), (0, 100), (10, 100), (100, 256), (0, 256), (0, 256)))
    if rng.random() < 0.25:
        return bytes(rng.choice((0, 0, 0, 1, 9, 10, 16, 99, 100, 160, 199, 200, 255)) for _ in range(SIZE[family]))
    return bytes(rng.randrange(first, end) for _ in range(SIZE[family]))


def some_ptr(rng: random.Random) -> Case:
    """With up to two faults; too little room is one more"""
    family = rng.choice((4, 6))
    address = some_address(rng, family)
    need = len(pointed(address))
    right = ptr_case(family, address, rng.choice((need, need, need + 1, 74, 255, need - 1, need - 1, 22, 21, 0, rng.randint(0, 80))))
    call, meant = right.call, right.meant
    if rng.random() < 0.15:
        lengths = (0, 1, 3, 5, 15, 16, 17) if family == 4 else (0, 3, 4, 5, 15, 17, 32)
        call, meant = call._replace(address=some_bytes(rng, rng.choice(lengths))), ("refused", 16)
    if rng.random() < 0.15:
        call, meant = call._replace(family=rng.choice((0, 1, 2, 3, 5, 7, 28, 255, 256, 260, 262, 2 ** 31, 2 ** 32 - 1))), ("refused", 12)
    return Case("PTR name", call, meant)


def sequence(rng: random.Random) -> Iterator[Case]:
    """Calls on one table and its reverse side: of few names and addresses, of many, or with one or both sides about full from the start"""
    way = rng.randrange(12)
    names, start, addresses, pointers = rng.randint(2, 6), rng.choice((0, 2, 3)), 10, rng.choice((0, 0, 2, 5))
    if way in (8, 9):
        names, start, addresses, pointers = 20, rng.randint(0, 20), 40, rng.randint(0, 40)
    elif way >= 10:
        addresses, pointers = 136, rng.choice((126, 127, 127, 128, 128, 128))
    if way == 11:
        names, start = 68, rng.choice((62, 63, 64, 64))
    stock = stock_of(rng, names, addresses, way == 7 and rng.random() < 0.3)
    slots = tuple(stock.slot(rng, name) for name in stock.names[:start])
    sides = Sides(slots, some_pointers(rng, stock, slots, pointers))
    for _ in range(rng.randint(3, 20)):
        made = forward(rng, stock, sides)
        if made is not None:
            cases = list(cases_of(rng, sides, made))
            yield from cases
            if cases[0].meant is not None and cases[0].meant[0] == "ok":
                sides = made.after
        if rng.random() < 0.15:
            yield some_ptr(rng)


def generated(seed: int, batch: int, count: int = BATCH) -> Iterator[Case]:
    rng = random.Random("%d/%d" % (seed, batch))
    return itertools.islice(itertools.chain.from_iterable(sequence(rng) for _ in itertools.count()), count)


# Small forms, whole

A_NAME, B_NAME, C_NAME = wire([b"a"]), wire([b"ab"]), wire([b"a", b"b"])
DHCIDS = (b"\0\0\1" + b"\xd1" * 32, b"\0\0\1" + b"\xd1" * 31 + b"\xd2")
X, Y = b"\xc0\0\2\1", b"\xc0\0\2\2"
X6 = X.ljust(16, b"\0")  # the same bytes in the other family
P = b"\x20\1\x0d\xb8" + bytes(11) + b"\1"
LEASE = Call("lease", b"", b"", B_NAME, DHCIDS[0], 4, X, 1)
END = LEASE._replace(word="end", policy=0)
RECORDS = ((X, b"", DHCIDS[0]), (X, X6, DHCIDS[0]), (b"", X6, DHCIDS[0]), (Y, b"", DHCIDS[0]), (X, b"", DHCIDS[1]), (X, X6, b""))


def few_sides() -> Iterator[Case]:
    """Every reverse side of two addresses and two names beside every table of at most two names, and every call on both; every fifth is also cut and
    run again. The two addresses are the same bytes in two families, or two of one family."""
    tables = [table_bytes([Slot(name, *fields) for name, fields in zip((A_NAME, B_NAME), chosen)])
              for count in range(3) for chosen in itertools.product(RECORDS, repeat=count)]
    number = 0
    for pair in (((4, X), (6, X6)), ((4, X), (4, Y))):
        sides = [reverse_bytes([Pointer(*address, name) for address, name in zip(order, chosen)]) for count in range(3)
                 for order in itertools.permutations(pair, count) for chosen in itertools.product((A_NAME, B_NAME), repeat=count)]
        steps = []
        for name, dhcid, (family, address) in itertools.product((A_NAME.upper(), B_NAME), DHCIDS, pair):
            step = LEASE._replace(name=name, dhcid=dhcid, family=family, address=address)
            steps += [step, step._replace(policy=0), step._replace(word="end", policy=0)]
        steps += [LEASE._replace(name=C_NAME, address=X), END._replace(name=C_NAME, address=X)]  # 26, and not a multiple of five
        for table, reverse in itertools.product(tables, sides):
            for step in steps:
                call = step._replace(table=table, reverse=reverse)
                yield Case("few", call, None)
                number += 1
                if number % 5 == 0:
                    yield Case("few", call._replace(cut=1 + number // 5 % 2), None)


SOME = (Slot(A_NAME, a=Y), Slot(C_NAME, aaaa=P), Slot(B_NAME, X, b"", DHCIDS[0]))
SOME_TABLE = table_bytes(SOME)
SOME_POINTERS = (Pointer(4, Y, A_NAME), Pointer(6, P, C_NAME), Pointer(4, X, B_NAME))
SOME_REVERSE = reverse_bytes(SOME_POINTERS)
ON_SOME = tuple(call._replace(table=SOME_TABLE, reverse=SOME_REVERSE) for call in (LEASE, END))


def bytes_of_sides() -> Iterator[Call]:
    """Every byte of the slots that are used, of the one behind them and of the last changed, and every eleventh of the others; every value of those
    that say something; every length about a few; and some damaged tables"""
    for at in itertools.chain(range(4 * SLOT), range(4 * SLOT, REVERSE - SLOT, 11), range(REVERSE - SLOT, REVERSE)):
        yield ON_SOME[at % 2]._replace(reverse=with_byte(SOME_REVERSE, at, SOME_REVERSE[at] ^ 1 << at % 8))
    for start in (SLOT, 2 * SLOT):
        for at in (0, 1, 4, 5, 16, LENGTH_AT, NAME_AT, NAME_AT + 1, NAME_AT + 2, NAME_AT + 3, NAME_AT + 4, SLOT - 1):
            for value in range(256):
                yield ON_SOME[value % 2]._replace(reverse=with_byte(SOME_REVERSE, start + at, value))
    about = range(REVERSE - 40, REVERSE + 40)
    for length in itertools.chain(range(2 * SLOT), range(SLOT, 131 * SLOT, SLOT), about, (65536, REVERSE + 65536, 131072)):
        yield ON_SOME[length % 2]._replace(reverse=SOME_REVERSE.ljust(length, b"\0")[:length])
    for number, call in enumerate(itertools.islice(table_cases.bytes_of_tables(), 0, None, 13)):
        yield ON_SOME[number % 2]._replace(table=call.table)


def full_sides() -> Iterator[Call]:
    """Every number of addresses, with one more; about 128 each address leased to another name and ended; many pairs of 128 with one address; both
    sides full"""
    names = [wire([b"n%d" % number]) for number in range(ADDRESSES)]
    families = [4 if number % 3 else 6 for number in range(ADDRESSES)]
    full = tuple(Pointer(family, bytes([10, 0, 0, number]).ljust(SIZE[family], b"\0"), name)
                 for number, (family, name) in enumerate(zip(families, names)))
    for count in range(ADDRESSES + 1):
        reverse = reverse_bytes(full[:count])
        for policy, cut in ((0, None), (1, 1), (0, 2)):
            yield LEASE._replace(table=SOME_TABLE, reverse=reverse, policy=policy, cut=cut)
        yield END._replace(table=SOME_TABLE, reverse=reverse)
    for count in (126, 127, 128):
        reverse = reverse_bytes(full[:count])
        for number, pointer in enumerate(full):
            call = LEASE._replace(reverse=reverse, family=pointer.family, address=pointer.address)
            yield call._replace(table=SOME_TABLE)
            yield call._replace(table=SOME_TABLE, dhcid=DHCIDS[1], policy=0)
            held = table_bytes(SOME + (Slot(pointer.name, dhcid=DHCIDS[0]).with_address(pointer.family, pointer.address),))
            for cut in (None, 1, 2):
                yield call._replace(word="end", policy=0, table=held, name=pointer.name, cut=cut)
            yield call._replace(word="end", policy=0, table=held, name=pointer.name, dhcid=DHCIDS[number % 2])
    for one, other in itertools.combinations(range(ADDRESSES), 2):
        if one in (0, other - 1) or other == ADDRESSES - 1 or (one + other) % 8 == 0:
            reverse = reverse_bytes(full[:other] + (full[one]._replace(name=names[other]),) + full[other + 1:])
            yield (END, LEASE)[other % 2]._replace(table=SOME_TABLE, reverse=reverse)
    table_full = tuple(Slot(name, dhcid=DHCIDS[0]).with_address(pointer.family, pointer.address) for name, pointer in zip(names, full[:64]))
    for count in (62, 63, 64):
        table, reverse = table_bytes(table_full[:count]), reverse_bytes(full)
        for pointer in full[:64] + (Pointer(4, X, B_NAME),):
            call = LEASE._replace(table=table, reverse=reverse, family=pointer.family, address=pointer.address, name=pointer.name)
            yield call
            yield call._replace(name=B_NAME, policy=0)
            yield call._replace(word="end", policy=0)


def arguments() -> Iterator[Call]:
    """Every byte's value of a family, a policy, a short name, a DHCID's head; every length"""
    long_name = wire([b"a" * 63] * 3 + [b"b" * 61])
    for call in ON_SOME:
        for value in range(256):
            yield call._replace(family=value)
            yield call._replace(policy=value) if call.word == "lease" else call._replace(family=value << 8 | 4)
            for at in range(3):
                yield call._replace(dhcid=with_byte(DHCIDS[0], at, value))
            yield call._replace(dhcid=(DHCIDS[0] + bytes(256))[:value])
            for family in (4, 6):
                yield call._replace(family=family, address=((X, P)[family == 6] + bytes(256))[:value])
            for name in (bytes([2, value, 98, 0]), bytes([value, 97, 98, 0]), bytes([2, 97, 98, value]), B_NAME + bytes([value]),
                         bytes([value]) + b"a" * value + b"\0", (long_name + b"\0")[:value + 1]):
                yield call._replace(name=name)


def addresses_leased() -> Iterator[Call]:
    """Every value of each byte of an address, leased, ended, and ended where another stands that differs in that byte"""
    for family, address in ((4, X), (6, P)):
        for at, value in itertools.product(range(SIZE[family]), range(0, 256, 5)):
            other = with_byte(address, at, value)
            table = table_bytes([Slot(B_NAME, dhcid=DHCIDS[0]).with_address(family, other)])
            yield LEASE._replace(table=SOME_TABLE, reverse=SOME_REVERSE, family=family, address=other)
            yield END._replace(table=table, reverse=reverse_bytes([Pointer(family, address, B_NAME)]), family=family, address=other)
            yield END._replace(table=table, reverse=reverse_bytes([Pointer(family, other, B_NAME)]), family=family, address=other)


def names_of_addresses() -> Iterator[Case]:
    """PTR names: 10,000 addresses by chance, every value of each byte, every length of an out, all by Python's ipaddress"""
    rng = random.Random("PTR names")
    for number in range(10000):
        yield ptr_case((4, 6)[number % 2], some_address(rng, (4, 6)[number % 2]), 74)
    for family, address in ((4, b"\1\x0a\x64\xff"), (6, bytes(range(0x10, 0x100, 0x0f)))):
        for at, value in itertools.product(range(SIZE[family]), range(256)):
            yield ptr_case(family, with_byte(address, at, value), 74)
    for address in (bytes(4), b"\x0a\0\0\0", b"\x64\0\0\0", b"\xc0\0\2\x1f", b"\xff" * 4, P, bytes(16), b"\xff" * 16):
        for out in range(90):
            yield ptr_case(4 if len(address) == 4 else 6, address, out)


def faulty_ptr_names() -> Iterator[Call]:
    """Every family and every length of an address up to 255, with room and without"""
    for value, out in itertools.product(range(256), (74, 0)):
        yield Call("ptr", family=value, address=X, out=out)
        yield Call("ptr", family=value << 8 | 6, address=P, out=out)
        for family in (4, 6):
            yield Call("ptr", family=family, address=(P + bytes(256))[:value], out=out)


def small_forms() -> Iterator[Case]:
    yield from few_sides()
    for kind, calls in (("bytes", bytes_of_sides()), ("full", full_sides()), ("arguments", arguments()), ("addresses", addresses_leased()),
                        ("PTR names", faulty_ptr_names())):
        for call in calls:
            yield Case(kind, call, None)
    yield from names_of_addresses()


def line(call: Call, zeros: Tuple[int, int, int, int, int] = (0, 0, 0, 0, 0)) -> str:
    """A call as the harness reads it, with zeros behind table, reverse side, name, DHCID and address."""
    table, reverse = (packed(data) + (",-+%d" % count if count else "") for data, count in zip((call.table, call.reverse), zeros))
    name, dhcid, address = ((data.hex() or "-") + ("+%d" % count if count else "")
                            for data, count in zip((call.name, call.dhcid, call.address), zeros[2:]))
    if call.word == "ptr":
        return "ptr %d %s %d" % (call.family, address, call.out)
    fields = "%s %s %s %s %s %d %s" % (call.word, table, reverse, name, dhcid, call.family, address)
    return ("" if call.cut is None else "again %d " % call.cut) + (fields + " %d" % call.policy if call.word == "lease" else fields)


if __name__ == "__main__":
    print_lines(__doc__, BATCH, lambda seed, batch, count: [line(case.call) for case in generated(seed, batch, count)])
