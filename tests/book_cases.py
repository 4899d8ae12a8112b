"""Calls on books of names: the books of steps on a table, books of too many names, damaged blocks, torn ends, and every call of some small forms.

    generated(seed, batch, count)  cases by chance, the same ones for the same numbers
    small_forms()                  every call of some small forms
    python3 -B tests/book_cases.py SEED COUNT   the lines for the harness

A case says what it was meant to be wherever the way that it was made settles that: the names that stand after each block are known, and faults are
given to the book, of which the rules' order picks one. The model has to agree, so that it is not the only judge. The steps on a table are those of
table_cases.py, and what they leave is what table_model.py says.
"""

import hashlib
import itertools
import random
from typing import Callable, Iterator, NamedTuple, Optional, Sequence, Tuple

import table_cases
import table_model
from book_model import Answer, Call
from chance import print_lines
from load_cases import short_area, some_area
from message_cases import bad_name, some_bytes, wire, with_byte
from table_cases import DHCID_AT, FLAGS_AT, NAMES, SLOT, TABLE, Slot, Slots, State, Stock, in_either_case, replaced, slot_bytes, table_bytes
from table_model import packed

BATCH = 32
BLOCK, CHECKED, SLOT_AT = 512, 480, 5
MOST = 480  # blocks of a generated book
ROOM = NAMES * BLOCK  # enough for whatever is tidied


class Case(NamedTuple):
    kind: str
    call: Call
    meant: Optional[Answer]


# Blocks and books, put together

def checked(block: bytes) -> bytes:
    """With the check that it has to have"""
    return block[:CHECKED] + hashlib.sha256(block[:CHECKED]).digest()


def block_bytes(number: int, kind: int, slot: bytes) -> bytes:
    return checked(b"".join([(number % 2 ** 32).to_bytes(4, "big"), bytes([kind]), slot]).ljust(CHECKED, b"\0"))


def stands(number: int, slot: Slot) -> bytes:
    return block_bytes(number, 1, slot_bytes(slot))


def gone(number: int, name: bytes) -> bytes:
    return block_bytes(number, 0, slot_bytes(Slot(name)))


def place_of(slots: Slots, name: bytes) -> Optional[int]:
    return next((at for at, slot in enumerate(slots) if slot.name == name), None)


class Book(NamedTuple):
    """Its blocks, and the names that stand after none of them, after one and so on, however many"""
    blocks: Tuple[bytes, ...] = ()
    states: Tuple[Slots, ...] = ((),)

    def slots(self) -> Slots:
        return self.states[-1]

    def then(self, block: bytes, slots: Slots) -> "Book":
        return Book(self.blocks + (block,), self.states + (slots,))

    def with_slot(self, slot: Slot) -> "Book":
        at = place_of(self.slots(), slot.name)
        after = self.slots() + (slot,) if at is None else replaced(self.slots(), at, slot)
        return self.then(stands(len(self.blocks), slot), after)

    def without(self, name: bytes) -> "Book":
        return self.then(gone(len(self.blocks), name), tuple(slot for slot in self.slots() if slot.name != name))

    def data(self) -> bytes:
        return b"".join(self.blocks)

    def fitting(self) -> int:
        """Blocks before the first after which more than 64 names stand"""
        return next((blocks for blocks, slots in enumerate(self.states) if len(slots) > NAMES), len(self.states)) - 1


def tidied(slots: Sequence[Slot]) -> bytes:
    return b"".join(stands(number, slot) for number, slot in enumerate(slots))


def begun(slots: Sequence[Slot]) -> Book:
    """As after a load"""
    book = Book()
    for slot in slots:
        book = book.with_slot(slot)
    return book


# Books of steps on a table

def after_step(rng: random.Random, stock: Stock, book: Book) -> Book:
    """A step is tried on the table. If it is accepted, that name's block is written from the table that is left."""
    step = rng.choice(table_cases.STEPS)(rng, State(stock, book.slots()))
    if step is None or step.call.word in table_cases.ASKING:
        return book
    answer = table_model.answer(step.call._replace(table=table_bytes(book.slots())))
    if answer[0] == "refused":
        return book
    name, number, table = step.call.name.lower(), len(book.blocks), answer[2]
    used = [table[at:at + SLOT] for at in range(0, TABLE, SLOT)]
    held = [slot for slot in used if slot[1:1 + slot[0]] == name]
    block = block_bytes(number, 1, held[0]) if held else gone(number, name)
    return book.then(block, step.after)


def book_of_steps(rng: random.Random, most: int) -> Tuple[Stock, Book]:
    way = rng.randrange(12)
    if way < 9:
        count, start = rng.randint(1, 8), rng.choice((0, 0, 1, 3, 5))
    elif way < 11:
        count, start = 20, rng.randint(0, 20)
    else:
        count, start = 68, rng.choice((62, 63, 64, 64))
    stock = Stock(rng, count, rng.random() < 0.05)
    book = begun([stock.slot(rng, name) for name in stock.names[:start]])
    for _ in range(rng.randint(0, most)):
        book = after_step(rng, stock, book)
    return stock, book


# Books of any names, more than 64 too

def after_chance(rng: random.Random, stock: Stock, book: Book, growing: float) -> Book:
    names = [slot.name for slot in book.slots()]
    if rng.random() < growing or not names:
        name = rng.choice(stock.names) if rng.random() < 0.3 else next((name for name in stock.names if name not in names), stock.names[0])
        return book.with_slot(stock.slot(rng, name))
    if rng.random() < 0.3:
        return book.with_slot(stock.slot(rng, rng.choice((names[0], names[-1], rng.choice(names)))))
    return book.without(rng.choice((names[0], names[-1], names[min(NAMES, len(names) - 1)], rng.choice(names))))


def crowded_book(rng: random.Random) -> Tuple[Stock, Book]:
    """About 64 names stand, or more, with others that come and go behind them."""
    stock = Stock(rng, rng.choice((66, 68, 75, 100)), False)
    book = begun([stock.slot(rng, name) for name in stock.names[:rng.choice((62, 63, 64, 64, 64, 65, 65, 66, len(stock.names)))]])
    growing = rng.choice((0.1, 0.4, 0.6))
    for _ in range(rng.choice((0, 0, 1, 2, 3, 5, 10, 30))):
        book = after_chance(rng, stock, book, growing)
    return stock, book


# Bad blocks: functions of a right block, of its number and of the slots before it, that give a block which is 43 there, or None

Bad = Callable[[random.Random, bytes, int, Slots], Optional[bytes]]


def in_slot(damage: Callable[[random.Random, bytes], Optional[bytes]]) -> Bad:
    def damaged(rng: random.Random, block: bytes, _: int, __: Slots) -> Optional[bytes]:
        slot = block[SLOT_AT:SLOT_AT + SLOT]
        other = damage(rng, slot)
        return None if other in (None, slot) else checked(block[:SLOT_AT] + other + block[SLOT_AT + SLOT:])
    return damaged


def other_number(rng: random.Random, block: bytes, number: int, _: Slots) -> bytes:
    swapped = int.from_bytes(number.to_bytes(4, "big"), "little")
    numbers = (number - 1, number + 1, number + 1, number + 256, number + 65536, number + 2 ** 24, number + 2 ** 31, swapped, 0, rng.getrandbits(32))
    other = rng.choice([other for other in numbers if other != number])
    return checked((other % 2 ** 32).to_bytes(4, "big") + block[4:])


def other_kind(rng: random.Random, block: bytes, _: int, __: Slots) -> bytes:
    return checked(with_byte(block, 4, rng.choice([kind for kind in (0, 1, 2, 2, 3, 128, 129, 255, rng.randrange(256)) if kind != block[4]])))


def behind_slot(rng: random.Random, block: bytes, _: int, __: Slots) -> bytes:
    at = rng.choice((SLOT_AT + SLOT, SLOT_AT + SLOT + 3, CHECKED - 1, rng.randrange(SLOT_AT + SLOT, CHECKED)))
    return checked(with_byte(block, at, rng.choice((1, 128, 255))))


def gone_before(rng: random.Random, _: bytes, number: int, slots: Slots) -> bytes:
    """A name that does not stand"""
    others = [name for slot in slots for name in table_cases.other_names(rng, slot.name)] + [wire([b"nobody"])]
    return gone(number, rng.choice([name for name in others if place_of(slots, name) is None]))


def flags_of_gone(rng: random.Random, slot: bytes) -> Optional[bytes]:
    """Kind 0 with flags, and what belongs to them or zeros"""
    if slot[FLAGS_AT]:
        return None
    flags = rng.choice((1, 2, 3, 4, 5, 7, 8, 128))
    fields = ((1, b"\1\2\3\4"), (2, b"\5" * 16), (4, b"\0\0\1" + b"\6" * 32))
    has_data = rng.random() < 0.5
    return slot[:FLAGS_AT] + bytes([flags]) + b"".join(data if flags & flag and has_data else bytes(len(data)) for flag, data in fields)


def records_lost(_: random.Random, slot: bytes) -> Optional[bytes]:
    """Kind 1 without a flag and a record"""
    return slot[:FLAGS_AT] + bytes(SLOT - FLAGS_AT) if slot[FLAGS_AT] else None


BADS: Tuple[Bad, ...] = (
    other_number, other_number, other_kind, other_kind, behind_slot, behind_slot, gone_before, gone_before,
    *map(in_slot, (table_cases.flags_high, table_cases.flag_lost, table_cases.dhcid_of_zeros, table_cases.stray_in_field,
                   table_cases.stray_after_name, table_cases.length_off, table_cases.improper, table_cases.upper_case, table_cases.stored_dhcid,
                   flags_of_gone, records_lost)))


def bad_field(rng: random.Random, block: bytes, number: int, slots: Slots) -> bytes:
    while True:
        bad = rng.choice(BADS)(rng, block, number, slots)
        if bad is not None:
            return bad


def bad_check(rng: random.Random, block: bytes) -> bytes:
    """One byte is another, of the check or of what is checked; or a write was cut, and something else follows"""
    if rng.random() < 0.2:
        cut = rng.randint(0, BLOCK - 1)
        other = block[:cut] + rng.choice((b"\xff", b"\0")) * (BLOCK - cut)
        if other != block:
            return other
    at = rng.choice((0, 3, 4, SLOT_AT, CHECKED - 1, CHECKED, CHECKED, BLOCK - 1, BLOCK - 1, rng.randrange(CHECKED, BLOCK), rng.randrange(BLOCK)))
    return with_byte(block, at, block[at] ^ rng.choice((1, 128, 255, 1 << rng.randrange(8))))


class Damaged(NamedTuple):
    data: bytes
    fault: Optional[int]  # of the first bad block
    sound: int  # blocks


def with_bad_blocks(rng: random.Random, book: Book, count: int) -> Damaged:
    """So many blocks are bad, if there are that many: the first, the last, those past 64 names or any."""
    blocks, fault = list(book.blocks), None
    past = range(min(book.fitting(), len(blocks)), len(blocks))
    places = set()
    for _ in range(min(count, len(blocks))):
        any_place = rng.randrange(len(blocks))
        places.add(rng.choice((0, len(blocks) - 1, any_place, any_place, rng.choice(past or [any_place]), rng.choice(past or [any_place]))))
    for place in sorted(places, reverse=True):
        fault = rng.choice((42, 43))
        if fault == 43 or rng.random() < 0.2:
            blocks[place] = bad_field(rng, blocks[place], place, book.states[place])
        if fault == 42:
            blocks[place] = bad_check(rng, blocks[place])
    return Damaged(b"".join(blocks), fault, min([book.fitting(), *places]))


# Calls on books

def out_for(rng: random.Random, need: int) -> int:
    less = max(0, need - 1)
    return rng.choice((need, need, need + 1, need + rng.randint(1, 600), ROOM, less, less, max(0, need - BLOCK), rng.randint(0, need), 0))


def rest_of(rng: random.Random, book: Book) -> bytes:
    """The part of a block behind the book: of the next one, of the first, erased"""
    following = stands(len(book.blocks), Slot(wire([b"rest"]), a=b"\1\2\3\4"))
    some = rng.choice((following, *book.blocks[:1], b"\xff" * BLOCK, bytes(BLOCK), some_bytes(rng, BLOCK)))
    return some[:rng.choice((1, 31, 32, 480, 511, 511, rng.randint(1, BLOCK - 1)))]


def asked(rng: random.Random, word: str, book: Book) -> Case:
    """With up to three faults: a rest, bad blocks, too little room; too many names are the book's."""
    is_crowded = book.fitting() < len(book.blocks)
    damaged = with_bad_blocks(rng, book, rng.choice((0, 0, 1, 1, 2) if is_crowded else (0, 0, 0, 0, 0, 0, 1, 1, 2, 3)))
    rest = rest_of(rng, book) if rng.random() < (0.4 if word == "sound" else 0.12) else b""
    data = damaged.data + rest
    if word == "sound":
        return Case("sound", Call(word, data), ("ok", damaged.sound))
    refusal = 44 if rest else damaged.fault or (40 if is_crowded else None)
    if word == "tidy":
        right = tidied(book.slots())
        out = out_for(rng, len(right))
        meant = ("ok", len(right), right) if len(right) <= out else ("refused", 13)
        return Case("tidy", Call(word, data, out=out), meant if refusal is None else ("refused", refusal))
    area = short_area(rng) if rng.random() < 0.15 else some_area(rng)
    meant = ("ok", 0, table_bytes(book.slots())) if len(area) >= TABLE else ("refused", 13)
    return Case(word, Call(word, data, area=area), meant if refusal is None else ("refused", refusal))


def asked_any(rng: random.Random, book: Book) -> Case:
    return asked(rng, rng.choice(("replay", "replay", "replay", "tidy", "tidy", "tidy", "sound", "sound", "again")), book)


def torn(rng: random.Random, stock: Stock, book: Book) -> Iterator[Case]:
    """The next block was not written to its end; behind that is nothing, or what erasing or an older block left. The model alone is the judge."""
    following = after_chance(rng, stock, book, 0.5).blocks[-1]
    cut = rng.choice((0, 1, 3, 4, 5, 261, 317, 479, 480, 481, 511, 512, rng.randint(0, BLOCK)))
    former = [*book.blocks, stands(len(book.blocks), stock.slot(rng, rng.choice(stock.names)))]
    behind = rng.choice((b"", b"\xff" * BLOCK, bytes(BLOCK), rng.choice(former), former[-1]))
    data = book.data() + following[:cut] + behind[cut:]
    yield Case("torn", Call("sound", data), None)
    yield Case("torn", Call("replay", data, area=some_area(rng)), None)


def other_bytes(rng: random.Random, book: Book) -> Case:
    """Bytes changed with the check or without it, blocks that change places, go or come again: the model alone is the judge."""
    blocks = list(book.blocks) or [some_bytes(rng, BLOCK)]
    for _ in range(rng.choice((1, 1, 2))):
        at, other = rng.randrange(len(blocks)), rng.randrange(len(blocks))
        way = rng.randrange(6)
        if way < 3:
            place = rng.choice((3, 4, SLOT_AT, SLOT_AT + 1, SLOT_AT + FLAGS_AT, SLOT_AT + FLAGS_AT, SLOT_AT + DHCID_AT + 1, rng.randrange(BLOCK)))
            blocks[at] = with_byte(blocks[at], place, rng.choice((0, 1, 2, 3, 4, 5, 6, 7, 97, 255, rng.randrange(256))))
            blocks[at] = blocks[at] if way == 0 else checked(blocks[at])
        elif way == 3:
            blocks[at], blocks[other] = blocks[other], blocks[at]
        elif way == 4:
            del blocks[at]
            blocks = blocks or [bytes(BLOCK)]
        else:
            blocks.insert(other, blocks[at])
    if rng.random() < 0.4:  # each as if it had always been there
        blocks = [checked(number.to_bytes(4, "big") + block[4:]) for number, block in enumerate(blocks)]
    word = rng.choice(("replay", "tidy", "sound"))
    return Case("other bytes", Call(word, b"".join(blocks), out=ROOM, area=some_area(rng) if word == "replay" else b""), None)


# The call that writes a block

def block_case(rng: random.Random, stock: Stock, slots: Slots, number: int) -> Case:
    """Of a name that stands, or of another, with up to three faults"""
    names = [slot.name for slot in slots]
    others = [name for name in stock.names if name not in names] or [wire([b"nobody"])]
    name = rng.choice((names[0], names[-1], rng.choice(names))) if names and rng.random() < 0.6 else rng.choice(others)
    number = rng.choice((number, number, 0, 1, 255, 256, 65535, 65536, 2 ** 31, 2 ** 32 - 1, rng.getrandbits(32)))
    at = place_of(slots, name)
    right = gone(number, name) if at is None else stands(number, slots[at])
    out = rng.choice((512, 512, 512, 513, 1024, 700))
    call = Call("block", table=table_bytes(slots), name=in_either_case(rng, name), number=number, out=out)
    if rng.random() < 0.1:
        return Case("one byte", call._replace(table=table_cases.one_byte(rng, slots)), None)
    meant: Answer = ("ok", BLOCK, right)
    if rng.random() < 0.2:
        call, meant = call._replace(out=rng.choice((0, 1, 261, 317, 480, 511, 511))), ("refused", 13)
    if rng.random() < 0.15:
        call, meant = call._replace(name=bad_name(rng).data), ("refused", 9)
    damaged = rng.choice(table_cases.DAMAGES)(rng, slots) if rng.random() < 0.15 else None
    if damaged is not None:
        call, meant = call._replace(table=damaged), ("refused", 40)
    return Case("block", call, meant)


# Cases

def scene(rng: random.Random, is_crowded: bool) -> Iterator[Case]:
    """Several calls on one book, and as it grows"""
    stock, book = crowded_book(rng) if is_crowded else book_of_steps(rng, 25)
    for _ in range(3):
        if len(book.slots()) <= NAMES:
            yield block_case(rng, stock, book.slots(), len(book.blocks))
        for _ in range(6 if is_crowded else 3):
            yield asked_any(rng, book)
        yield from torn(rng, stock, book)
        yield other_bytes(rng, book)
        if is_crowded or len(book.blocks) > MOST:
            break
        for _ in range(rng.randint(1, 4)):
            book = after_step(rng, stock, book)


def scenes(rng: random.Random) -> Iterator[Case]:
    """In each batch the first book has more names than a table has, or nearly; such books are long."""
    for number in itertools.count():
        yield from scene(rng, number == 0)


def generated(seed: int, batch: int, count: int = BATCH) -> Iterator[Case]:
    rng = random.Random("%d/%d" % (seed, batch))
    return itertools.islice(scenes(rng), count)


# Small forms, whole

A_NAME, B_NAME = wire([b"a"]), wire([b"ab"])
A_DATA, AAAA_DATA, DHCID_DATA = b"\xc0\0\2\1", b"\x20\1\x0d\xb8" + bytes(11) + b"\1", b"\0\1\1" + b"\xd1" * 32
OLD = table_bytes([Slot(wire([b"old%d" % number]), b"\1\2\3\4", b"\5" * 16, b"\0\2\1" + b"\6" * 32) for number in range(5)])
A_SLOT, A_OTHER, B_SLOT = Slot(A_NAME, A_DATA, b"", DHCID_DATA), Slot(A_NAME, b"", AAAA_DATA), Slot(B_NAME, A_DATA, AAAA_DATA, DHCID_DATA)


def call_of(word: str, data: bytes) -> Call:
    return Call(word, data, out=ROOM if word == "tidy" else 0, area=OLD if word in ("replay", "again") else b"")


def few_blocks() -> Iterator[Call]:
    """Every book of at most five blocks of two names, each as it stands in two ways or gone"""
    makers = [lambda number, slot=slot: stands(number, slot) for slot in (A_SLOT, A_OTHER, B_SLOT)]
    makers += [lambda number, name=name: gone(number, name) for name in (A_NAME, B_NAME)]
    blocks = [[maker(number) for maker in makers] for number in range(5)]
    books = (b"".join(chosen) for count in range(6) for chosen in itertools.product(*blocks[:count]))
    for at, data in enumerate(books):
        yield call_of("replay", data)
        yield call_of(("tidy", "sound", "again")[at % 3], data)


def bytes_of_blocks() -> Iterator[Call]:
    """Every byte of a block of either kind changed, with its check and without; every value of those that say something"""
    words = ("replay", "tidy", "sound")
    for before, block in (((stands(0, A_SLOT), stands(1, B_SLOT)), stands(2, A_OTHER)), ((stands(0, A_SLOT), stands(1, B_SLOT)), gone(2, A_NAME)),
                          ((), stands(0, A_SLOT))):
        start = b"".join(before)
        after = stands(len(before) + 1, A_OTHER)
        for at in range(BLOCK):
            changed = with_byte(block, at, block[at] ^ 1 << at % 8)
            for word in ("replay", words[at % 2 + 1]):
                yield call_of(word, start + changed)
                if at < CHECKED:
                    yield call_of(word, start + checked(changed) + after)
        for at in (0, 3, 5, 6, 7, 8, 9, 262, 282, 283, 284, 316, 317, 479):
            for value in range(256):
                yield call_of(words[(at + value) % 3], start + checked(with_byte(block, at, value)))
        for at, value, word in itertools.product((4, 261), range(256), words):
            yield call_of(word, start + checked(with_byte(block, at, value)))


def torn_ends() -> Iterator[Call]:
    """A block that is written up to each of its bytes; behind that nothing, erased bytes, an older block, the block that a former book had there"""
    before = (stands(0, A_SLOT), stands(1, B_SLOT))
    for block in (stands(2, A_OTHER), gone(2, B_NAME)):
        for behind in (b"", b"\xff" * BLOCK, before[0], stands(2, A_SLOT)):
            for cut in range(BLOCK + 1):
                data = b"".join(before) + block[:cut] + behind[cut:]
                yield call_of("sound", data)
                yield call_of("replay", data)


def rooms() -> Iterator[Call]:
    """Every length of an out, and many of an area"""
    data = tidied([A_SLOT, B_SLOT])
    for out in range(2 * BLOCK + 3):
        yield Call("tidy", data, out=out)
        yield Call("block", table=table_bytes([A_SLOT, B_SLOT]), name=(A_NAME, wire([b"no"]))[out % 2], number=out, out=out)
    for length in itertools.chain(range(320), range(SLOT, 66 * SLOT, SLOT), range(TABLE - 40, TABLE + 40)):
        yield Call("replay", data, area=OLD.ljust(length, b"x")[:length])


def blocks_written() -> Iterator[Call]:
    """Every value of a name's bytes, every length of a name, every number about the powers of two, all records, damaged tables"""
    table = table_bytes([A_SLOT, B_SLOT])
    long_name = wire([b"a" * 63] * 3 + [b"b" * 61])
    for value in range(256):
        for name in (bytes([2, value, 98, 0]), bytes([value, 97, 98, 0]), bytes([2, 97, 98, value]), B_NAME + bytes([value]),
                     bytes([value]) + b"a" * value + b"\0", (long_name + b"\0")[:value + 1]):
            yield Call("block", table=table, name=name, number=value, out=BLOCK)
    for bit in range(32):
        for number in (2 ** bit - 1, 2 ** bit, 2 ** 32 - 1 - 2 ** bit):
            yield Call("block", table=table, name=A_NAME, number=number, out=BLOCK)
    for length in range(3, 256):
        whole, rest = divmod(length - 1, 64)  # labels of 63 with their lengths; no label fits into one byte more
        name = wire([b"a" * 63] * (whole - 1) + [b"a" * 62, b"b"] if rest == 1 else [b"a" * 63] * whole + [b"b" * (rest - 1)] * (rest > 1))
        assert len(name) == length
        yield Call("block", table=table_bytes([Slot(name, A_DATA)]), name=name.upper(), number=length, out=BLOCK)
        yield Call("block", table=table, name=name.upper(), number=length, out=BLOCK)
        yield call_of("again", stands(0, Slot(name, A_DATA)) + stands(1, A_SLOT) + gone(2, name) + stands(3, Slot(name, b"", AAAA_DATA)))
    for fields in itertools.product((b"", A_DATA, bytes(4)), (b"", AAAA_DATA, bytes(16)), (b"", DHCID_DATA, b"\0\0\1" + bytes(32))):
        if any(fields):
            yield Call("block", table=table_bytes([Slot(A_NAME, *fields)]), name=A_NAME, number=1, out=BLOCK)
            yield call_of("again", stands(0, A_SLOT) + stands(1, Slot(A_NAME, *fields)))
    for call in itertools.islice(table_cases.bytes_of_tables(), 0, None, 11):
        yield Call("block", table=call.table, name=A_NAME, number=7, out=BLOCK)


def numbers_of_names() -> Iterator[Call]:
    """Up to 70 names; about 64 each of them gone, once and twice; the first blocks damaged, and those past 64"""
    slots = [Slot(wire([b"n%d" % number]), bytes([10, 0, 0, number]), b"", DHCID_DATA) for number in range(71)]
    for count in range(71):
        data = tidied(slots[:count])
        for word in ("replay", "tidy", "sound", "again"):
            yield call_of(word, data)
        if count <= NAMES:
            yield Call("tidy", data, out=count * BLOCK - count % 2)
            yield Call("block", table=table_bytes(slots[:count]), name=slots[count // 2].name, number=count, out=BLOCK)
    for number, count in itertools.product(range(66), (64, 65, 66)):
        data, name = tidied(slots[:count]), slots[number].name
        yield call_of("replay", data + gone(count, name))
        yield call_of("tidy", data + gone(count, name) + stands(count + 1, slots[number]))
        yield call_of("sound", data + gone(count, name) + gone(count + 1, name))
        yield call_of("replay", data + gone(count, name) + gone(count + 1, name))
        yield call_of("replay", data[:number * BLOCK] + bytes(BLOCK) + data[(number + 1) * BLOCK:])
    for count in (255, 256, 257, 300):
        data = b"".join(stands(number, slots[number % 3]) for number in range(count))
        for word in ("replay", "tidy", "sound"):
            yield call_of(word, data)
            yield call_of(word, data + stands(count % 256, slots[0]))


def small_forms() -> Iterator[Case]:
    for kind, calls in (("few blocks", few_blocks()), ("bytes", bytes_of_blocks()), ("torn", torn_ends()), ("rooms", rooms()),
                        ("blocks", blocks_written()), ("names", numbers_of_names())):
        for call in calls:
            yield Case(kind, call, None)


def line(call: Call, zeros: Tuple[int, int, int, int] = (0, 0, 0, 0)) -> str:
    """A call as the harness reads it, with zeros behind table, name, book and area."""
    table, book, area = (packed(data) + (",-+%d" % count if count else "")
                         for data, count in zip((call.table, call.book, call.area), (zeros[0], *zeros[2:])))
    if call.word == "block":
        return "block %s %s %d %d" % (table, (call.name.hex() or "-") + ("+%d" % zeros[1] if zeros[1] else ""), call.number, call.out)
    return {"replay": "replay %s %s" % (area, book), "tidy": "tidy %s %d" % (book, call.out), "sound": "sound " + book,
            "again": "again %s %s" % (book, area)}[call.word]


if __name__ == "__main__":
    print_lines(__doc__, BATCH, lambda seed, batch, count: [line(case.call) for case in generated(seed, batch, count)])
