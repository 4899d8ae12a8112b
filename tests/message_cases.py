"""Calls on DHCP messages: sound messages, faulty and damaged ones, and every message of some small forms.

    generated(seed, batch, count)  cases by chance, the same ones for the same numbers
    small_forms()                  every message of some small forms
    python3 -B tests/message_cases.py SEED COUNT   the lines for the harness

A case says what it was meant to be wherever the way that it was made settles that: a sound message is put together from an identifier and a
name that are known, and a faulty one is given faults, of which the rules' order picks one. The model has to agree, so that it is not the
only judge. Every message is asked of both calls.
"""

import hashlib
import itertools
import random
from typing import Dict, Iterable, Iterator, List, NamedTuple, Optional, Sequence, Tuple

from chance import LABEL_BYTES, label_lengths, pick_bytes, print_lines
from message_model import DHCID_LENGTH, LIMIT, Answer, Call

BATCH = 2000


class Case(NamedTuple):
    kind: str
    call: Call
    meant: Optional[Answer]


def some_bytes(rng: random.Random, count: int) -> bytes:
    return rng.getrandbits(8 * count).to_bytes(count, "big")


def with_byte(data: bytes, at: int, value: int) -> bytes:
    return data[:at] + bytes([value]) + data[at + 1:]


# Names

class Name(NamedTuple):
    data: bytes
    canonical: Optional[bytes]  # None if it is no proper name


def wire(labels: List[bytes]) -> bytes:
    """With the root's label."""
    return b"".join(bytes([len(label)]) + label for label in labels + [b""])


def labels_of(rng: random.Random, lengths: Iterable[int]) -> List[bytes]:
    return [pick_bytes(rng, LABEL_BYTES, length) for length in lengths]


def good_name(rng: random.Random) -> Name:
    labels = labels_of(rng, label_lengths(rng))
    return Name(wire(labels), wire([label.lower() for label in labels]))


NO_LABEL_BYTES = bytes(sorted(set(range(256)) - set(LABEL_BYTES)))


def bad_name(rng: random.Random) -> Name:
    labels = labels_of(rng, label_lengths(rng))
    good = wire(labels)
    way = rng.randrange(9)
    if way == 0:
        return Name(rng.choice((b"", b"\0", b"\0\0", b"\1", b"\x3f", b"\xc0\x0c", b"\xff")), None)
    if way == 1:
        return Name(good[:-1], None)
    if way == 2:
        return Name(good + rng.choice((b"\0", good, some_bytes(rng, rng.randint(1, 5)))), None)
    if way == 3:
        return Name(good[:rng.randrange(len(good))], None)
    if way == 4:  # 256 bytes and more
        labels = labels_of(rng, rng.choice(([63, 63, 63, 62], [63, 63, 63, 63], [1] * 128, [1] * 126 + [2], [50] * 6)))
    elif way == 5:  # a label of 64 and more
        labels.insert(rng.randint(0, len(labels)), labels_of(rng, [rng.choice((64, 64, 65, 128, 255))])[0])
    elif way == 6:  # an empty one
        labels.insert(rng.randrange(len(labels)), b"")
    else:  # a byte that no label has
        which = rng.randrange(len(labels))
        at = rng.randrange(len(labels[which]))
        labels[which] = with_byte(labels[which], at, rng.choice(rng.choice((NO_LABEL_BYTES, b",./:@[^`{\0\x80\xc1"))))
    return Name(wire(labels), None)


class Stock:
    """Names, made once for a batch."""

    def __init__(self, rng: random.Random) -> None:
        self.good = [good_name(rng) for _ in range(300)]
        self.bad = [bad_name(rng) for _ in range(300)]

    def name(self, rng: random.Random, good: float, most: int = LIMIT) -> Name:
        """A proper one with this chance, of so many bytes at most."""
        while True:
            name = rng.choice(self.good if rng.random() < good else self.bad)
            if len(name.data) <= most:
                return name


# Pieces of messages

class Piece(NamedTuple):
    data: bytes
    lengths: Tuple[int, ...] = ()  # where the lengths of options stand
    name_at: Optional[int] = None  # where the client's name stands


def joined(pieces: Iterable[Piece]) -> Piece:
    data, lengths, name_at, at = [], [], None, 0
    for piece in pieces:
        data.append(piece.data)
        lengths += [at + length for length in piece.lengths]
        if piece.name_at is not None:
            name_at = at + piece.name_at
        at += len(piece.data)
    return Piece(b"".join(data), tuple(lengths), name_at)


def option4(code: int, data: bytes, name_at: Optional[int] = None) -> Piece:
    return joined([Piece(bytes([code, len(data)]), (1,)), Piece(data, (), name_at)])


def option6(code: int, inside: Piece) -> Piece:
    return joined([Piece(code.to_bytes(2, "big") + len(inside.data).to_bytes(2, "big"), (3,)), inside])


def with_data(piece: Piece, data: bytes) -> Piece:
    return Piece(data, piece.lengths, piece.name_at)


def shuffled(rng: random.Random, *pieces: List[Piece]) -> List[Piece]:
    mixed = [piece for some in pieces for piece in some]
    rng.shuffle(mixed)
    return mixed


class Built(NamedTuple):
    """A message, and what it was made to say; of a refused one only the refusal counts."""
    family: int
    piece: Piece
    refusal: Optional[int]
    type_code: int
    identifier: bytes
    name: Optional[Name]


def first_of(order: Sequence[int], faults: Iterable[int]) -> Optional[int]:
    return min(faults, key=order.index, default=None)


# DHCPv4

NAMED4 = (52, 53, 61, 81)
OTHER4 = [code for code in range(1, 255) if code not in NAMED4]
ORDER4 = (1, 2, 3, 4, 5, 6, 7, 8)
COOKIE = bytes([99, 130, 83, 99])


def option61(rng: random.Random) -> Tuple[Piece, int, bytes]:
    """With the type and the bytes of the identifier that it is."""
    length = rng.choice((2, 3, 6, 7, 7, 8, 8, 9, 15, 19, 134, 135, 135, 136, 136, 137, 255, rng.randint(2, 255)))
    first = rng.choice((255, 255, 255, 1, 1, 0, 254, rng.randrange(255)))
    data = bytes([first]) + some_bytes(rng, length - 1)
    if first == 255 and 8 <= length <= 135:
        return option4(61, data), 2, data[5:]
    return option4(61, data), 1, data


def option81(rng: random.Random, stock: Stock) -> Tuple[Piece, Optional[Name]]:
    """With the client's name; it has none without flag E, or if it is too short."""
    flags = rng.randrange(256)
    if rng.random() < 0.15:
        return option4(81, bytes([flags, 0])[:rng.randrange(3)]), None
    name = stock.name(rng, 0.7, 252)
    flags = flags | 4 if rng.random() < 0.8 else flags & ~4
    return option4(81, bytes([flags]) + some_bytes(rng, 2) + name.data, 3), name if flags & 4 else None


def others4(rng: random.Random, room: int) -> List[Piece]:
    """Padding, and options that nobody asks for, repeats among them."""
    pieces = []
    for _ in range(rng.choice((0, 1, 2, 3, 5, 9))):
        length = rng.choice((0, 1, 255, rng.randrange(256))) if rng.random() < 0.2 else rng.randrange(20)
        piece = option4(rng.choice(OTHER4), some_bytes(rng, length)) if rng.random() < 0.8 else Piece(bytes(rng.randint(1, 4)))
        if len(piece.data) <= room:
            room -= len(piece.data)
            pieces.append(piece)
    return pieces


def end4(rng: random.Random, room: int) -> bytes:
    """End, and what is ignored behind it."""
    way = rng.randrange(10)
    if way < 5:
        return b"\xff"
    if way < 7:
        return b"\xff" + b"\x35\x01\x05\x3d\x00\x34\x01\x01\x3d\x02\xaa\xbb\x51\x04\x04\x00"[:rng.randint(1, 16)]
    if way < 9:
        return b"\xff" + some_bytes(rng, rng.randint(1, min(room, 64)))
    return b"\xff" + bytes(room - 1) if rng.random() < 0.5 else bytes(room - 1) + b"\xff"  # the longest message


def broken_end4(rng: random.Random) -> bytes:
    """No End, or an option that runs past the end."""
    way = rng.randrange(4)
    if way == 0:
        return bytes(rng.choice((0, 0, 1, 5)))
    if way == 1:
        return bytes([rng.randrange(1, 255)])
    length = rng.choice((1, 2, 10, 255, rng.randint(1, 255)))
    return bytes([rng.choice(NAMED4 + (12,)), length]) + b"\xff" * (length - 1 if way == 2 else rng.randrange(length))


def message4(rng: random.Random, stock: Stock, faults: Sequence[int] = ()) -> Built:
    op, cookie, chaddr = 1, COOKIE, some_bytes(rng, 16)
    htype = rng.choice((1, 1, 0, 6, 32, 255, rng.randrange(256)))
    hlen = rng.choice((6, 6, 6, 1, 8, 15, 16, 16))
    type_code, identifier, name = 0, bytes([htype]) + chaddr[:hlen], None
    named: Dict[int, List[Piece]] = {52: [], 53: [option4(53, b"\3")], 61: [], 81: []}
    if rng.random() < 0.7:
        piece, type_code, identifier = option61(rng)
        named[61] = [piece]
    if rng.random() < 0.7:
        piece, name = option81(rng, stock)
        named[81] = [piece]
    if 8 in faults:
        short = rng.choice((b"", b"\xff", b"\1", None))
        named[61] = [] if short is None else [option4(61, short)]
        hlen = 0 if short is None else hlen
    if 7 in faults:
        kind = rng.choice((None, b"", b"\1", b"\2", b"\4", b"\7", b"\x83", b"\3\3", b"\3\0", b"\0\3"))
        named[53] = [] if kind is None else [option4(53, kind)]
    if 6 in faults:
        named[52] = [option4(52, rng.choice((b"", b"\0", b"\1", b"\3", b"\1\1")))]
    if 5 in faults:
        code = rng.choice(NAMED4)
        named[code] = [option4(code, rng.choice((b"", b"\3", b"\4\0\0", some_bytes(rng, 9)))) for _ in range(rng.choice((2, 2, 3)))]
    if 3 in faults:
        hlen = rng.choice((17, 17, 18, 128, 255))
    if 2 in faults:
        op = rng.choice((0, 2, 2, 3, 129, 255))
        if rng.random() < 0.6:
            op, cookie = rng.choice((1, op)), with_byte(COOKIE, rng.randrange(4), rng.choice((0, 98, 100, 255)))
    room = LIMIT - 240 - sum(len(piece.data) for pieces in named.values() for piece in pieces) - 257
    others = others4(rng, room)
    room += 257 - sum(len(piece.data) for piece in others)
    header = bytes([op, htype, hlen]) + some_bytes(rng, 25) + chaddr + some_bytes(rng, 192) + cookie
    end = Piece(broken_end4(rng) if 4 in faults else end4(rng, room))
    piece = joined([Piece(header)] + shuffled(rng, others, *named.values()) + [end])
    if 1 in faults:
        piece = with_data(piece, of_wrong_length(rng, piece.data, 240))
    return Built(4, piece, first_of(ORDER4, faults), type_code, identifier, name)


def of_wrong_length(rng: random.Random, message: bytes, least: int) -> bytes:
    if rng.random() < 0.5:
        return message[:rng.choice((0, 1, least - 1, least - 1, rng.randrange(least)))]
    return message + bytes(LIMIT + rng.choice((1, 1, 1, 2, 300)) - len(message))


# DHCPv6

ORDER6 = (7, 11, 4, 5, 8)  # at one level
OTHER6 = (2, 3, 6, 8, 14, 16, 18, 25, 37, 38, 40, 52, 79, 255, 256, 257, 265, 295, 0x0100, 0x0900, 0x2700, 65535)


def others6(rng: random.Random, codes: Sequence[int]) -> List[Piece]:
    """Options that nobody asks for, repeats among them."""
    return [option6(rng.choice(codes), Piece(some_bytes(rng, rng.choice((0, 1, 2, 4, 12, rng.randrange(30))))))
            for _ in range(rng.choice((0, 0, 1, 2, 4)))]


def broken6(rng: random.Random, data: bytes, header: int, outermost: bool) -> bytes:
    """Shorter than its header, or options that do not fill it."""
    way = rng.randrange(6)
    if way == 0:
        return data + bytes([0, 9, 0][:rng.randint(1, 3)])
    least = 4 if outermost else 1
    if way == 1 and least < header:
        return data[:rng.choice((least, header - 1, rng.randrange(least, header)))]
    length = rng.choice((1, 2, 3, 11, 256, 259, 65535))
    given = length - 1 if way < 4 else rng.randrange(length)
    return data + rng.choice((1, 9, 39, 6)).to_bytes(2, "big") + length.to_bytes(2, "big") + bytes(min(given, 11))


def other_type(rng: random.Random, data: bytes) -> bytes:
    return bytes([rng.choice((0, 1, 2, 4, 7, 8, 9, 10, 11, 13, 131, 255))]) + data[1:]


def client6(rng: random.Random, stock: Stock, faults: Sequence[int], outermost: bool) -> Built:
    duid = some_bytes(rng, rng.choice((3, 3, 4, 10, 14, 18, 129, 130, 130, rng.randint(3, 130))))
    named: Dict[int, List[Piece]] = {1: [option6(1, Piece(duid))], 39: []}
    name = None
    if rng.random() < 0.75:
        name = stock.name(rng, 0.7)
        named[39] = [option6(39, Piece(some_bytes(rng, 1) + name.data, (), 1))]
    elif rng.random() < 0.3:
        named[39] = [option6(39, Piece(b""))]
    if 8 in faults:
        length = rng.choice((None, 0, 1, 2, 2, 131, 131, 132, 256, 259))
        named[1] = [] if length is None else [option6(1, Piece(some_bytes(rng, length)))]
    if 5 in faults:
        code = rng.choice((1, 39))
        named[code] = [option6(code, Piece(some_bytes(rng, rng.choice((0, 2, 3, 5))))) for _ in range(rng.choice((2, 2, 3)))]
    header = bytes([rng.choice((3, 5, 6))]) + some_bytes(rng, 3)
    piece = joined([Piece(header)] + shuffled(rng, others6(rng, OTHER6 + (9, 9)), *named.values()))
    if 4 in faults:
        piece = with_data(piece, broken6(rng, piece.data, 4, outermost))
    if 7 in faults:
        piece = with_data(piece, other_type(rng, piece.data))
    elif 4 in faults and not outermost and rng.random() < 0.1:
        piece = with_data(piece, b"")
    return Built(6, piece, first_of(ORDER6, faults), 2, duid, name)


def relay6(rng: random.Random, inner: Piece, faults: Sequence[int], outermost: bool) -> Piece:
    count = 2 if 5 in faults else 1
    if 4 in faults and 5 not in faults and rng.random() < 0.3:
        count = 0  # no option 9
    header = b"\x0c" + some_bytes(rng, 33)
    piece = joined([Piece(header)] + shuffled(rng, others6(rng, OTHER6 + (1, 1, 39)), [option6(9, inner)] * count))
    if 4 in faults and count > 0:
        piece = with_data(piece, broken6(rng, piece.data, 34, outermost))
    return with_data(piece, other_type(rng, piece.data)) if 7 in faults else piece


def message6(rng: random.Random, stock: Stock, faults: Sequence[int] = ()) -> Built:
    """With the faults 4, 5 and 7 at one level, and perhaps others inside it, which do not count."""
    while True:
        depth = rng.choice((9, 9, 10)) if 11 in faults else rng.choice((0, 0, 0, 1, 1, 2, 3, 7, 8))
        where = depth if 8 in faults else rng.randint(0, min(depth, 8))
        at_level = [fault for fault in faults if fault in (4, 5, 7)]
        decoys = rng.sample((4, 5, 7, 8), rng.randrange(3)) if at_level or 11 in faults else []
        built = client6(rng, stock, [fault for fault in faults if fault in (4, 5, 7, 8)] if where == depth else decoys, depth == 0)
        piece, refusal = built.piece, built.refusal
        for level in reversed(range(depth)):
            own = at_level if level == where else []
            piece = relay6(rng, piece, own, level == 0)
            refusal = first_of(ORDER6, own + [11] if level >= 8 else own) or refusal
        if len(piece.data) <= LIMIT:
            break
    if not faults and len(piece.data) + 4 <= LIMIT and rng.random() < 0.05:  # the longest message
        piece = joined([piece, option6(255, Piece(bytes(LIMIT - 4 - len(piece.data))))])
    if 1 in faults:
        return built._replace(piece=with_data(piece, of_wrong_length(rng, piece.data, 4)), refusal=1)
    return built._replace(piece=piece, refusal=refusal)


# Calls

def meant(built: Built, call: Call, site: Name) -> Answer:
    if call.setting not in (0, 1) or call.family != built.family:
        return ("refused", 12)
    if built.refusal is not None:
        return ("refused", built.refusal)
    if call.setting == 1 and built.name is not None and built.name.canonical is not None:
        source, start, name = "message", built.piece.name_at, built.name
    elif site.canonical is not None:
        source, start, name = "site", 0, site
    else:
        return ("refused", 9)
    if call.out_len is None:
        return ("ok", source, start, len(name.data))
    if call.out_len < DHCID_LENGTH:
        return ("refused", 13)
    return ("ok", bytes([0, built.type_code, 1]) + hashlib.sha256(built.identifier + name.canonical).digest())


def both_calls(rng: random.Random, stock: Stock, kind: str, built: Built, known: bool = True) -> Iterator[Case]:
    """A message with a site's name, a setting and an out by chance; whether it is known what it says."""
    site = built.name if built.name is not None and rng.random() < 0.1 else stock.name(rng, 0.8)
    family, setting = built.family, rng.choice((0, 1, 1))
    if rng.random() < 0.03:
        other = rng.choice((2, 3, 5, 7, 12, 255, 256, 257, 260, 262, 2 ** 31, 2 ** 32 - 1))
        family, setting = rng.choice(((family, other), (other, setting), (other, other)))
    elif rng.random() < 0.01:
        family, known = 10 - family, False
    out_len = DHCID_LENGTH if rng.random() < 0.7 else rng.choice((0, 1, 34, 34, 36, 36, 64, 100, 2000))
    for out in (None, out_len):
        call = Call(family, setting, built.piece.data, site.data, out)
        yield Case(kind, call, meant(built, call, site) if known else None)


def build(rng: random.Random, stock: Stock, faults4: Sequence[int] = (), faults6: Sequence[int] = ()) -> Built:
    return message4(rng, stock, faults4) if rng.random() < 0.5 else message6(rng, stock, faults6)


def sound(rng: random.Random, stock: Stock) -> Iterator[Case]:
    return both_calls(rng, stock, "sound", build(rng, stock))


def faulty(rng: random.Random, stock: Stock) -> Iterator[Case]:
    count = rng.choice((1, 1, 1, 2, 2, 3))
    return both_calls(rng, stock, "faulty", build(rng, stock, rng.sample(ORDER4, count), rng.sample((1,) + ORDER6, count)))


EDGE_VALUES = (0, 1, 2, 3, 4, 5, 6, 7, 9, 12, 16, 17, 39, 52, 53, 61, 63, 64, 81, 127, 128, 254, 255)


def place_in(rng: random.Random, piece: Piece) -> int:
    """A place of a message: one before an option's end, or beside its code or length, or any other; few in the header's middle."""
    size = len(piece.data)
    way = rng.randrange(4)
    if way == 0 and piece.lengths:
        return min(size - 1, max(0, rng.choice(piece.lengths) + rng.randint(-2, 2)))
    if way == 1:
        return min(size - 1, rng.choice((0, 1, 2, 3, 4, 28, 33, 34, 236, 237, 238, 239, 240, 241)))
    return rng.randrange(240 if way == 2 and size > 240 else 0, size)


def damage(rng: random.Random, piece: Piece) -> Piece:
    data = piece.data
    if not data:
        return with_data(piece, some_bytes(rng, 4))
    at = place_in(rng, piece)
    way = rng.randrange(10)
    if way == 0:
        data = with_byte(data, at, rng.choice(EDGE_VALUES))
    elif way == 1:
        data = with_byte(data, at, data[at] ^ 1 << rng.randrange(8))
    elif way == 2:
        data = data[:at] + bytes([rng.choice(EDGE_VALUES)]) + data[at:]
    elif way == 3:
        data = data[:at] + data[at + 1:]
    elif way == 4:
        data = data[:at] if rng.random() < 0.7 else data[at:]
    elif way == 5:
        data = data + rng.choice((b"\0", b"\xff", b"\x3d\2\1\1\xff", b"\0\1\0\3\1\2\3", data[at:]))
    elif way == 6:
        end = min(len(data), at + rng.choice((1, 2, 3, 4, 7, 16)))
        data = data[:end] + data[at:end] + data[end:]
    elif way == 7 and len(data) > 1:
        other = rng.randrange(len(data))
        data = data[:at] + data[other:other + 4] + data[at + 4:]
    elif piece.lengths:  # a length off by one, or more
        at = min(len(data) - 1, rng.choice(piece.lengths))
        data = with_byte(data, at, data[at] + rng.choice((-1, -1, 1, 1, 2, 100)) & 255)
    return with_data(piece, data)


def damaged(rng: random.Random, stock: Stock) -> Iterator[Case]:
    built = build(rng, stock)
    piece = built.piece
    for _ in range(rng.choice((1, 1, 1, 1, 2, 3))):
        piece = damage(rng, piece)
    return both_calls(rng, stock, "damaged", built._replace(piece=piece), known=False)


def chance(rng: random.Random, stock: Stock) -> Iterator[Case]:
    """Options by chance, right ones and wrong ones, behind a right header."""
    if rng.random() < 0.5:
        family, data = 4, HEADER4 + b"".join(rng.choices(FIELDS4, k=rng.randrange(9))) + rng.choice(ENDS4)
    else:
        family, data = 6, rng.choice(HEADERS6) + b"".join(rng.choices(FIELDS6, k=rng.randrange(7)))
        for _ in range(rng.choice((0, 0, 1, 2, 9))):
            data = rng.choice((HEADERS6[1], HEADERS6[1] + rng.choice(FIELDS6))) + option6(9, Piece(data)).data
    name = stock.name(rng, 0.8)
    return both_calls(rng, stock, "chance", Built(family, Piece(data), None, 0, b"", name), known=False)


def generated(seed: int, batch: int, count: int = BATCH) -> Iterator[Case]:
    rng = random.Random("%d/%d" % (seed, batch))
    stock = Stock(rng)
    ways = (sound,) * 6 + (faulty,) * 6 + (damaged,) * 7 + (chance,) * 2
    cases = itertools.chain.from_iterable(rng.choice(ways)(rng, stock) for _ in itertools.count())
    return itertools.islice(cases, count)


# Small forms, whole

SITE = wire([b"s"])
CLIENT = wire([b"Abc"])

HEADER4 = b"\1\1\6" + bytes(25) + b"\xc1\xc2\xc3\xc4\xc5\xc6" + bytes(202) + COOKIE
REQUEST4 = HEADER4 + b"\x35\1\3"
FIELDS4 = [b"\0"] + [option4(code, data).data for code, data in (
    (53, b"\3"), (53, b"\1"), (61, b"\xaa\xbb"), (61, b"\xff" + b"\xbb" * 7), (61, b"\xaa"), (52, b"\1"), (81, b"\4\0\0" + CLIENT), (12, b"\xff"))]
ENDS4 = (b"\xff", b"\xff\x35\1\3", b"", b"\x3d\2\xff")

REQUEST6 = b"\3\xa1\xa2\xa3\0\1\0\3\xd1\xd2\xd3"
HEADERS6 = (b"\3\xa1\xa2\xa3", b"\x0c" + bytes(33), b"\2\xa1\xa2\xa3")
FIELDS6 = [b"\0"] + [option6(code, Piece(data)).data for code, data in (
    (1, b"\xd1\xd2\xd3"), (1, b"\xd1\xd2"), (39, b"\0" + CLIENT), (39, b""), (9, REQUEST6), (9, b"\2"), (6, b"\0\x17"))]


def forms4() -> Iterator[bytes]:
    """DHCPv4: at most four fields of a few, with every end."""
    for count in range(5):
        for fields in itertools.product(FIELDS4, repeat=count):
            for end in ENDS4[:4 if count < 4 else 1]:
                yield HEADER4 + b"".join(fields) + end


def forms6() -> Iterator[bytes]:
    """DHCPv6: at most four options of a few, in a client's message, in a relay, and in what is neither."""
    for header in HEADERS6:
        for count in range(5):
            for fields in itertools.product(FIELDS6, repeat=count):
                yield header + b"".join(fields)


def sweeps4() -> Iterator[bytes]:
    """DHCPv4: every value of one byte, every length of one option, every cut."""
    named = REQUEST4 + FIELDS4[4] + option4(81, b"\4\0\0" + CLIENT).data + b"\xff"
    plain = REQUEST4 + b"\xff"
    for value in range(256):
        for at in (0, 1, 2, 236, 237, 238, 239, 240, 241, 242):
            yield with_byte(plain, at, value)
        for at in range(243, len(named)):
            yield with_byte(named, at, value)
        for first in (255, 254, 1):
            yield REQUEST4 + option4(61, (bytes([first]) + b"\xbb" * 255)[:value]).data + b"\xff"
        yield REQUEST4 + option4(81, (b"\4\0\0" + wire([b"a" * 63] * 3 + [b"b" * 60]))[:value]).data + b"\xff"
        yield REQUEST4 + option4(81, b"\4\0\0" + wire([b"a" * max(1, value % 126), b"b" * max(1, value // 2)])[-252:]).data + b"\xff"
    for cut in range(len(named) + 1):
        yield named[:cut]
    for length in (230, 1700, 1800, 1801, 1802, 1803, 1804, 1805, 1806, 2000):
        yield plain + bytes(length)
        yield REQUEST4 + bytes(length) + b"\xff"


def sweeps6() -> Iterator[bytes]:
    """DHCPv6: the same, and every number of relays with something inside."""
    named = REQUEST6 + option6(39, Piece(b"\0" + CLIENT)).data
    relayed = HEADERS6[1] + option6(9, Piece(named)).data
    for value in range(256):
        for at in range(len(named)):
            yield with_byte(named, at, value)
        for at in (0, 1, 33, 34, 35, 36, 37, 38):
            yield with_byte(relayed, at, value)
    for length in itertools.chain(range(140), range(250, 270), (512, 515, 1000)):
        yield HEADERS6[0] + option6(1, Piece(b"\xd1" * length)).data
        yield REQUEST6 + option6(39, Piece((b"\0" + wire([b"a" * 63] * 3 + [b"b" * 61]) + bytes(999))[:length])).data
        yield REQUEST6 + option6(39, Piece(b"\0" + wire([b"a" * 63] * (length // 64) + [b"b" * max(1, length % 64 - 1)]))).data
    for cut in range(len(relayed) + 1):
        yield relayed[:cut]
    for length in range(2025, 2045):
        yield REQUEST6 + option6(255, Piece(bytes(length))).data
    for inside in (REQUEST6, named, b"", b"\3", b"\2", b"\x0c", HEADERS6[1], HEADERS6[1] + b"\0", HEADERS6[0]):
        data = inside
        for _ in range(12):
            data = HEADERS6[1] + option6(9, Piece(data)).data
            yield data


def small_forms() -> Iterator[Case]:
    for kind, family, messages in (("few options", 4, forms4()), ("few options", 6, forms6()), ("sweep", 4, sweeps4()), ("sweep", 6, sweeps6())):
        for message in messages:
            for out in (None, DHCID_LENGTH):
                yield Case(kind, Call(family, 1, message, SITE, out), None)
    for family, message in ((4, REQUEST4 + b"\xff"), (6, REQUEST6)):
        for value in range(256):  # a byte of the site's name, its length, a family, a setting, an out
            for site in (bytes([1, value, 0]), bytes([value]) + b"a" * value + b"\0", (wire([b"a" * 63] * 3 + [b"b" * 61]) + b"\0")[:value + 1]):
                yield Case("sweep", Call(family, 0, message, site, None), None)
                yield Case("sweep", Call(family, 1, message, site, DHCID_LENGTH), None)
            for given in ((value, 1), (family, value)):
                yield Case("sweep", Call(*given, message, SITE, None), None)
            yield Case("sweep", Call(family, 1, message, SITE, value), None)


def line(call: Call, zeros: Tuple[int, int] = (0, 0)) -> str:
    """A call as the harness reads it, with zeros behind message and site's name."""
    fields = [(data.hex() or "-") + ("+%d" % count if count else "") for data, count in zip((call.message, call.site), zeros)]
    if call.out_len is None:
        return "name %d %d %s %s" % (call.family, call.setting, *fields)
    return "dhcid %d %d %s %s %d" % (call.family, call.setting, *fields, call.out_len)


if __name__ == "__main__":
    print_lines(__doc__, BATCH, lambda seed, batch, count: [line(case.call) for case in generated(seed, batch, count)])
