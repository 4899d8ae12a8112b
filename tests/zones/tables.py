"""Tables as Python makes them, and listings that spell them.

    fixed()                  the listings of the paper and of examples/, and tables at the edges of what can be written
    generated(seed, count)   tables by chance, the same ones for the same numbers

The records of a made table are known before anybody spells or reads them. Those of the site's example are read by the model of the listing, which
knows nothing of the library.
"""

import base64
import ipaddress
import pathlib
import random
import string
from typing import Iterator, List, NamedTuple, Sequence, Tuple

import listing_model

EXAMPLES = pathlib.Path(__file__).resolve().parents[2] / "examples" / "listings"
LABEL_BYTES = string.ascii_letters + string.digits + "-_"
NAMES = 64
NAME_TEXT = 254  # characters of the longest name, whose wire form has 255 bytes

A, AAAA, DHCID = TYPES = "A", "AAAA", "DHCID"


class Record(NamedTuple):
    owner: str  # in lower case, with its last dot
    rtype: str
    data: bytes  # 4, 16 or 35


class Case(NamedTuple):
    name: str
    listing: bytes
    records: List[Record]
    zones: Tuple[str, ...] = (".",)  # the zones that it is put into, one after the other; each holds all its owners


# Spelling: in many of the grammar's ways, for the library has to write each record in one way only

def in_either_case(rng: random.Random, word: str) -> str:
    return "".join(rng.choice((letter.lower(), letter.upper())) for letter in word)


def dhcid_words(rng: random.Random, data: bytes) -> str:
    way = rng.randrange(4)
    if way == 0:
        return "\\# 35 " + in_either_case(rng, data.hex())
    text = base64.b64encode(data).decode("ascii")
    if way == 1:
        cut = rng.randint(1, len(text) - 1)
        return "( %s ; first line\n\t%s )" % (text[:cut], text[cut:])
    return text


def spelled(rng: random.Random, record: Record) -> str:
    if record.rtype == A:
        data = str(ipaddress.IPv4Address(record.data))
    elif record.rtype == AAAA:
        groups = ipaddress.IPv6Address(record.data).exploded.split(":")
        data = in_either_case(rng, ":".join(rng.choice((group, group.lstrip("0") or "0")) for group in groups))
    else:
        data = dhcid_words(rng, record.data)
    words = [in_either_case(rng, record.owner), *rng.choice(([], ["IN"])), in_either_case(rng, record.rtype), data]
    return rng.choice((" ", "\t")).join(words) + "\n"


def listing_of(rng: random.Random, records: Sequence[Record]) -> bytes:
    shuffled = rng.sample(records, len(records))
    return "".join(spelled(rng, record) for record in shuffled).encode("ascii")


# Data

def some_a(rng: random.Random) -> bytes:
    return rng.choice((bytes(4), b"\xff" * 4, *[rng.randbytes(4)] * 6))


def some_aaaa(rng: random.Random) -> bytes:
    """Half of them have runs of zeros or an IPv4 address inside, which checkers print in short forms."""
    tail = rng.randbytes(4)
    special = (bytes(16), bytes(15) + b"\1", b"\xff" * 16, bytes(10) + b"\xff\xff" + tail, bytes(12) + tail, b"\0\x64\xff\x9b" + bytes(8) + tail,
               tail + bytes(12), bytes(rng.choice((0, 0, 0, 255, rng.randrange(256))) for _ in range(16)))
    return rng.choice((*special, *[rng.randbytes(16)] * len(special)))


def some_dhcid(rng: random.Random) -> bytes:
    digest = rng.choice((bytes(32), b"\xff" * 32, *[rng.randbytes(32)] * 8))
    return bytes((0, rng.randrange(3), 1)) + digest


SOME = {A: some_a, AAAA: some_aaaa, DHCID: some_dhcid}


# Names

def some_label(rng: random.Random, length: int) -> str:
    return "".join(rng.choices(LABEL_BYTES, k=length))


def short_name(rng: random.Random) -> str:
    return "".join(some_label(rng, rng.randint(1, 9)) + "." for _ in range(rng.randint(1, 4)))


def filled(rng: random.Random, suffix: str) -> str:
    """A name of 254 characters that ends so: labels of 1 to 63 with a dot each, of all lengths, or as many as there can be, or as few."""
    longest = rng.choice((1, 20, 63, 63))
    name = suffix
    while len(name) < NAME_TEXT:
        room = NAME_TEXT - len(name)
        length = min(rng.randint(1, longest) if longest < 63 or rng.random() < 0.5 else 63, room - 1)
        if room - length == 2:  # one character is left, and a label with its dot needs two
            length += 1 if length < 63 else -1
        name = some_label(rng, length) + "." + name
    return name


def some_names(rng: random.Random, count: int, way: str) -> List[str]:
    """So many names in lower case; in most tables some lie below others, as in a site's zone."""
    names = {}
    suffixes = ["", *(short_name(rng) for _ in range(rng.randrange(3)))]
    while len(names) < count:
        suffix = rng.choice((*suffixes, *names)) if rng.random() < 0.5 else rng.choice(suffixes)
        is_long = way == "long" or way == "mixed" and rng.random() < 0.3
        name = filled(rng, suffix) if is_long and len(suffix) <= NAME_TEXT - 20 else short_name(rng) + suffix
        if len(name) <= NAME_TEXT:
            names[name.lower()] = None  # a dictionary keeps the order; a set of text would not keep the same one in each run
    return list(names)


# Tables

def some_records(rng: random.Random, names: Sequence[str]) -> List[Record]:
    records = []
    for name in names:
        types = [rtype for rtype in TYPES if rng.random() < 0.6] or [rng.choice(TYPES)]
        records += [Record(name, rtype, SOME[rtype](rng)) for rtype in types]
    return records


def generated(seed: int, count: int) -> Iterator[Case]:
    for number in range(count):
        rng = random.Random("%d %d" % (seed, number))
        names = some_names(rng, rng.choice((1, NAMES, rng.randint(1, NAMES), rng.randint(1, 8))), rng.choice(("short", "short", "mixed", "long")))
        records = some_records(rng, names)
        yield Case("seed %d, table %d" % (seed, number), listing_of(rng, records), records)


# The example that the rules print, and its third record's data as RFC 4701 has them
EXAMPLE = b"""\
tank-a.example.com. A 192.0.2.7
client.example.com. A 192.0.2.40
client.example.com. DHCID AAABxLmlskllE0MVjd57zHcWmEH3pCQ6VytcKD//7es/deY=
"""
EXAMPLE_RECORDS = [
    Record("tank-a.example.com.", A, bytes((192, 0, 2, 7))),
    Record("client.example.com.", A, bytes((192, 0, 2, 40))),
    Record("client.example.com.", DHCID, bytes.fromhex("000001c4b9a5b249651343158dde7bcc77169841f7a4243a572b5c283fffedeb3f75e6")),
]

# Owners that a reader of zones could take for something else: a class, a type, a lifetime, an address, a directive
LIKE_WORDS = ("in ch hs any none a aaaa dhcid soa ns txt rrsig type49 class1 0 1 3600 1h 1w2d3h4m5s 192.0.2.1 0x10 origin ttl include generate"
              " - -- _ -_ a- -a _a a_ 1- xn-- xn--a localhost arpa invalid").split()

LABEL_LENGTHS = ([1], [63], [1] * 127, [63, 63, 63, 61], [61, 63, 63, 63], [63, 63, 63, 60], [1] * 126, [63, 1], [1, 63], [2] + [1] * 125)


def dotted(wire: bytes) -> str:
    name = ""
    while wire[0] > 0:
        name, wire = name + wire[1:1 + wire[0]].decode("ascii") + ".", wire[1 + wire[0]:]
    return name


def site() -> Case:
    listing = (EXAMPLES / "site.listing").read_bytes()
    said, records = listing_model.read(listing)
    assert said == "ok"
    return Case("examples/listings/site.listing", listing, [Record(dotted(one.owner), one.rtype.decode("ascii"), one.rdata) for one in records],
                (".", "bay3.example.net."))


def made(name: str, names: Sequence[str]) -> Case:
    """All three records for each of these names."""
    rng = random.Random(name)
    records = [Record(owner.lower(), rtype, SOME[rtype](rng)) for owner in names for rtype in TYPES]
    return Case(name, listing_of(rng, records), records)


def full() -> Case:
    """As many bytes as a table can have as a listing: the longest names, and addresses of three digits a number."""
    rng = random.Random("full")
    names = some_names(rng, NAMES, "long")
    longest = [name for name in names if len(name) == NAME_TEXT]
    assert longest == names
    records = [record for name in names for record in (
        Record(name, A, bytes(rng.randint(100, 255) for _ in range(4))), Record(name, AAAA, some_aaaa(rng)), Record(name, DHCID, some_dhcid(rng)))]
    return Case("64 names of 255 bytes, all three records", listing_of(rng, records), records)


def fixed() -> Iterator[Case]:
    yield Case("the example of 140 bytes", EXAMPLE, EXAMPLE_RECORDS, (".", "example.com."))
    yield site()
    yield Case("no record", b"; nothing yet\n", [])
    yield made("owners that look like other words", [word + "." for word in LIKE_WORDS])
    rng = random.Random("labels")
    yield made("labels of every length", ["".join(some_label(rng, length) + "." for length in lengths) for lengths in LABEL_LENGTHS]
               + [some_label(rng, length) + ".example." for length in range(2, 63, 2)])
    yield full()
