"""Steps by chance on one zone that is never reset: a handful of names, clients and addresses, so that they meet again and again."""

import random
from typing import Dict, Iterator, List, Tuple

import tables

import wire
from follow import Follower
from library import Client
from points import longest_in
from wire import Record

FAMILIES = {4: wire.A, 6: wire.AAAA}
DHCIDS = [bytes((0, kind, 1)) + bytes([17 * kind + 1]) * 32 for kind in range(3)]
ADDRESSES = {4: [bytes((192, 0, 2, last)) for last in (1, 2)], 6: [bytes.fromhex("20010db8") + bytes(11) + bytes([last]) for last in (1, 2)]}

# The names that stand at first: two that are kept by hand, and one with a DHCID alone, which a listing may have
FIRST = "hand-4.%s A 192.0.2.1\nhand-6.%s AAAA 2001:db8:0:0:0:0:0:1\nalone.%s DHCID \\# 35 " + DHCIDS[0].hex() + "\n"

# Some lie below others, so that a name which went may have names below it that stand
LABELS = ("a", "b", "deep.a", "deeper.deep.a", "under_score", "0", "hand-4", "hand-6", "alone")


def listing(zone: str) -> bytes:
    return (FIRST.replace("%s", zone)).encode("ascii")


def in_either_case(rng: random.Random, name: bytes) -> bytes:
    """Lengths are below the letters, so that no length changes."""
    return tables.in_either_case(rng, name.decode("ascii")).encode("ascii")


def slots(table: List[Record]) -> Dict[bytes, Dict[int, bytes]]:
    """The data of each name, by type."""
    named: Dict[bytes, Dict[int, bytes]] = {}
    for record in table:
        named.setdefault(record.owner, {})[record.rtype] = record.data
    return named


def some_step(rng: random.Random, names: List[bytes], table: List[Record]) -> Tuple[str, Client]:
    """Of one step in two the client is the one that holds the name, of one in two the address is the one that it has."""
    name, family = rng.choice(names), rng.choice((4, 6))
    held = slots(table).get(name, {})
    dhcid = held.get(wire.DHCID) if rng.random() < 0.5 else None
    address = held.get(FAMILIES[family]) if rng.random() < 0.5 else None
    client = Client(in_either_case(rng, name), dhcid or rng.choice(DHCIDS), family, address or rng.choice(ADDRESSES[family]))
    return rng.choice(("add", "remove")), client


def by_chance(rng: random.Random, follower: Follower, count: int) -> Iterator[Tuple[str, Client]]:
    """Each step is chosen when the one before it is done."""
    zone = follower.zone.name
    names = [wire.wire_name("%s.%s" % (label, zone)) for label in LABELS] + [longest_in(zone, "steps").lower()]
    for _ in range(count):
        yield some_step(rng, names, follower.table)


# What has to be met: the library's answers with their codes
PAIRS = (
    ("add", 0, (0,)), ("add", 1, (6, 0)), ("add", 30, (6, 8)), ("add", 31, (6, 8)),
    ("remove", 0, (0, 0)), ("remove", 0, (0, 7)), ("remove", 33, (8,)), ("remove", 31, (8,)), ("remove", 30, (8,)), ("remove", 34, (8,)),
)
