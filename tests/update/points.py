"""What a server has to show, point by point. Each takes a follower at whose zone nothing else happens, and gives back the faults."""

import random
from typing import Callable, Counter, List, Sequence, Tuple

import tables

import wire
from follow import (ANOTHER_CODE, BY_TCP, BY_UDP, DONE, MESSAGES, NAME_IN_USE, NO_SUCH_SET, NOT_THE_ANSWER, SET_STANDS, Faults, Follower,
                    Outcome)
from library import LIFETIME, Client
from wire import Record

FIRST_DHCID = tables.EXAMPLE_RECORDS[2].data
SECOND_DHCID = bytes((0, 2, 1)) + bytes(range(200, 232))
A_1, A_2 = bytes((192, 0, 2, 40)), bytes((192, 0, 2, 41))
AAAA_1 = bytes.fromhex("20010db8000000000000000000000028")

BY_HAND = "by-hand"


def first_client(name: bytes, family: int = 4, address: bytes = A_1) -> Client:
    return Client(name, FIRST_DHCID, family, address)


def second_client(name: bytes, family: int = 4, address: bytes = A_1) -> Client:
    return Client(name, SECOND_DHCID, family, address)


def in_zone(follower: Follower, label: str) -> bytes:
    return wire.wire_name(label + "." + follower.zone.name)


def longest_in(zone: str, way: str) -> bytes:
    """A name of 255 bytes in this zone, in either case."""
    text = tables.filled(random.Random(way), zone)
    return b"".join(bytes([len(label)]) + label.encode("ascii") for label in text.split(".")[:-1]) + b"\0"


def walk_steps(name: bytes, kept_by_hand: bytes) -> List[Tuple[str, Client]]:
    """Each answer of an add and of a remove, in both families where that matters."""
    return [
        ("add", first_client(name)),
        ("add", first_client(name, 4, A_2)),
        ("add", first_client(name, 6, AAAA_1)),
        ("add", second_client(name)),
        ("add", second_client(name, 6, AAAA_1)),
        ("remove", second_client(name, 4, A_2)),
        ("remove", first_client(name)),
        ("remove", first_client(name, 4, A_2)),
        ("remove", first_client(name, 4, A_2)),
        ("remove", first_client(name, 6, AAAA_1)),
        ("remove", first_client(name, 6, AAAA_1)),
        ("add", second_client(name, 6, AAAA_1)),
        ("add", second_client(name)),
        ("remove", second_client(name, 6, AAAA_1)),
        ("remove", second_client(name)),
        ("add", first_client(kept_by_hand)),
        ("remove", first_client(kept_by_hand)),
    ]


def walk(follower: Follower, name: bytes) -> Faults:
    """The steps up to the first fault."""
    follower.begin(("%s.%s A 192.0.2.40\n" % (BY_HAND, follower.zone.name)).encode("ascii"))
    for word, client in walk_steps(name, in_zone(follower, BY_HAND)):
        faults = follower.follow(word, client)
        if faults:
            return faults
    return []


def every_code(follower: Follower) -> Faults:
    """Whether a walk has met each of the four codes as a value."""
    met = {code for _, _, codes in follower.met for code in codes}
    return ["code %d was not met" % code for code in (DONE, NAME_IN_USE, SET_STANDS, NO_SUCH_SET) if code not in met]


# Names that are not in use, and names that are

def unused(follower: Follower) -> Faults:
    """A name that has names below it and no record (an empty non-terminal), and one that only a wildcard answers for."""
    follower.begin()
    follower.put_beside(Record(in_zone(follower, "below.empty"), wire.TXT, wire.IN, LIFETIME, b"\5below"))
    follower.put_beside(Record(in_zone(follower, "*.wild"), wire.A, wire.IN, LIFETIME, A_2))
    faults: Faults = []
    for label in ("empty", "one.wild"):
        client = first_client(in_zone(follower, label))
        faults += follower.follow("add", client) + follower.follow("remove", client)
    if follower.met["add", 0, (DONE,)] != 2:
        faults.append("an add was not answered by 0 alone")
    return faults


def taken(follower: Follower, name: bytes) -> Faults:
    """A name that has what no table has, so that nobody gets it: 6, then 8; and nothing there is a client's to remove."""
    client = first_client(name)
    faults = follower.expect("add_first", client, NAME_IN_USE) + follower.expect("add_second", client, NO_SUCH_SET)
    faults += follower.expect("remove_first", client, NO_SUCH_SET) + follower.expect("remove_second", client, NO_SUCH_SET)
    return faults + follower.zone_faults()


def own_name(follower: Follower) -> Faults:
    follower.begin()
    return taken(follower, follower.zone_name)


def alias(follower: Follower) -> Faults:
    follower.begin()
    name = in_zone(follower, "alias")
    follower.put_beside(Record(name, wire.CNAME, wire.IN, LIFETIME, in_zone(follower, "target")))
    return taken(follower, name)


def text_beside(follower: Follower) -> Faults:
    """A TXT beside a client's records outlives both removes. The name is in use from then on, and no client's."""
    follower.begin()
    name = in_zone(follower, "noted")
    client, other = first_client(name), first_client(name, 6, AAAA_1)
    faults = follower.follow("add", client)
    follower.put_beside(Record(name, wire.TXT, wire.IN, LIFETIME, b"\4note"))
    for word, each in (("add", other), ("remove", other), ("remove", client)):
        faults = faults or follower.follow(word, each)
    return faults or taken(follower, name)


def sets_of_two(follower: Follower) -> Faults:
    """A second DHCID, or a second address, put there by hand: the set is not just the client's. Only a second add passes by an address, and deletes it."""
    follower.begin()
    name = in_zone(follower, "client")
    client = first_client(name)
    faults = follower.follow("add", client)
    for rtype, data, code in ((wire.DHCID, SECOND_DHCID, NO_SUCH_SET), (wire.A, A_2, DONE)):
        other = Record(name, rtype, wire.IN, LIFETIME, data)
        follower.put_beside(other)
        faults += follower.zone_faults() + follower.expect("remove_first", client, NO_SUCH_SET) + follower.expect("add_second", client, code)
        follower.beside.clear()
        if code != DONE:
            follower.by_hand([other._replace(rclass=wire.NONE, lifetime=0)])
        faults += follower.zone_faults()
    return faults


# Messages that are not carried out, and answers that are none

def not_served(follower: Follower, seen: Counter[str]) -> Faults:
    follower.begin()
    zone = wire.wire_name("elsewhere.invalid.")
    faults: Faults = []
    for transport in (BY_UDP, BY_TCP):
        follower.transport = transport
        outcome = follower.send("add_first", first_client(wire.wire_name("client.elsewhere.invalid.")), zone)
        seen["%s %s" % (outcome.shown(), transport)] += 1
        if outcome.refusal != ANOTHER_CODE:
            faults.append("a zone that is not served gives %s %s" % (outcome.shown(), transport))
    return faults


def cut(follower: Follower, seen: Counter[str]) -> Faults:
    """A message at each length from its header on by TCP, at some by UDP. A server may also keep silent, but not always."""
    follower.begin()
    client = first_client(in_zone(follower, "client"))
    whole = len(follower.calls.message("add_first", 0, follower.zone_name, client))
    outcomes: List[Outcome] = []
    for transport, length in [(BY_TCP, length) for length in range(12, whole)] + [(BY_UDP, length) for length in (12, whole // 2, whole - 1)]:
        follower.transport, number = transport, follower.server.link.next_number()
        data = follower.calls.message("add_first", number, follower.zone_name, client)
        outcomes.append(follower.exchange(number, data[:length], 0.5))
        seen["%s %s" % (outcomes[-1].shown(), transport)] += 1
    faults = ["a cut message gives %s" % one.shown() for one in outcomes if one.code is not None and one.refusal != ANOTHER_CODE]
    if not any(one.refusal == ANOTHER_CODE for one in outcomes):
        faults.append("no cut message was answered")
    return faults + follower.zone_faults()


def other_answers(follower: Follower) -> Faults:
    """Real messages that are not the answer: of another number, cut, to a query, and our own."""
    follower.begin()
    link = follower.server.link
    number = link.next_number()
    ours = follower.calls.message("remove_first", number, follower.zone_name, first_client(in_zone(follower, "client")))
    answer = link.ask(ours, True)
    to_query = link.ask(wire.build(wire.query(number, follower.zone_name, wire.SOA)), True)
    cases = {"the answer": (number, answer, 0), "its first 12 bytes": (number, answer[:12], 0), "its first 11": (number, answer[:11], NOT_THE_ANSWER),
             "that of another message": (number ^ 1, answer, NOT_THE_ANSWER), "that to a query": (number, to_query, NOT_THE_ANSWER),
             "our own message": (number, ours, NOT_THE_ANSWER), "no bytes": (number, b"", NOT_THE_ANSWER)}
    return ["%s is read as refusal %d" % (what, follower.calls.read(asked, data).refusal)
            for what, (asked, data, due) in cases.items() if follower.calls.read(asked, data).refusal != due]


def lost_answers(follower: Follower) -> Faults:
    """Each message twice, as if the first answer had been lost: what the header says to do ends where the table is."""
    follower.begin()
    name = in_zone(follower, "client")
    client, other = first_client(name), first_client(name, 6, AAAA_1)
    faults: Faults = []
    for word, each, codes in (("add", client, ((DONE, NAME_IN_USE), (DONE, DONE))), ("add", other, ((NAME_IN_USE, NAME_IN_USE), (DONE, DONE))),
                              ("remove", client, ((DONE, NO_SUCH_SET), (SET_STANDS, SET_STANDS))),
                              ("remove", other, ((DONE, NO_SUCH_SET), (DONE, NO_SUCH_SET)))):
        follower.on_table(word, each)
        for kind, pair in zip(MESSAGES[word], codes):
            for code in pair:
                faults += follower.expect(kind, each, code)
        faults += follower.zone_faults()
    return faults


def both_fail(follower: Follower) -> Faults:
    """A second remove at a name that another client holds: the DHCID differs and an address stands. Sets are compared last (RFC 2136, 3.2.5), so it is 7."""
    follower.begin()
    name = in_zone(follower, "client")
    faults = follower.follow("add", second_client(name))
    return faults + follower.expect("remove_second", first_client(name), SET_STANDS) + follower.zone_faults()


Point = Tuple[str, Callable[[Follower], Faults]]

POINTS: Sequence[Point] = (
    ("an empty non-terminal and a name under a wildcard are unused", unused),
    ("the zone's own name gives 6, then 8", own_name),
    ("a name with a CNAME gives 6, then 8", alias),
    ("a TXT beside a client's records outlives both removes", text_beside),
    ("a second DHCID or address makes the set another one", sets_of_two),
    ("messages that are not the answer give 47", other_answers),
    ("every message twice, as if answers were lost", lost_answers),
    ("a second remove whose prerequisites both fail gives 7", both_fail),
)
