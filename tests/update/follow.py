"""A table of the library and a zone of a server that go through the same steps, and what is told between them.

    Follower.follow(word, client)   an add or a remove on both: the library's answer against the server's codes, then the table against the zone

Faults are lines for people; none means that both sides agree.
"""

import collections
from typing import Callable, Counter, Dict, List, NamedTuple, Optional, Sequence, Tuple

import wire
from library import Answer, Client, Library
from servers import Server, Zone
from wire import Record

DONE, NAME_IN_USE, SET_STANDS, NO_SUCH_SET = 0, 6, 7, 8
NOT_THE_ANSWER, ANOTHER_CODE = 47, 48

# The messages of a step, and the code on which the second follows the first
MESSAGES = {"add": ("add_first", "add_second"), "remove": ("remove_first", "remove_second")}
SECOND_ON = {"add": NAME_IN_USE, "remove": DONE}

BY_RULE, BY_UDP, BY_TCP = "by UDP up to 512 bytes and by TCP above", "by UDP", "by TCP"

Faults = List[str]


class Outcome(NamedTuple):
    """What came of a message: the library's value, or its refusal; and the server's own code, None if there was no answer."""
    value: Optional[int]
    refusal: int
    code: Optional[int]

    def shown(self) -> str:
        if self.code is None:
            return "no answer"
        return str(self.value) if self.refusal == 0 else "refused %d (code %d)" % (self.refusal, self.code)


class Sent(NamedTuple):
    kind: str
    zone: bytes
    client: Client


def shown_codes(outcomes: Sequence[Outcome]) -> str:
    return ", ".join(one.shown() for one in outcomes)


def shown(record: Record) -> str:
    return "%s type %d class %d lifetime %d %s" % (wire.text_name(record.owner), *record[1:4], record.data.hex())


def codes_due(word: str, answer: Answer, is_held: bool) -> Tuple[int, ...]:
    """The codes that go with what the table's call answers, under VICHRELKA_FIRST_WINS; `is_held` is whether the name is in the table afterwards."""
    if word == "add":
        return {0: (DONE,), 1: (NAME_IN_USE, DONE), 30: (NAME_IN_USE, NO_SUCH_SET), 31: (NAME_IN_USE, NO_SUCH_SET)}[answer.number()]
    if answer.refusal == 0:
        return (DONE, SET_STANDS) if is_held else (DONE, DONE)
    assert answer.refusal in (30, 31, 33, 34)
    return (NO_SUCH_SET,)


def compared(record: Record) -> Record:
    """As it is compared: owners in lower case, an SOA without its serial number, which goes up with each change."""
    data = record.data[:-20] + record.data[-16:] if record.rtype == wire.SOA else record.data
    return record._replace(owner=record.owner.lower(), data=data)


def differences(expected: Sequence[Record], got: Sequence[Record]) -> Faults:
    # counted, so that a record which is there twice is seen too
    wanted, had = (collections.Counter(map(compared, records)) for records in (expected, got))
    return ["the zone lacks " + shown(one) for one in (wanted - had).elements()] + ["the zone has " + shown(one) for one in (had - wanted).elements()]


class Follower:
    """`transport` says how messages go; `twist` changes one of a kind before it is sent."""

    def __init__(self, library: Library, server: Server, zone: Zone, transport: str = BY_RULE) -> None:
        self.calls, self.server, self.zone, self.transport = library, server, zone, transport
        self.twist: Callable[[str, bytes], bytes] = lambda kind, data: data
        self.zone_name = wire.wire_name(zone.name)
        self.beside: List[Record] = []  # what the zone has and no table
        self.table: List[Record] = []
        self.met: Counter[Tuple[str, int, Tuple[Optional[int], ...]]] = collections.Counter()
        self.sent: Dict[Sent, bytes] = {}
        self.longest = self.datagrams = self.streams = 0

    # What is put there without the library's messages

    def by_hand(self, updates: List[Record]) -> None:
        number = self.server.link.next_number()
        answer = self.server.link.ask(wire.build(wire.update(number, self.zone_name, [], updates)), True)
        if answer is None or wire.code(answer) != 0:
            raise ValueError("%s does not take what is put there by hand" % self.server.tool)

    def put_beside(self, record: Record) -> None:
        self.by_hand([record])
        self.beside.append(record)

    def begin(self, listing: bytes = b"") -> None:
        """The table is this listing, and the zone has its records and no others."""
        owners = {one.owner for one in self.server.link.zone(self.zone_name)} - {self.zone_name}
        self.calls.load(listing)
        self.table, self.beside = self.calls.records(), []
        updates = [Record(owner, wire.ANY_TYPE, wire.ANY, 0, b"") for owner in sorted(owners)] + self.table
        if updates:
            self.by_hand(updates)

    # Messages

    def exchange(self, number: int, data: bytes, patience: Optional[float] = None) -> Outcome:
        """What is not the answer is dropped, a few times."""
        by_tcp = len(data) > wire.UDP_LIMIT if self.transport == BY_RULE else self.transport == BY_TCP
        self.streams, self.datagrams = self.streams + by_tcp, self.datagrams + (not by_tcp)
        self.server.link.send(data, by_tcp)
        for _ in range(8):
            answer = self.server.link.receive(by_tcp, patience)
            if answer is None:
                break
            read = self.calls.read(number, answer)
            if read.refusal != NOT_THE_ANSWER:
                return Outcome(read.value if read.refusal == 0 else None, read.refusal, wire.code(answer))
        return Outcome(None, 0, None)

    def send(self, kind: str, client: Client, zone: Optional[bytes] = None) -> Outcome:
        zone, number = zone or self.zone_name, self.server.link.next_number()
        data = self.calls.message(kind, number, zone, client)
        self.sent[Sent(kind, zone, client._replace(name=client.name.lower()))] = data
        self.longest = max(self.longest, len(data))
        return self.exchange(number, self.twist(kind, data))

    def carry(self, word: str, client: Client) -> List[Outcome]:
        """The messages of a step, the second where the first one's code asks for it."""
        first, second = MESSAGES[word]
        outcomes = [self.send(first, client)]
        if outcomes[0].value == SECOND_ON[word]:
            outcomes.append(self.send(second, client))
        return outcomes

    # Steps

    def zone_faults(self) -> Faults:
        return differences(self.zone.records() + self.table + self.beside, self.server.link.zone(self.zone_name))

    def on_table(self, word: str, client: Client) -> Answer:
        answer = self.calls.step(word, client)
        self.table = self.calls.records()
        return answer

    def is_held(self, name: bytes) -> bool:
        return any(one.owner == name.lower() for one in self.table)

    def follow(self, word: str, client: Client) -> Faults:
        answer = self.on_table(word, client)
        due = codes_due(word, answer, self.is_held(client.name))
        outcomes = self.carry(word, client)
        codes = tuple(one.value for one in outcomes)
        self.met[word, answer.number(), codes] += 1
        faults = [] if codes == due else ["%s of %s: the library answers %d, and the server %s" % (
            word, wire.text_name(client.name), answer.number(), shown_codes(outcomes))]
        return faults + self.zone_faults()

    def expect(self, kind: str, client: Client, code: int) -> Faults:
        """One message that has to have this code, and leaves the table alone."""
        outcome = self.send(kind, client)
        return [] if outcome.value == code else ["%s of %s gives %s, and not %d" % (kind, wire.text_name(client.name), outcome.shown(), code)]
