"""DNS messages: taken apart, compressed names expanded, and put together without compression (RFC 1035, RFC 2136).

    parse(data)           a message of its bytes; ValueError if it is none
    build(message)        the bytes of a message
    Link(port)            the way to a server on 127.0.0.1: a message there and its answer back, by UDP or TCP, and whole zones
"""

import socket
import struct
from typing import List, NamedTuple, Optional, Tuple

A, NS, CNAME, SOA, TXT, AAAA, DHCID, AXFR, ANY_TYPE = 1, 2, 5, 6, 16, 28, 49, 252, 255
IN, NONE, ANY = 1, 254, 255

UPDATE_FLAGS = 5 << 11  # the opcode; no response, code 0
UDP_LIMIT = 512  # RFC 1035, 4.2.1

# How many names stand at the beginning of the data of a type, which may be compressed
NAMES_IN_DATA = {NS: 1, CNAME: 1, SOA: 2}


class Record(NamedTuple):
    owner: bytes  # in wire form, without compression
    rtype: int
    rclass: int
    lifetime: int
    data: bytes


class Question(NamedTuple):
    """Of a query; the zone of an UPDATE message."""
    name: bytes
    rtype: int
    rclass: int


class Message(NamedTuple):
    number: int
    flags: int
    questions: List[Question]
    answers: List[Record]  # the prerequisites of an UPDATE message
    authority: List[Record]  # its updates
    additional: List[Record]


def wire_name(text: str) -> bytes:
    """A name in text, with its last dot, in wire form and lower case."""
    labels = text.lower().rstrip(".").split(".") if text != "." else []
    return b"".join(bytes([len(label)]) + label.encode("ascii") for label in labels) + b"\0"


def text_name(wire: bytes) -> str:
    text, at = "", 0
    while wire[at] != 0:
        text += wire[at + 1:at + 1 + wire[at]].decode("ascii") + "."
        at += 1 + wire[at]
    return text or "."


# Messages

class Reader:
    """What is left of a message's bytes, from `at` on."""

    def __init__(self, data: bytes, at: int = 0) -> None:
        self.data, self.at = data, at

    def take(self, count: int) -> bytes:
        if self.at + count > len(self.data):
            raise ValueError("the message ends too early")
        self.at += count
        return self.data[self.at - count:self.at]

    def numbers(self, form: str) -> Tuple[int, ...]:
        return struct.unpack(">" + form, self.take(struct.calcsize(">" + form)))

    def name(self) -> bytes:
        """Each pointer has to lead to a place before the one where it stands, so that this ends."""
        whole, reader, earliest = b"", self, self.at
        while True:
            length = reader.take(1)[0]
            if length < 64:
                whole += bytes([length]) + reader.take(length)
                if length == 0:
                    return whole
            elif length >= 192:
                target = (length - 192) * 256 + reader.take(1)[0]
                if target >= earliest:
                    raise ValueError("a pointer does not lead back")
                reader, earliest = Reader(self.data, target), target
            else:
                raise ValueError("neither a label nor a pointer")

    def question(self) -> Question:
        return Question(self.name(), *self.numbers("HH"))

    def record(self) -> Record:
        owner = self.name()
        rtype, rclass, lifetime, length = self.numbers("HHIH")
        end = self.at + length
        data = b""
        if length > 0:
            data = b"".join(self.name() for _ in range(NAMES_IN_DATA.get(rtype, 0)))
        if self.at > end:
            raise ValueError("a name is longer than the data that it is in")
        return Record(owner, rtype, rclass, lifetime, data + self.take(end - self.at))


def parse(data: bytes) -> Message:
    reader = Reader(data)
    number, flags, *counts = reader.numbers("HHHHHH")
    questions = [reader.question() for _ in range(counts[0])]
    message = Message(number, flags, questions, *([reader.record() for _ in range(count)] for count in counts[1:]))
    if reader.at != len(data):
        raise ValueError("bytes follow the message")
    return message


def build(message: Message) -> bytes:
    records = [*message.answers, *message.authority, *message.additional]
    parts = [struct.pack(">HH4H", *message[:2], *map(len, message[2:]))]
    parts += [one.name + struct.pack(">HH", *one[1:]) for one in message.questions]
    parts += [one.owner + struct.pack(">HHIH", *one[1:4], len(one.data)) + one.data for one in records]
    return b"".join(parts)


def query(number: int, name: bytes, rtype: int) -> Message:
    return Message(number, 0, [Question(name, rtype, IN)], [], [], [])


def update(number: int, zone: bytes, prerequisites: List[Record], updates: List[Record]) -> Message:
    return Message(number, UPDATE_FLAGS, [Question(zone, SOA, IN)], prerequisites, updates, [])


def code(answer: bytes) -> int:
    return answer[3] & 15


# Transport

class Link:
    """To a server on 127.0.0.1. The TCP connection is kept as long as the server keeps it."""

    def __init__(self, port: int, patience: float = 5.0) -> None:
        self.address, self.patience = ("127.0.0.1", port), patience
        self.datagrams = socket.socket(socket.AF_INET, socket.SOCK_DGRAM)
        self.datagrams.connect(self.address)
        self.stream: Optional[socket.socket] = None
        self.number = 0

    def close(self) -> None:
        self.datagrams.close()
        self.hang_up()

    def hang_up(self) -> None:
        if self.stream is not None:
            self.stream.close()
        self.stream = None

    def next_number(self) -> int:
        """Every message number comes once before one comes again."""
        self.number = (self.number + 40503) % 65536
        return self.number

    def send(self, data: bytes, by_tcp: bool) -> None:
        if by_tcp:
            self.send_stream(data)
        else:
            self.datagrams.send(data)

    def receive(self, by_tcp: bool, patience: Optional[float] = None) -> Optional[bytes]:
        """The next message, whatever it is; None if there is none in time."""
        return self.receive_stream(patience) if by_tcp else self.receive_datagram(patience)

    def ask(self, data: bytes, by_tcp: bool, patience: Optional[float] = None) -> Optional[bytes]:
        self.send(data, by_tcp)
        return self.receive(by_tcp, patience)

    def receive_datagram(self, patience: Optional[float]) -> Optional[bytes]:
        self.datagrams.settimeout(patience or self.patience)
        try:
            return self.datagrams.recv(65535)
        except (socket.timeout, ConnectionRefusedError):
            return None

    def is_connected(self) -> bool:
        """Whether there is a connection that the server has not closed meanwhile."""
        if self.stream is None:
            return False
        self.stream.setblocking(False)
        try:
            return self.stream.recv(1, socket.MSG_PEEK) != b""
        except BlockingIOError:
            return True
        except OSError:
            return False

    def send_stream(self, data: bytes) -> None:
        if not self.is_connected():
            self.hang_up()
            self.stream = socket.create_connection(self.address, self.patience)
        self.stream.settimeout(self.patience)
        self.stream.sendall(struct.pack(">H", len(data)) + data)

    def receive_stream(self, patience: Optional[float]) -> Optional[bytes]:
        if self.stream is None:
            return None
        self.stream.settimeout(patience or self.patience)
        head = self.exactly(2)
        data = self.exactly(struct.unpack(">H", head)[0]) if head else None
        if data is None:
            self.hang_up()
        return data

    def exactly(self, count: int) -> Optional[bytes]:
        data = b""
        while len(data) < count:
            try:
                part = self.stream.recv(count - len(data))
            except OSError:
                part = b""
            if not part:
                return None
            data += part
        return data

    def zone(self, name: bytes) -> List[Record]:
        """All records of a zone, its SOA once (AXFR)."""
        number = self.next_number()
        self.send_stream(build(query(number, name, AXFR)))
        records: List[Record] = []
        for _ in range(1000):
            data = self.receive_stream(None)
            if data is None:
                raise ValueError("the transfer of %s ends too early" % text_name(name))
            message = parse(data)
            if message.number != number or code(data) != 0:
                raise ValueError("the transfer of %s has code %d" % (text_name(name), code(data)))
            records += message.answers
            if len(records) > 1 and records[-1].rtype == SOA:
                return records[:-1]
        raise ValueError("the transfer of %s does not end" % text_name(name))
