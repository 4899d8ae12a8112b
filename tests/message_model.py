"""What the calls on DHCP requests have to answer: a second implementation of document 01's rules for messages, names and DHCIDs
(docs/RULES.md, 3 to 5).

It was written from the paper and the RFCs and not from the library, and goes another way: the options are read from a stream into a
list, and the list is then judged as a whole; a relay's message is read by reading the message inside it; a name is taken apart into
labels and compared with their encoding; hashlib hashes.

    answer(call)      of a Call: ("ok", source, start, length) for a name, ("ok", the 35 bytes) for a DHCID, or ("refused", number)
    printed(answer)   an answer as the harness prints it

A refusal has place 0 and writes nothing; an accepted DHCID leaves what stands behind its 35 bytes in out as it was. The harness looks at
that by itself.
"""

import hashlib
import io
import re
from collections import Counter
from typing import Dict, Iterator, List, NamedTuple, Optional, Tuple, Union

LIMIT = 2048
DHCID_LENGTH = 35
HASHED_LIMIT = 4096

(MESSAGE_LENGTH, NOT_BOOTREQUEST, HARDWARE_ADDRESS_LENGTH, OPTIONS_MALFORMED, OPTION_REPEATED, OPTION_OVERLOAD, NOT_A_REQUEST, NO_IDENTIFIER,
 NO_PROPER_NAME) = range(1, 10)
TOO_MANY_RELAYS, UNKNOWN_SETTING, OUTPUT_SHORT, HASH_INPUT_LONG = range(11, 15)

Answer = Union[Tuple[str, str, int, int], Tuple[str, bytes], Tuple[str, int]]


class Call(NamedTuple):
    family: int
    setting: int
    message: bytes
    site: bytes
    out_len: Optional[int]  # None if the call is vichrelka_name


class Refusal(Exception):
    """Its number."""


class Part(NamedTuple):
    """Bytes, and where in the message they stand."""
    start: int
    data: bytes

    def without(self, count: int) -> "Part":
        return Part(self.start + count, self.data[count:])


class Request(NamedTuple):
    """What a message says, if it is not refused."""
    type_code: int
    identifier: bytes
    client_name: Optional[Part]


# Options

class Options(NamedTuple):
    """The options of one message, or of one relay's message, in their order."""
    parts: List[Tuple[int, Part]]

    def repeated(self, *codes: int) -> bool:
        count = Counter(code for code, _ in self.parts)
        return any(count[code] > 1 for code in codes)

    def by_code(self) -> Dict[int, Part]:
        return dict(self.parts)


def exactly(stream: io.BytesIO, count: int) -> bytes:
    data = stream.read(count)
    if len(data) < count:
        raise Refusal(OPTIONS_MALFORMED)
    return data


def options4(stream: io.BytesIO) -> Iterator[Tuple[int, Part]]:
    """RFC 2132, 2: Pad and End are single bytes, every other option has a length. There is an End."""
    while True:
        code = exactly(stream, 1)[0]
        if code == 255:
            return
        if code != 0:
            length = exactly(stream, 1)[0]
            yield code, Part(stream.tell(), exactly(stream, length))


def options6(stream: io.BytesIO, place: int) -> Iterator[Tuple[int, Part]]:
    """RFC 8415, 21.1: code and length, two bytes each. They fill the rest of the level, which stands at a place of the message."""
    while True:
        head = stream.read(4)
        if not head:
            return
        head += exactly(stream, 4 - len(head))
        start = place + stream.tell()
        yield int.from_bytes(head[:2], "big"), Part(start, exactly(stream, int.from_bytes(head[2:], "big")))


# Messages

COOKIE = bytes([99, 130, 83, 99])
DHCPREQUEST = b"\3"


def identifier4(message: bytes, option61: Optional[Part]) -> Tuple[int, bytes]:
    if option61 is None:
        hlen = message[2]
        if hlen == 0:
            raise Refusal(NO_IDENTIFIER)
        return 0, message[1:2] + message[28:28 + hlen]
    data = option61.data
    if len(data) < 2:
        raise Refusal(NO_IDENTIFIER)
    if data[0] == 255 and 3 <= len(data) - 5 <= 130:  # RFC 4361, 6.1: 255, four bytes of IAID, the DUID
        return 2, data[5:]
    return 1, data


def client_name4(option81: Optional[Part]) -> Optional[Part]:
    """RFC 4702, 2: flags, two bytes that mean nothing any more, the name; with flag E it is in wire form."""
    if option81 is None or len(option81.data) < 3 or not option81.data[0] & 4:
        return None
    return option81.without(3)


def request4(message: bytes) -> Request:
    if not 240 <= len(message) <= LIMIT:
        raise Refusal(MESSAGE_LENGTH)
    if message[0] != 1 or message[236:240] != COOKIE:
        raise Refusal(NOT_BOOTREQUEST)
    if message[2] > 16:
        raise Refusal(HARDWARE_ADDRESS_LENGTH)
    stream = io.BytesIO(message)
    stream.seek(240)
    options = Options(list(options4(stream)))
    if options.repeated(52, 53, 61, 81):
        raise Refusal(OPTION_REPEATED)
    option = options.by_code()
    if 52 in option:
        raise Refusal(OPTION_OVERLOAD)
    if 53 not in option or option[53].data != DHCPREQUEST:
        raise Refusal(NOT_A_REQUEST)
    return Request(*identifier4(message, option.get(61)), client_name4(option.get(81)))


REQUEST, RENEW, REBIND, RELAY_FORWARD = 3, 5, 6, 12
HEADER6 = {REQUEST: 4, RENEW: 4, REBIND: 4, RELAY_FORWARD: 34}
RELAYS = 8


def level6(level: Part, relays: int) -> Request:
    """What the message at this level says; so many relays may still come."""
    stream = io.BytesIO(level.data)
    kind = exactly(stream, 1)[0]
    if kind not in HEADER6:
        raise Refusal(NOT_A_REQUEST)
    if kind == RELAY_FORWARD and relays == 0:
        raise Refusal(TOO_MANY_RELAYS)
    exactly(stream, HEADER6[kind] - 1)
    options = Options(list(options6(stream, level.start)))
    option = options.by_code()
    if kind == RELAY_FORWARD:
        if 9 not in option:
            raise Refusal(OPTIONS_MALFORMED)
        if options.repeated(9):
            raise Refusal(OPTION_REPEATED)
        return level6(option[9], relays - 1)
    if options.repeated(1, 39):
        raise Refusal(OPTION_REPEATED)
    if 1 not in option or not 3 <= len(option[1].data) <= 130:
        raise Refusal(NO_IDENTIFIER)
    has_name = 39 in option and option[39].data != b""
    return Request(2, option[1].data, option[39].without(1) if has_name else None)  # RFC 4704, 4: flags, the name


def request6(message: bytes) -> Request:
    if not 4 <= len(message) <= LIMIT:
        raise Refusal(MESSAGE_LENGTH)
    return level6(Part(0, message), RELAYS)


READERS = {4: request4, 6: request6}


# Names

LABEL = re.compile(rb"[A-Za-z0-9_-]{1,63}")


def wire(labels: List[bytes]) -> bytes:
    """The wire form of labels, the root's included."""
    return b"".join(bytes([len(label)]) + label for label in labels + [b""])


def is_proper(data: bytes) -> bool:
    """Taken apart by the lengths that it says, it is a list of labels and the root, and their wire form again."""
    labels, rest = [], data
    while rest:
        labels.append(rest[1:1 + rest[0]])
        rest = rest[1 + rest[0]:]
    names = labels[:-1]
    return 0 < len(names) and len(data) <= 255 and all(map(LABEL.fullmatch, names)) and wire(names) == data


class Chosen(NamedTuple):
    source: str
    part: Part


def choice(setting: int, request: Request, site: bytes) -> Chosen:
    candidates = [Chosen("message", request.client_name)] if setting == 1 and request.client_name is not None else []
    for chosen in candidates + [Chosen("site", Part(0, site))]:
        if is_proper(chosen.part.data):
            return chosen
    raise Refusal(NO_PROPER_NAME)


# The calls

def dhcid_bytes(type_code: int, identifier: bytes, name: bytes) -> bytes:
    """RFC 4701, 3.5, of a name in any case."""
    return type_code.to_bytes(2, "big") + b"\1" + hashlib.sha256(identifier + name.lower()).digest()


def answered(call: Call) -> Answer:
    if call.family not in READERS or call.setting not in (0, 1):
        raise Refusal(UNKNOWN_SETTING)
    request = READERS[call.family](call.message)
    chosen = choice(call.setting, request, call.site)
    name = chosen.part.data
    if call.out_len is None:
        return ("ok", chosen.source, chosen.part.start, len(name))
    if len(request.identifier) + len(name) > HASHED_LIMIT:
        raise Refusal(HASH_INPUT_LONG)
    if call.out_len < DHCID_LENGTH:
        raise Refusal(OUTPUT_SHORT)
    return ("ok", dhcid_bytes(request.type_code, request.identifier, name))


def answer(call: Call) -> Answer:
    try:
        return answered(call)
    except Refusal as refusal:
        return ("refused", refusal.args[0])


def printed(given: Answer) -> str:
    if given[0] == "refused":
        return "refused %d at 0" % given[1]
    if len(given) == 2:
        return "ok %d %s" % (len(given[1]), given[1].hex())
    return "ok %s %d %d" % given[1:]
