"""The library, through ask.c: one table that is kept, its steps, the messages and the reading of an answer."""

import os
import pathlib
import subprocess
from typing import List, NamedTuple

import listing_model

import wire

HERE = pathlib.Path(__file__).resolve().parent
ROOT = HERE.parents[1]
TYPES = {b"A": wire.A, b"AAAA": wire.AAAA, b"DHCID": wire.DHCID}

LIFETIME = 3600


class Unready(Exception):
    """Why nothing can be asked."""


class Answer(NamedTuple):
    refusal: int
    value: int
    data: bytes

    def number(self) -> int:
        """What a step answers, as one number: no value is the number of a refusal."""
        return self.refusal or self.value


class Client(NamedTuple):
    """The arguments of a step."""
    name: bytes
    dhcid: bytes
    family: int
    address: bytes


def archive() -> pathlib.Path:
    given = os.environ.get("VICHRELKA_ARCHIVE")
    if given is not None:
        return pathlib.Path(given)
    built = ROOT / "target" / "staticlib" / "libvichrelka.a"
    made = subprocess.run(["make", "--no-print-directory", str(built.relative_to(ROOT))], cwd=ROOT, capture_output=True, check=False)
    if made.returncode != 0:
        raise Unready("'make %s' failed: run it to see why" % built.relative_to(ROOT))
    return built


def hexadecimal(data: bytes) -> str:
    return data.hex() or "-"


def unfolded(pieces: str) -> bytes:
    """Bytes as a harness prints them: HEX, HEX+N with N zeros behind, - for none, and commas between."""
    data = b""
    for piece in pieces.split(","):
        digits, _, zeros = piece.partition("+")
        data += bytes.fromhex(digits.strip("-")) + bytes(int(zeros or 0))
    return data


class Library:
    def __init__(self, folder: pathlib.Path) -> None:
        program = folder / "ask"
        sources = [HERE / "ask.c", HERE.parent / "harness.c", HERE.parent / "lend.c", archive()]
        command = ["cc", "-std=c99", "-O1", "-pedantic", "-Wall", "-Wextra", "-Werror", "-I%s" % (ROOT / "include"), "-o", str(program)]
        if subprocess.run([*command, *map(str, sources)], check=False).returncode != 0:
            raise Unready("ask.c does not compile or link")
        self.process = subprocess.Popen([str(program)], stdin=subprocess.PIPE, stdout=subprocess.PIPE, text=True)

    def close(self) -> None:
        self.process.stdin.close()
        self.process.wait(timeout=10)

    def ask(self, *fields: str) -> Answer:
        print(*fields, file=self.process.stdin, flush=True)
        said = self.process.stdout.readline().split()
        if said[:1] == ["ok"]:
            return Answer(0, int(said[1]), unfolded(said[2]))
        if said[:1] == ["refused"]:
            return Answer(int(said[1]), 0, b"")
        raise ValueError("the library's program says %r to %s" % (" ".join(said), fields[0]))

    # The table

    def load(self, listing: bytes) -> None:
        answer = self.ask("load", hexadecimal(listing))
        if answer.refusal != 0:
            raise ValueError("the listing to begin with is refused: %d" % answer.refusal)

    def step(self, word: str, client: Client) -> Answer:
        return self.ask(word, *client_fields(client))

    def records(self) -> List[wire.Record]:
        """The records of the table as it is written, as a zone should have them."""
        said, entries = listing_model.read(self.ask("listing").data)
        assert said == "ok"
        return [wire.Record(one.owner, TYPES[one.rtype], wire.IN, LIFETIME, one.rdata) for one in entries]

    # Messages

    def message(self, kind: str, number: int, zone: bytes, client: Client) -> bytes:
        fields = [client.name.hex(), client.dhcid.hex()] if kind == "remove_second" else client_fields(client)
        answer = self.ask(kind, str(number), zone.hex(), *fields)
        if answer.refusal != 0 or answer.value != len(answer.data):
            raise ValueError("the message %s is refused: %d" % (kind, answer.refusal))
        return answer.data

    def read(self, number: int, data: bytes) -> Answer:
        return self.ask("answer", str(number), hexadecimal(data))


def client_fields(client: Client) -> List[str]:
    return [hexadecimal(client.name), hexadecimal(client.dhcid), str(client.family), hexadecimal(client.address)]
