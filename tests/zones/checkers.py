"""The checkers of zones, and the records in what they print.

    CHECKERS                  how each is asked
    records_of(text)          the records of a printed zone: (owner, type, words of its data)

A checker gets a zone's name and its file, and gives back whether it takes it, the zone as it prints it, and what it says besides.
"""

import os
import pathlib
import re
import shutil
import subprocess
from typing import Callable, Iterator, List, NamedTuple, Optional, Tuple

# Knot's signer adds these; they are nobody's records here
SIGNING = {"DNSKEY", "CDS", "CDNSKEY", "RRSIG", "NSEC"}


class Read(NamedTuple):
    is_taken: bool
    zone: Optional[str]  # what the checker prints as the zone; None if it does not take it, or prints none
    said: str


class Checker(NamedTuple):
    tool: str
    package: str  # of Debian
    version: str  # the option that prints it
    prints: bool  # does it print the zone that it has read?
    read: Callable[[str, pathlib.Path], Read]


def path_of(tool: str) -> Optional[str]:
    return shutil.which(tool, path=os.environ.get("PATH", "") + ":/usr/sbin:/usr/bin")  # NSD's is among the server's programs


def run(tool: str, *arguments: str) -> Tuple[int, str, str]:
    try:
        done = subprocess.run([path_of(tool), *arguments], stdin=subprocess.DEVNULL, capture_output=True, timeout=60, check=False)
    except subprocess.TimeoutExpired:
        return 1, "", "no answer within a minute"
    return (done.returncode, *(stream.decode("ascii", "backslashreplace") for stream in (done.stdout, done.stderr)))


def version_of(checker: Checker) -> str:
    _, out, err = run(checker.tool, checker.version)
    found = re.search(r"\d+\.\d+\.\d+[\w~-]*", out + err)
    return found.group() if found else "of an unknown version"


def bind(zone: str, file: pathlib.Path, names: str = "ignore") -> Read:
    """An owner with an underscore, or with a hyphen at an end of a label, is no host name, and BIND minds that where it has an address: `names` is
    what becomes of that."""
    status, out, err = run("named-compilezone", "-k", names, "-s", "full", "-o", "-", zone, str(file))
    return Read(status == 0, out if status == 0 else None, err)


def knot(zone: str, file: pathlib.Path) -> Read:
    status, out, err = run("kzonecheck", "-v", "-o", zone, str(file))  # without -v it does not say what is wrong
    return Read(status == 0, None, out + err)


def knot_signer(zone: str, file: pathlib.Path) -> Read:
    """Knot 3.2's checker prints no zone. The signer loads one in the same way and writes it out whole, with signatures that nobody looks at."""
    folder = file.parent / "knot"
    written = folder / "out" / file.name
    written.parent.mkdir(parents=True, exist_ok=True)
    written.unlink(missing_ok=True)  # what an earlier zone has left is not this one's
    settings = folder / "knot.conf"
    settings.write_text(
        'database:\n    storage: "%s"\n'
        "policy:\n  - id: any\n    algorithm: ecdsap256sha256\n"
        'zone:\n  - domain: "%s"\n    file: "%s"\n    dnssec-signing: on\n    dnssec-policy: any\n' % (folder, zone, file), encoding="ascii")
    status, out, err = run("kzonesign", "-c", str(settings), "-o", str(written.parent), zone)
    if status != 0:
        return Read(False, None, out + err)
    return Read(True, written.read_text("ascii", "backslashreplace"), out + err)


def nsd(zone: str, file: pathlib.Path) -> Read:
    status, out, err = run("nsd-checkzone", "-p", zone, str(file))
    return Read(status == 0, out if status == 0 else None, err)


CHECKERS = (
    Checker("named-compilezone", "bind9-utils", "-v", True, bind),
    Checker("kzonecheck", "knot-dnssecutils", "-V", False, knot),
    Checker("kzonesign", "knot-dnssecutils", "-V", True, knot_signer),
    Checker("nsd-checkzone", "nsd", "-h", True, nsd),
)


# What they print

def entries(text: str) -> Iterator[List[str]]:
    """The words of each entry; the first one is empty where the line begins with a blank, and the owner is the last entry's."""
    words: List[str] = []
    is_open = False
    for line in text.splitlines():
        line = line.partition(";")[0]
        if not is_open:
            words = [""] if line[:1].isspace() else []
        for word in re.findall(r"[()]|[^\s()]+", line):
            if word in "()":
                is_open = word == "("
            else:
                words.append(word)
        if not is_open and any(words):
            yield words
    if is_open:
        raise ValueError("a parenthesis is not closed")


def absolute(name: str, origin: str) -> str:
    if name == "@":
        return origin
    if name.endswith("."):
        return name
    return name + "." + origin.lstrip(".")  # the root zone's origin is the dot alone


def records_of(text: str) -> Iterator[Tuple[str, str, List[str]]]:
    origin = owner = "."
    for first, *words in entries(text):
        if first == "$ORIGIN":
            origin = absolute(words[0], origin)
        elif not first.startswith("$"):
            owner = absolute(first, origin) if first else owner
            while words[0].isdigit() or words[0] == "IN":  # lifetime and class
                words = words[1:]
            if words[0] not in SIGNING:
                yield owner.lower(), words[0], words[1:]
