"""Writes the listings that bench/listing.c reads, long-0.txt to sixty-31.txt, into the folder given (target/bench by default).

The first two are as large as a listing may nearly be. All are the same at every run: figures of two days can be compared only over the same bytes.
  long    180 records whose owners are as long as names get (255 bytes in wire form): the time goes by the byte
  short   759 records of short names, three to a name: the time goes by the record
  sixty   60 names with three records each, as the library writes them: a table that is carried from one gateway to the next
Each kind is there 32 times, with other data and other letters in upper case. Document 01's grammar (docs/RULES.md, 6.1) decides how they are spelled, so there is no TTL, no relative name and no `::`.
"""
import base64
import hashlib
import pathlib
import sys

LIMIT = 65536
TEXTS = 32
LETTERS = "abcdefghijklmnopqrstuvwxyz0123456789-_"


def numbers(seed):
    """Numbers below 256 without end, the same ones under every version of Python (its module `random` does not promise that)."""
    count = 0
    while True:
        yield from hashlib.sha256(f"{seed} {count}".encode()).digest()
        count += 1


def mixed(word, source):
    """The word with some of its letters in upper case, since whoever reads it has to fold them."""
    return "".join(c.upper() if next(source) < 64 else c for c in word)


def long_owner(k, source):
    labels = []
    for length in (63, 63, 63, 61):
        label = "".join(LETTERS[next(source) % len(LETTERS)] for _ in range(length))
        # no hyphen at a label's ends: document 01 allows it (docs/RULES.md, 3.1), but other readers need not
        labels.append(f"n{k}" + label[: length - len(f"n{k}") - 1] + "x")
    name = ".".join(labels) + "."
    assert len(name) == 254
    return mixed(name, source)


def a(k, number):
    return f"192.0.{k // 250}.{(k + 7 * number) % 250 + 1}"


def aaaa(k, source):
    """Groups of one to four digits, in either case."""
    groups = ["2001", "db8", "0", f"{k:x}"] + [f"{next(source) * 256 + next(source):x}" for _ in range(4)]
    return mixed(":".join(groups), source)


def dhcid(k, owner, number):
    """Two bytes of identifier type, one of digest type, and a digest: 48 characters."""
    data = bytes([0, k % 3, 1]) + hashlib.sha256(f"{number} {owner.lower()}".encode()).digest()
    text = base64.b64encode(data).decode()
    assert len(text) == 48
    return text


def long_listing(number):
    source = numbers(f"long {number}")
    lines = []
    for k in range(180):
        owner = long_owner(k, source)
        start = owner + (mixed(" in", source) if k % 3 == 1 else "")
        if k % 3 == 0:
            lines.append(f"{start} {mixed('a', source)} {a(k, number)} ; host {k}, address of the fourth version, kept by the gateway (room {k % 7}, shelf {k % 11})")
        elif k % 3 == 1:
            lines.append(f"{start} {mixed('aaaa', source)} {aaaa(k, source)} ; host {k}, address of the sixth version, kept by the gateway; rack {k % 5}")
        else:
            text = dhcid(k, owner, number)
            # cut after a whole group of four: libzscanner takes no other cut
            cut = 12 + 4 * (k % 7)
            lines.append(f"{start} {mixed('dhcid', source)} ( {text[:cut]} ; who holds host {k}, the first\n    {text[cut:]} ) ; and the rest of it")
    return lines, 180


def short_listing(number):
    source = numbers(f"short {number}")
    lines = []
    for k in range(253):
        owner = f"n{k}.example.com."
        name = mixed(owner, source) if k % 4 == 0 else owner
        # some with blanks up to a column, some with tabs, some with single blanks, as people write them
        owner_field = (name.ljust(24), name + "\t\t", name + " ")[k % 3]
        in_field = ("IN      ", "", "in ")[k % 3]
        place = f"; host {k}, room {k % 7}, shelf {k % 11}"
        lines.append(f"{owner_field}{in_field}A{(' ' * 7, chr(9), ' ')[k % 3]}{a(k, number)} {place}")
        lines.append(f"{owner_field}{in_field}{'AAAA' if k % 2 else 'aaaa'} {aaaa(k, source)} {place}")
        text = dhcid(k, owner, number)
        if k % 5 == 0:
            lines.append(f"{owner_field}{in_field}DHCID ( {text[:24]}\n    {text[24:]} ) ; client {k}, type {k % 3}")
        else:
            lines.append(f"{owner_field}{in_field}{'DHCID' if k % 2 else 'dhcid'} {text} ; client {k}, type {k % 3}")
    return lines, 759


def sixty_listing(number):
    source = numbers(f"sixty {number}")
    lines = []
    for k in range(60):
        owner = f"{('tank', 'pump', 'valve', 'gauge', 'weather-mast')[k % 5]}-{k + 1}.{('bay', 'hall', 'greenhouse')[k % 3]}-{k % 12 + 1}.example.com."
        groups = (f"{group:0>4}" for group in aaaa(k, source).lower().split(":"))
        lines += [f"{owner} A {a(k, number)}", f"{owner} AAAA {':'.join(groups)}", f"{owner} DHCID {dhcid(k, owner, number)}"]
    return lines


def write(folder, name, listing, size):
    """Writes a listing, filled up to the size with a comment of its own at the end."""
    lines, records = listing
    text = "\n".join(lines) + "\n"
    missing = size - len(text)
    print(f"{name}: {records} records, {len(text)} bytes and {missing} more of comment at the end")
    assert 2 <= missing <= 400 and size < LIMIT, missing
    text += ";" + "." * (missing - 2) + "\n"
    data = text.encode("ascii")
    assert len(data) == size
    (folder / f"{name}.txt").write_bytes(data)


def main():
    folder = pathlib.Path(sys.argv[1] if len(sys.argv) > 1 else "target/bench")
    folder.mkdir(parents=True, exist_ok=True)
    for number in range(TEXTS):
        write(folder, f"long-{number}", long_listing(number), 65490)
        write(folder, f"short-{number}", short_listing(number), 65468)
        (folder / f"sixty-{number}.txt").write_text("".join(line + "\n" for line in sixty_listing(number)), encoding="ascii")


main()
