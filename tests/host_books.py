"""Books of names for tests/host.sh, made of the header's words and Python's own SHA-256, with nothing of the library.

    host_books.py made FOLDER <LINES    a book begins at `book NAME`, and has a block for each line: `gone NAME`, or `NAME [A ADDRESS] [AAAA ADDRESS]
                                        [DHCID BASE64]`; the reverse side of a book begins at `reverse NAME`, with a line `ADDRESS NAME` for each
    host_books.py bad BOOKS LEFT        books that are damaged, too large or nearly so, and in the folder LEFT what a restart has to leave of each
    host_books.py cuts BOOK OLDER BEFORE AFTER FOLDER CUT STOP BARE
        What a power cut can leave of the book's last block: so many of its bytes, from none to all, and then nothing, or 0xff, or the bytes of
        the block number OLDER. In FOLDER: the books, what has to be left of them, the commands that restart from each, and what the host has to
        say. BEFORE and AFTER are the listings before and after the last step; CUT and STOP are what the host says behind its numbers, BARE what
        it says of a book without a reverse side.
"""
import base64
import hashlib
import ipaddress
import os
import re
import sys

BLOCK = 512


def wire_form(name):
    return b"".join(bytes([len(label)]) + label for label in name.encode().split(b"."))


def reverse_side(lines):
    """The bytes of a reverse side: a slot for each address and the name behind it, then zeros."""
    slots = b""
    for address, name in (line.split() for line in lines):
        packed, wire = ipaddress.ip_address(address).packed, wire_form(name)
        slots += bytes([4 if len(packed) == 4 else 6]) + packed.ljust(16, b"\0") + bytes([len(wire)]) + wire.ljust(255, b"\0")
    return slots.ljust(128 * 273, b"\0")


def block(number, kind, name, a=b"", aaaa=b"", dhcid=b""):
    wire = wire_form(name)
    flags = (1 if a else 0) | (2 if aaaa else 0) | (4 if dhcid else 0)
    slot = bytes([len(wire)]) + wire.ljust(255, b"\0") + bytes([flags]) + a.ljust(4, b"\0") + aaaa.ljust(16, b"\0") + dhcid.ljust(35, b"\0")
    return checked((number.to_bytes(4, "big") + bytes([kind]) + slot).ljust(480, b"\0"))


def checked(content):
    return content + hashlib.sha256(content).digest()


def is_checked(whole):
    return checked(whole[:480]) == whole


def made(lines):
    book = b""
    for number, words in enumerate(line.split() for line in lines):
        if words[0] == "gone":
            book += block(number, 0, words[1])
        else:
            data = dict(zip(words[1::2], words[2::2]))
            a, aaaa = (ipaddress.ip_address(data[kind]).packed if kind in data else b"" for kind in ("A", "AAAA"))
            book += block(number, 1, words[0], a, aaaa, base64.b64decode(data.get("DHCID", "")))
    return book


def heads(count):
    return made(f"head-{i}.bay3.example.net. A 192.0.2.{i}" for i in range(1, count + 1))


def often(count):
    """A name that gets another address again and again."""
    return made(f"head-1.bay3.example.net. A 192.0.2.{i % 250 + 1}" for i in range(count))


def changed(book, offset):
    return book[:offset] + bytes([book[offset] ^ 1]) + book[offset + 1:]


def write(path, content):
    with open(path, "wb") as file:
        file.write(content)


def bad(books, left):
    five, four = heads(5), heads(4)
    head = "head-5.bay3.example.net."
    address = bytes([192, 0, 2, 5])
    for name, content, kept in (
        ("whole", five, five),
        ("nothing", b"", b""),
        ("full", heads(64), heads(64)),
        # cut off: one whole block with a wrong check, wherever the fault is; bytes that may be the beginning of a block 0
        ("42-last", changed(five, 4 * BLOCK + 300), four),
        ("42-check", changed(five, 5 * BLOCK - 1), four),
        ("42-number", changed(five, 4 * BLOCK), four),
        ("zeros", bytes(BLOCK), b""),
        ("zeros-3", bytes(3), b""),
        ("511", five[:-1], four),
        # not cut off
        ("42-and-a-byte", changed(five, 4 * BLOCK + 300) + b"\0", None),
        ("42-middle", changed(five, 2 * BLOCK + 300), None),
        ("42-first", changed(five, 300), None),
        ("43-middle", five[:2 * BLOCK] + five[3 * BLOCK:], None),
        ("43-last", four + block(5, 1, head, address), None),
        ("43-kind", four + block(4, 2, head, address), None),
        ("43-gone", four + block(4, 0, head), None),
        ("43-upper", four + block(4, 1, "Head-5.bay3.example.net.", address), None),
        ("43-and-a-byte", four + block(5, 1, head, address) + b"\0", None),
        ("40-names", heads(65), None),
        ("40-and-a-byte", heads(65) + b"\0", None),
        ("text", b"head-1.bay3.example.net. A 192.0.2.1\n", None),
        ("0-0-1", b"\0\0\1", None),
        ("no-book", b"\xff" * BLOCK, None),
        # the room for blocks
        ("192", often(192), often(192)),
        ("193", often(193), often(193)),
        ("256", often(256), often(256)),
        ("257", often(257), None),
        ("256-and-a-byte", often(256) + b"\0", None),
    ):
        write(f"{books}/{name}.book", content)
        write(f"{left}/{name}.book", content if kept is None else kept)


def cuts(path, older, before, after, folder, cut, stop, bare):
    with open(path, "rb") as file:
        book = file.read()
    first, last = book[:-BLOCK], book[-BLOCK:]
    old = book[int(older) * BLOCK:][:BLOCK]
    assert is_checked(last) and is_checked(old) and old[:3] == last[:3] and old[3] != last[3]
    shown = {}
    for when, listing in (("before", before), ("after", after)):
        with open(listing, encoding="ascii") as file:
            head, *records = file.readlines()
        names = len({record.split()[0] for record in records})
        shown[when] = names, head.replace("; ", "show: ") + "".join(records)
    assert shown["before"] != shown["after"]
    for way, behind in (("nothing", b""), ("0xff", b"\xff" * BLOCK), ("older", old)):
        books, left = f"{folder}/{way}/books", f"{folder}/{way}/left"
        os.makedirs(books)
        os.makedirs(left)
        stops, table, commands, says = [], None, "", ""
        for kept in range(BLOCK + 1):
            rest = last[:kept] + behind[kept:]
            command = f"book books/{kept}.book"
            # a block that is whole and right is the new one, or an older one under a wrong number
            if len(rest) == BLOCK and is_checked(rest) and rest[:4] != last[:4]:
                assert rest == old
                stops.append(kept)
                says += f"{command}: {stop % (BLOCK, len(first) // BLOCK, len(first))}: refused 43: ...\n"
                stored = first + rest
            elif rest == last:
                table, stored = shown["after"], book
                says += f"{command}: blocks: {len(book) // BLOCK}, names: {table[0]}; {bare}\n"
            else:
                table, stored = shown["before"], first
                says += f"{command}: blocks: {len(first) // BLOCK}, names: {table[0]}" + (f"; {cut % len(rest)}" if rest else "") + f"; {bare}\n"
            # the first restarts of all may be ones that stop: the table is then still the empty one
            says += table[1] if table else "show: records: 0\n"
            commands += f"{command}\nshow\n"
            write(f"{books}/{kept}.book", first + rest)
            write(f"{left}/{kept}.book", stored)
        assert stops == ([0, 1, 2, 3] if way == "older" else [])
        write(f"{folder}/{way}/in", commands.encode())
        write(f"{folder}/{way}/expected", says.encode())


if __name__ == "__main__":
    if sys.argv[1] == "made":
        for what, text in re.findall(r"^(book|reverse) (.*?)(?=^book |^reverse |\Z)", sys.stdin.read(), re.DOTALL | re.MULTILINE):
            head, *lines = text.splitlines()
            if what == "book":
                write(f"{sys.argv[2]}/{head}.book", made(lines))
            else:
                write(f"{sys.argv[2]}/{head}.book.reverse", reverse_side(lines))
    elif sys.argv[1] == "bad":
        bad(*sys.argv[2:])
    else:
        cuts(*sys.argv[2:])
