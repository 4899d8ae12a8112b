#!/usr/bin/env python3
"""The DHCIDs of the heads, made from RFC 4701's definition with Python's own SHA-256 and nothing of this library: the type of the
client's identifier in two bytes, digest type 1, the SHA-256 of the identifier and the name in lower case and wire form. A line for
each: the name and the DHCID in base64, as a listing has it. tests/host.sh compares them with the listings here."""
import base64
import hashlib


def dhcid(kind, identifier, name):
    wire = b"".join(bytes([len(label)]) + label for label in name.lower().encode().split(b"."))
    digest = hashlib.sha256(bytes.fromhex(identifier) + wire).digest()
    return base64.b64encode(kind.to_bytes(2, "big") + b"\1" + digest).decode()


# RFC 4701, 3.6.2: its own example comes out as it is printed there
assert dhcid(1, "01 07 08 09 0a 0b 0c", "chi.example.com.") == "AAEBOSD+XR3Os/0LozeXVqcNc7FwCfQdWL3b/NaiUDlW2No="

for kind, identifier, name in (
    (1, "01 00 00 5e 00 53 1a", "acid-1.bay3.example.net."),  # the data of option 61
    (1, "01 00 00 5e 00 53 1b", "acid-1.bay3.example.net."),  # the same of the acid head's successor
    (0, "01 00 00 5e 00 53 2b", "base-1.bay3.example.net."),  # htype and hardware address
    (2, "00 03 00 01 00 00 5e 00 53 3c", "feed-1.bay3.example.net."),  # the DUID
    (2, "00 03 00 01 00 00 5e 00 53 3c", "unnamed.bay3.example.net."),  # the same head under the site's name
):
    print(name, dhcid(kind, identifier, name))
