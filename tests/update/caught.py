"""The messages that nsupdate sends for the same steps: it is told to send them to a port where nobody but this script listens."""

import base64
import ipaddress
import selectors
import socket
import struct
import subprocess
import threading
from typing import Callable, List, Sequence

from checkers import path_of

import wire
from follow import Sent
from library import LIFETIME
from servers import free_port

TOOL, PACKAGE = "nsupdate", "bind9-dnsutils"


def reply(data: bytes) -> bytes:
    """The answer that it waits for: done."""
    return data[:2] + struct.pack(">5H", 0x8000 | wire.UPDATE_FLAGS, 0, 0, 0, 0)


class Sink:
    """Takes messages by UDP and TCP on one port of 127.0.0.1, and answers each."""

    def __init__(self) -> None:
        self.port = free_port()
        self.caught: List[bytes] = []
        self.is_over = threading.Event()
        self.selector = selectors.DefaultSelector()
        self.listen(socket.SOCK_DGRAM, self.take_datagram)
        self.listen(socket.SOCK_STREAM, self.take_stream).listen()
        self.thread = threading.Thread(target=self.serve, daemon=True)
        self.thread.start()

    def listen(self, kind: int, take: Callable[[socket.socket], None]) -> socket.socket:
        taken = socket.socket(socket.AF_INET, kind)
        taken.bind(("127.0.0.1", self.port))
        self.selector.register(taken, selectors.EVENT_READ, take)
        return taken

    def serve(self) -> None:
        while not self.is_over.is_set():
            for key, _ in self.selector.select(0.1):
                key.data(key.fileobj)

    def take_datagram(self, datagrams: socket.socket) -> None:
        data, sender = datagrams.recvfrom(65535)
        self.caught.append(data)
        datagrams.sendto(reply(data), sender)

    def take_stream(self, listening: socket.socket) -> None:
        """One message a connection, as nsupdate has them; what is not whole within two seconds is dropped."""
        stream, _ = listening.accept()
        with stream:
            stream.settimeout(2)
            try:
                length = struct.unpack(">H", stream.recv(2, socket.MSG_WAITALL))[0]
                data = stream.recv(length, socket.MSG_WAITALL)
                stream.sendall(struct.pack(">H", 12) + reply(data))
            except (OSError, struct.error):
                return
            self.caught.append(data)

    def close(self) -> None:
        self.is_over.set()
        self.thread.join(timeout=5)
        for key in list(self.selector.get_map().values()):
            key.fileobj.close()
        self.selector.close()


def commands(sent: Sent) -> List[str]:
    """What a person would type for this message."""
    name, client = wire.text_name(sent.client.name.lower()), sent.client
    dhcid = "%s DHCID" % name
    this_dhcid = "%s %s" % (dhcid, base64.b64encode(client.dhcid).decode("ascii"))
    address = "%s %s" % (name, "A" if client.family == 4 else "AAAA")
    this_address = "%s %s" % (address, ipaddress.ip_address(client.address))
    in_time = [line.replace(name, "%s %d" % (name, LIFETIME), 1) for line in (this_address, this_dhcid)]
    lines = {
        "add_first": ["prereq nxdomain " + name, "update add " + in_time[0], "update add " + in_time[1]],
        "add_second": ["prereq yxrrset " + this_dhcid, "update delete " + address, "update add " + in_time[0]],
        "remove_first": ["prereq yxrrset " + this_dhcid, "prereq yxrrset " + this_address, "update delete " + this_address],
        "remove_second": ["prereq yxrrset " + this_dhcid, "prereq nxrrset %s A" % name, "prereq nxrrset %s AAAA" % name, "update delete " + this_dhcid],
    }
    return ["zone " + wire.text_name(sent.zone), *lines[sent.kind], "send"]


def catch(messages: Sequence[Sent]) -> List[bytes]:
    """The bytes of each message, as nsupdate sends it."""
    sink = Sink()
    try:
        script = ["server 127.0.0.1 %d" % sink.port, "check-names no", *(line for sent in messages for line in commands(sent))]
        done = subprocess.run([path_of(TOOL)], input="".join(line + "\n" for line in script), capture_output=True, text=True, timeout=120, check=False)
    finally:
        sink.close()
    if done.returncode != 0 or len(sink.caught) != len(messages):
        raise ValueError("%s sends %d messages of %d: %s" % (TOOL, len(sink.caught), len(messages), (done.stdout + done.stderr).strip()[:200]))
    return sink.caught


def expanded(data: bytes, number: int) -> bytes:
    """Without compression, and under this number."""
    return wire.build(wire.parse(data)._replace(number=number))
