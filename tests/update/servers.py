"""The name servers: each with settings of its own, as a child process on a free port of 127.0.0.1, in a folder that is given.

    SERVERS                        the classes, one for each server
    Zone(name, is_strict)          a zone to serve; its file has an SOA and an NS

A server is stopped by `stop`, by its process id. If the script itself is killed, the kernel stops the server.
"""

import ctypes
import pathlib
import re
import signal
import socket
import struct
import subprocess
import time
from typing import List, NamedTuple, Optional, Sequence

from checkers import path_of, run

import wire

SERVER_NAME = "ns.update.invalid."
PR_SET_PDEATHSIG = 1


class Zone(NamedTuple):
    name: str
    is_strict: bool = False  # BIND's default for names that are no host names

    def records(self) -> List[wire.Record]:
        """What stands there at first."""
        name, server = wire.wire_name(self.name), wire.wire_name(SERVER_NAME)
        soa = server + wire.wire_name("hostmaster.invalid.") + struct.pack(">5I", 1, 3600, 900, 604800, 3600)
        return [wire.Record(name, wire.SOA, wire.IN, 3600, soa), wire.Record(name, wire.NS, wire.IN, 3600, server)]

    def text(self) -> str:
        lines = ["$TTL 3600", "%s SOA %s hostmaster.invalid. 1 3600 900 604800 3600" % (self.name, SERVER_NAME), "%s NS %s" % (self.name, SERVER_NAME)]
        return "".join(line + "\n" for line in lines)


def free_port() -> int:
    """One that is free for UDP and for TCP."""
    for _ in range(100):
        with socket.socket(socket.AF_INET, socket.SOCK_DGRAM) as datagrams, socket.socket(socket.AF_INET, socket.SOCK_STREAM) as streams:
            datagrams.bind(("127.0.0.1", 0))
            port = datagrams.getsockname()[1]
            try:
                streams.bind(("127.0.0.1", port))
            except OSError:
                continue
            return port
    raise OSError("no port of 127.0.0.1 is free")


def end_with_parent() -> None:
    """In the child, before it becomes the server."""
    ctypes.CDLL(None).prctl(PR_SET_PDEATHSIG, signal.SIGTERM)


def version_of(tool: str, option: str) -> str:
    _, out, err = run(tool, option)
    found = re.search(r"\d+\.\d+\.\d+[\w~.-]*", out + err)
    return found.group() if found else "of an unknown version"


class Server:
    tool = package = version_option = ""

    def __init__(self, folder: pathlib.Path, zones: Sequence[Zone]) -> None:
        self.folder, self.zones = folder / self.tool, zones
        self.process: Optional[subprocess.Popen] = None
        self.link: Optional[wire.Link] = None

    def settings(self, port: int) -> str:
        raise NotImplementedError

    def arguments(self, settings: pathlib.Path) -> List[str]:
        raise NotImplementedError

    def file_of(self, number: int) -> pathlib.Path:
        return self.folder / ("zone-%d" % number)

    def start(self) -> None:
        """A few times: another program may take the port between the choice and the start."""
        self.folder.mkdir()
        for _ in range(3):
            for number, zone in enumerate(self.zones):
                self.file_of(number).write_text(zone.text(), encoding="ascii")
            port = free_port()
            settings = self.folder / "settings"
            settings.write_text(self.settings(port), encoding="ascii")
            with open(self.folder / "log", "wb") as log:
                self.process = subprocess.Popen([path_of(self.tool), *self.arguments(settings)], stdin=subprocess.DEVNULL, stdout=log, stderr=log,
                                                cwd=self.folder, preexec_fn=end_with_parent)
            self.link = wire.Link(port)
            if self.is_ready():
                return
            self.stop()
        raise OSError("%s does not serve its zones; its log is %s" % (self.tool, self.folder / "log"))

    def is_ready(self) -> bool:
        """Whether it serves each zone, within ten seconds."""
        until = time.monotonic() + 10
        left = [wire.wire_name(zone.name) for zone in self.zones]
        while left and time.monotonic() < until and self.process.poll() is None:
            answer = self.link.ask(wire.build(wire.query(self.link.next_number(), left[0], wire.SOA)), False, 0.2)
            if answer is not None and wire.code(answer) == 0 and wire.parse(answer).answers:
                left.pop(0)
            else:
                time.sleep(0.05)
        return not left

    def stop(self) -> None:
        if self.link is not None:
            self.link.close()
        if self.process is None:
            return
        self.process.terminate()
        try:
            self.process.wait(timeout=10)
        except subprocess.TimeoutExpired:
            self.process.kill()
            self.process.wait()
        self.process = None


class Named(Server):
    tool, package, version_option = "named", "bind9", "-v"

    def settings(self, port: int) -> str:
        """Nothing but the zones: no recursion, no control channel, no message to other servers; what it writes stays in its folder."""
        options = ("directory \"%s\"; listen-on port %d { 127.0.0.1; }; listen-on-v6 { none; }; pid-file none; lock-file none;"
                   " session-keyfile \"%s/session.key\"; recursion no; dnssec-validation no; notify no; empty-zones-enable no;"
                   " allow-transfer { 127.0.0.1; }; tcp-idle-timeout 1200;" % (self.folder, port, self.folder))
        lines = ["options { %s };" % options, "controls { };",
                 "logging { channel warnings { stderr; severity warning; }; category default { warnings; }; };"]
        for number, zone in enumerate(self.zones):
            names = "" if zone.is_strict else " check-names ignore;"
            lines.append("zone \"%s\" { type primary; file \"%s\"; allow-update { 127.0.0.1; };%s };" % (zone.name, self.file_of(number), names))
        return "".join(line + "\n" for line in lines)

    def arguments(self, settings: pathlib.Path) -> List[str]:
        return ["-f", "-c", str(settings)]


class Knotd(Server):
    tool, package, version_option = "knotd", "knot", "--version"

    def settings(self, port: int) -> str:
        lines = ["server:", "    rundir: \"%s\"" % self.folder, "    listen: 127.0.0.1@%d" % port, "    tcp-idle-timeout: 60",
                 "log:", "  - target: stderr", "    any: warning",
                 "database:", "    storage: \"%s\"" % (self.folder / "database"),
                 "acl:", "  - id: here", "    address: 127.0.0.1", "    action: [update, transfer]",
                 "zone:"]
        for number, zone in enumerate(self.zones):
            lines += ["  - domain: \"%s\"" % zone.name, "    file: \"%s\"" % self.file_of(number), "    acl: here", "    zonefile-sync: -1",
                      "    journal-content: none"]
        return "".join(line + "\n" for line in lines)

    def arguments(self, settings: pathlib.Path) -> List[str]:
        return ["-c", str(settings)]


SERVERS = (Named, Knotd)
