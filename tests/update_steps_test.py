"""Adds and removes on the library's table, beside the library's own messages for them on a name server: tests/update.sh says how.

The name server is update_server.py, which is first held to the rows of update_edges.txt. Then comes one long sequence of steps under policy 0, with
names in one zone, some of them kept by hand from the start, and refused calls among them. In each step the table's call is made, the first message is
written by the library and carried out, its answer is read by the library, and where the code says so the second message follows. The zone is never put
right: after each step the codes have to be those that belong to the table's answer, and the zone has to hold the table, name by name, in its order. In
some steps an answer is lost, and its message is sent again. Every pair of an answer and its codes has to be met.

Last, the comparison is tried: a sequence has to tell the shims of TOLD, whose slip shows in what a server does or in what is read of its answers, and
`faithful` not. There are slips that no sequence shows, such as a first remove that deletes the whole set: the bytes of a message do (update_test.py).
"""

import argparse
import multiprocessing
import os
import random
import select
import subprocess
import sys
from collections import Counter
from typing import List, NamedTuple, Tuple

import compare
import table_cases
import table_model
import update_cases
import update_edges
import update_model
import update_server
from message_cases import wire
from table_cases import Slot, State, Stock, in_either_case, table_bytes

ZONE = [b"bay3", b"example", b"net"]
BY_HAND = ([b"gateway"], [b"tank-a"], [b"both"])  # one with an A, one with an AAAA, one with both
ALONE = [b"old"]  # it has a DHCID alone, as a listing may have it
LONG = [b"x" * 63] * 3 + [b"y" * 44]  # with the zone it has 255 bytes
CLIENTS = ([], [b"acid-1"], [b"acid-2"], [b"base-1"], [b"a"], [b"b", b"a"], [b"0", b"_", b"-"], LONG)  # the zone's own name too
LIFETIME = 3600
TYPES = {table_model.A: 1, table_model.AAAA: 28, table_model.DHCID: 49}
PLANTED_STEPS = 800  # that a shim is asked, until one tells it

TOLD = tuple("""
aaaa_forgotten aaaa_set adcount address_not_asked any_none code_7 code_fifth_byte compressed data_lowered delete_last dhcid_not_asked dhcid_type flags
id_swapped lifetime_0 lifetime_asked lifetime_bytes lifetime_deleted none_any number_swapped one_deleted only_family_asked prcount qr_in_message type_1
upcount zocount zone_case zone_is_name zone_type
""".split())

CHOICES = ((table_cases.add_unused,) * 4 + (table_cases.add_same,) * 3 + (table_cases.add_other, table_cases.by_hand)
           + (table_cases.remove_last,) * 3 + (table_cases.remove_one_of_two,) * 2
           + (table_cases.remove_at_dhcid_alone, table_cases.remove_other_address, table_cases.remove_other_dhcid, table_cases.unknown))

# The codes that belong to each answer of the table: of the first message, and of the second where the first one's says so. An accepted remove takes the
# name or leaves it. Where the answer to an accepted step's first or second message was lost, the message is sent again, and finds what it has done itself;
# after a first one the second is then sent whatever its code.
SECOND_AFTER = {"add": 6, "remove": 0}
CODES = {
    "add 0": "0", "add 1": "6 0", "add refused 30": "6 8", "add refused 31": "6 8",
    "remove 0, name gone": "0 0", "remove 0, name stays": "0 7",
    **{"remove refused %d" % number: "8" for number in (33, 31, 30, 34)},
    **{"%s refused %d" % (word, number): "refused %d" % number for word in ("add", "remove") for number in (12, 9, 15, 16)},
}
CODES_LOST = {
    "first": {"add 0": "6 0", "add 1": "6 0", "remove 0, name gone": "8 0", "remove 0, name stays": "8 7"},
    "second": {"add 1": "6 0", "remove 0, name gone": "0 8", "remove 0, name stays": "0 7"},
}
FAULTS = (12, 9, 15, 16)


class Difference(Exception):
    """What is not as it should be"""


class Refused(Exception):
    """The library writes no message: what it answers"""


# The harnesses

class Harness:
    """One that stays open, for answers that the next question depends on"""

    def __init__(self, path: str) -> None:
        self.process = subprocess.Popen([path], stdin=subprocess.PIPE, stdout=subprocess.PIPE, stderr=subprocess.DEVNULL, encoding="ascii")
        self.calls = 0

    def ask(self, line: str) -> str:
        self.calls += 1
        try:
            self.process.stdin.write(line + "\n")
            self.process.stdin.flush()
            is_there = select.select([self.process.stdout], [], [], compare.SECONDS)[0]
            answer = self.process.stdout.readline() if is_there else ""
        except BrokenPipeError:
            answer = ""
        if not answer.endswith("\n"):
            raise Difference("the harness fell, or hung")
        return answer[:-1]

    def close(self) -> None:
        self.process.kill()
        self.process.communicate()


def unpacked(form: str) -> bytes:
    """What table_model.packed writes"""
    pieces = (piece.partition("+") for piece in form.split(","))
    return b"".join(bytes.fromhex(some.strip("-")) + bytes(int(zeros or 0)) for some, _, zeros in pieces)


def zone_names(table: table_model.Table) -> update_server.Names:
    """The names of a zone that holds just this table"""
    return {name: {(TYPES[flag], data): LIFETIME for flag, data in records.items()} for name, records in table.items()}


def state_of(stock: Stock, table: table_model.Table) -> State:
    flags = (table_model.A, table_model.AAAA, table_model.DHCID)
    return State(stock, tuple(Slot(name, *(records.get(flag, b"") for flag in flags)) for name, records in table.items()))


# A sequence

class Sequence:
    """One table and one zone, and the two harnesses that are asked"""

    def __init__(self, rng: random.Random, messages: Harness, tables: Harness) -> None:
        self.rng, self.messages, self.tables = rng, messages, tables
        self.stock = Stock(rng, 1, False)
        self.stock.names = [wire(labels + ZONE) for labels in CLIENTS]
        four, six = (self.stock.addresses[family][0] for family in (4, 6))
        by_hand = [Slot(wire(labels + ZONE), *addresses) for labels, addresses in zip(BY_HAND, ((four, b""), (b"", six), (four, six)))]
        self.table = table_model.read(table_bytes(by_hand + [Slot(wire(ALONE + ZONE), dhcid=self.stock.dhcids[0])]))
        self.zone = update_server.Zone(wire(ZONE), zone_names(self.table))

    def some_step(self) -> table_model.Call:
        while True:
            step = self.rng.choice(CHOICES)(self.rng, state_of(self.stock, self.table))
            if step is not None and step.call.word in SECOND_AFTER:
                return step.call._replace(policy=0, table=table_model.written(self.table))

    def with_fault(self, call: table_model.Call) -> table_model.Call:
        """A fault that a remove can have, so that the message has it too: no policy is in one"""
        return table_cases.with_fault(self.rng, call._replace(word="remove"), self.rng.choice(FAULTS))._replace(word=call.word)

    def on_table(self, call: table_model.Call) -> str:
        """What the table answers; the model's table is then the one that the library has left."""
        right = table_model.answer(call)
        answer = self.tables.ask(table_cases.line(call))
        if answer != table_model.printed(right):
            raise Difference("the table: %s; right: %s" % (answer, table_model.printed(right)))
        if right[0] == "refused":
            return "%s refused %d" % (call.word, right[1])
        self.table = table_model.read(right[2])
        if call.word == "add":
            return "add %d" % right[1]
        return "remove 0, name " + ("stays" if call.name.lower() in self.table else "gone")

    def message(self, word: str, call: table_model.Call) -> Tuple[int, bytes]:
        """One that the library writes, and its number"""
        number = self.rng.randrange(65536)
        asked = update_model.Call(word, number, in_either_case(self.rng, wire(ZONE)), call.name, call.dhcid, call.family, call.address, update_cases.LIMIT)
        answer = self.messages.ask(update_cases.line(asked))
        if not answer.startswith("ok "):
            raise Refused(answer)
        return number, unpacked(answer.split(" ")[2])

    def sent(self, number: int, message: bytes) -> str:
        """The code of the server's answer, as the library reads it: the server may have set other flags, and sent the sections back."""
        code, self.zone = update_server.carried_out(message, self.zone)
        response = update_server.response(message, code, self.rng.choice((0, 0, self.rng.getrandbits(16))), self.rng.choice((b"", message[4:])))
        answer = self.messages.ask(update_cases.line(update_model.Call("answer", number, message=response)))
        return answer[3:] if answer.startswith("ok ") else answer

    def answered(self, word: str, call: table_model.Call, is_lost: bool) -> str:
        number, message = self.message(word, call)
        if is_lost:
            self.sent(number, message)
        return self.sent(number, message)

    def on_server(self, call: table_model.Call, lost: str) -> str:
        """The codes, or how the message was refused"""
        try:
            codes = [self.answered(call.word + "_first", call, lost == "first")]
            if lost == "first" or codes == [str(SECOND_AFTER[call.word])]:
                codes.append(self.answered(call.word + "_second", call, lost == "second"))
            return " ".join(codes)
        except Refused as refused:
            return refused.args[0].replace(" at 0", "")

    def step(self) -> str:
        """The pair that was met"""
        call = self.some_step()
        if self.rng.random() < 0.06:
            call = self.with_fault(call)
        answer = self.on_table(call)
        lost = self.rng.choice([which for which, codes in CODES_LOST.items() if answer in codes] or [""]) if self.rng.random() < 0.15 else ""
        codes = self.on_server(call, lost)
        right = (CODES_LOST[lost] if lost else CODES).get(answer)
        said = pair(answer, lost, codes, call.family)
        if codes != right:
            raise Difference("%s: the codes should be %s: %s" % (said, right, table_cases.line(call._replace(table=b""))))
        if list(self.zone.names.items()) != list(zone_names(self.table).items()):
            raise Difference("%s: the zone does not hold the table: %s" % (said, table_cases.line(call._replace(table=b""))))
        return said


def pair(answer: str, lost: str, codes: str, family: int) -> str:
    """A message that is refused may be of any family, and of none"""
    return "%s%s (%s)%s" % (answer, ", %s answer lost" % lost if lost else "", codes, " of family %d" % family if codes[0].isdigit() else "")


PAIRS = list(dict.fromkeys(pair(answer, lost, codes, family) for lost, some in (("", CODES), *CODES_LOST.items()) for answer, codes in some.items()
                           for family in (4, 6)))


class Ran(NamedTuple):
    steps: int
    calls: int
    pairs: "Counter[str]"
    difference: str  # the first one, which ends the sequence; nothing if there is none


def run(given: Tuple[str, str, int, int]) -> Ran:
    """So many steps, through the harness for messages and the one for tables"""
    path, table_path, seed, count = given
    harnesses = [Harness(path), Harness(table_path)]
    sequence = Sequence(random.Random("steps %d" % seed), *harnesses)
    pairs: "Counter[str]" = Counter()
    difference = ""
    try:
        for _ in range(count):
            pairs[sequence.step()] += 1
    except Difference as found:
        difference = found.args[0]
    finally:
        for harness in harnesses:
            harness.close()
    return Ran(sum(pairs.values()), sum(harness.calls for harness in harnesses), pairs, difference)


# The whole

def look_at_server(tally: compare.Tally) -> None:
    """The rows that were written by hand; the zone that is given stays as it is"""
    rows = update_edges.read_rows()
    for row in rows:
        before = update_server.copied(row.before)
        code, after = update_server.carried_out(row.message, update_server.Zone(wire([b"z"]), before))
        if (code, list(after.names.items()), before) == (row.code, list(row.after.items()), row.before):
            tally.passed += 1
        else:
            tally.judge(False, "the name server answers %d and leaves %s: %s" % (code, after.names, row.why))
    tally.say("%d rows of the name server, written by hand" % len(rows))


def compare_steps(tally: compare.Tally, ran: Ran, count: int, seed: int) -> None:
    tally.passed += ran.steps
    if ran.difference:
        tally.judge(False, "after %d of %d steps: %s" % (ran.steps, count, ran.difference))
    tally.say("%d steps in one sequence, %d calls, seed %d: %s" % (
        ran.steps, ran.calls, seed, ", ".join("%s %d" % (pair_met, ran.pairs[pair_met]) for pair_met in PAIRS)))
    for missed in (pair_met for pair_met in PAIRS if not ran.pairs[pair_met]):
        tally.judge(False, "not one of the steps was: " + missed)


def try_shims(tally: compare.Tally, pool: "multiprocessing.pool.Pool", paths: List[str], table_path: str, seed: int) -> None:
    by_name = {os.path.basename(path): path for path in paths}
    names = [name for name in (*TOLD, "faithful") if name in by_name]
    for name in set(TOLD) - set(names) if paths else ():
        tally.judge(False, "there is no shim %s" % name)
    for name, ran in zip(names, pool.imap(run, [(by_name[name], table_path, seed, PLANTED_STEPS) for name in names])):
        good = bool(ran.difference) != (name == "faithful")
        tally.judge(good, "planted %-20s %s %s" % (name, "" if good else "NOT AS IT SHOULD BE:",
                                                   "told after %d steps" % ran.steps if ran.difference else "not told in %d steps" % ran.steps))


def main() -> int:
    parser = argparse.ArgumentParser(description=__doc__.splitlines()[0])
    parser.add_argument("--harness", required=True, help="that of messages; the table's is in the folder `table` beside it")
    parser.add_argument("--seed", type=int, required=True)
    parser.add_argument("--cases", type=int, required=True, help="number of steps")
    parser.add_argument("--jobs", type=int, default=2)
    parser.add_argument("--planted", nargs="*", default=[])
    options = parser.parse_args()
    table_path = os.path.join(os.path.dirname(options.harness), "table", "harness")
    tally = compare.Tally("update_steps")
    look_at_server(tally)
    with multiprocessing.Pool(options.jobs) as pool:
        waiting = pool.apply_async(run, ((options.harness, table_path, options.seed, options.cases),))
        try_shims(tally, pool, options.planted, table_path, options.seed)
        compare_steps(tally, waiting.get(), options.cases, options.seed)
    print("%d passed, %d failed" % (tally.passed, tally.failed))
    return 0 if tally.failed == 0 and tally.passed > 0 else 1


if __name__ == "__main__":
    sys.exit(main())
