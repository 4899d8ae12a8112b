"""Power cuts in the example gateway, for tests/host.sh: every row of the two tables of docs/POWER.md is run here.

    host_power.py DHCIDS FOLDER all|rows|stops HOST..
        DHCIDS is a file with what examples/host/dhcids.py prints; in FOLDER are the gateway's inputs, and it is worked there. The last line is
        `N passed, M failed`.
        all     the rows of every step, each cut twice; and with the first HOST the block of a lease and of an ended one, cut at every byte
        rows    the rows of a lease and of an ended one; that the document has these rows is compared too
        stops   a HOST that is linked with tests/host_power.c: not cut by its own command, but ended before each call that stores

Each step starts from stored files that Python makes (host_books.py). Uncut it has to leave the table and the reverse side that Python makes. Then it is cut at
a place, in a process that ends there, and a second process restarts from what is stored: for a lease the client asks again, an ended one is in the file beside
the book. What stands in between is the step's beginning, its end or one of each, as the row says. The answer of the second run is the row's, and it leaves what
the uncut run left, byte for byte: the reverse side, and the slots that the book replays to (in Python), since the second run of a lease may add a block.
"""
import itertools
import os
import re
import subprocess
import sys

from comparison import Comparison
from host_books import BLOCK, is_checked, made, reverse_side, write

REVERSE = 128 * 273
BESIDE = ("", ".reverse", ".ended", ".new", ".reverse.new", ".ended.new")
NAME = "{}-1.bay3.example.net."
GATEWAY = "gateway.bay3.example.net. A 192.0.2.1"
LONG = "2001:db8:0:3:0:0:0:21"
ENDED = "an ended lease was kept, "

# The rows of docs/POWER.md: where the power fails. A lease stores the block first, an ended one the reverse side.
BEGUN, MEMORY, FIRST, BETWEEN, SECOND, BOTH, LOST = (
    "1 nothing begun", "2 in memory alone", "3 in the middle of storing the first", "4 first stored", "5 in the middle of storing the second", "6 both stored",
    "7 answer lost")


def in_block(*places):
    return [f"in-block {place}" for place in places]


def in_reverse(*places):
    return [f"in-reverse {place}" for place in places]


# each row with its cuts; None is a row without one
PARTS = in_block(1, 4, 300, 479, 480, 511), in_reverse(0, 1, 273, 20000, REVERSE - 1, REVERSE)
LEASE_ROWS = {BEGUN: [None], MEMORY: ["before", "in-block 0"], FIRST: PARTS[0], BETWEEN: ["between", "in-block 512"], SECOND: PARTS[1], BOTH: ["after"], LOST: [None]}
END_ROWS = {BEGUN: [None], MEMORY: ["before"], FIRST: PARTS[1], BETWEEN: ["between", "in-block 0"], SECOND: PARTS[0], BOTH: ["after", "in-block 512"], LOST: [None]}


def replay(book):
    """The slots that a book replays to, in their order; None if it is no book."""
    names = {}
    for number in range(len(book) // BLOCK):
        block = book[number * BLOCK:][:BLOCK]
        name, slot = block[5:261], block[5:317]
        if not is_checked(block) or block[:4] != number.to_bytes(4, "big") or (block[4] == 0 and name not in names):
            return None
        if block[4] == 0:
            del names[name]
        else:
            names[name] = slot
    return list(names.values()) if len(book) % BLOCK == 0 else None


class Step:
    """A step with what its two runs answer. The tables and reverse sides, before and after, are lines for host_books.py."""

    def __init__(self, what, command, answer, then, before, after, setting="set first-wins"):
        self.what, self.command, self.setting = what, command, setting
        self.is_lease = command.startswith("request")
        self.answers = answer, then
        self.rows = LEASE_ROWS if self.is_lease else END_ROWS
        # where the table has the step after the cut, so that the second run answers what is behind `then`
        self.stored = (BETWEEN, SECOND, BOTH, LOST) if self.is_lease else (BOTH, LOST)
        self.before, self.after = ((made(table), reverse_side(behind)) for table, behind in (before, after))
        self.slots = replay(self.after[0])

    def is_stored_by(self, place):
        """Whether a cut at this place leaves the table with the step."""
        if place.startswith("in-block"):
            return place == "in-block 512"
        return place == "after" or (self.is_lease and place != "before")


def steps(dhcids):
    acid, successor, base, feed = (f"DHCID {dhcid}" for dhcid in dhcids[:4])
    acid_name, base_name, feed_name = (NAME.format(head) for head in ("acid", "base", "feed"))

    def holds(name, dhcid, a="", aaaa=""):
        return f"{name}{a and ' A '}{a}{aaaa and ' AAAA '}{aaaa} {dhcid}"

    others = [GATEWAY, holds(base_name, base, "192.0.2.32")]
    other = [f"192.0.2.32 {base_name}"]
    held = others + [holds(acid_name, acid, "192.0.2.31")], other + [f"192.0.2.31 {acid_name}"]
    two = [GATEWAY, holds(feed_name, feed, "192.0.2.34", LONG)] + others[1:], [f"{LONG} {feed_name}", f"192.0.2.34 {feed_name}"] + other
    return (
        Step("a new name", "request 4 acid-1.hex 192.0.2.31", "0", "1", (others, other), held),
        Step("another address", "request 4 acid-1.hex 192.0.2.41", "1", "1", held,
             (others + [holds(acid_name, acid, "192.0.2.41")], held[1] + [f"192.0.2.41 {acid_name}"])),
        Step("another head's former address", "request 4 acid-1.hex 192.0.2.32", "1", "1", held,
             (others + [holds(acid_name, acid, "192.0.2.32")], [f"192.0.2.32 {acid_name}"] + held[1][1:])),
        Step("a takeover", "request 4 acid-1-successor.hex 192.0.2.35", "2", "1", held,
             (others + [holds(acid_name, successor, "192.0.2.35")], held[1] + [f"192.0.2.35 {acid_name}"]), "set latest-wins"),
        Step("a refused lease", "request 4 acid-1-successor.hex 192.0.2.35", "refused 30", "refused 30", held, held),
        Step("the end of a name", "release 4 base-1.hex 192.0.2.32", "0", "33", held, ([GATEWAY] + held[0][2:], held[1][1:])),
        Step("the end of one of two addresses", "release 6 feed-1.hex " + LONG, "0", "34", two,
             ([GATEWAY, holds(feed_name, feed, "192.0.2.34")] + others[1:], two[1][1:])),
        Step("an end whose reverse name is another's", "release 4 base-1.hex 192.0.2.32", "0", "33", (held[0], [f"192.0.2.32 {acid_name}"]),
             ([GATEWAY] + held[0][2:], [f"192.0.2.32 {acid_name}"])),
        Step("a refused end", "release 4 acid-1-successor.hex 192.0.2.31", "refused 30", "refused 30", held, held),
    )


class Trial:
    def __init__(self, result, host, folder):
        self.result, self.host, self.folder = result, host, folder

    def path(self, ending, book="work.book"):
        return f"{self.folder}/{book}{ending}"

    def begin(self, step, book="work.book"):
        """The stored files before a step."""
        self.clear(book)
        for ending, content in zip(BESIDE, step.before):
            write(self.path(ending, book), content)

    def clear(self, book="work.book"):
        for ending in BESIDE:
            if os.path.exists(self.path(ending, book)):
                os.remove(self.path(ending, book))

    def run(self, step, *commands):
        """What a new process says to these commands, behind a setting that it comes with."""
        said = subprocess.run([self.host], input="\n".join((step.setting, *commands, "")), cwd=self.folder, capture_output=True, text=True, check=False)
        self.result.fact(said.stderr == "" and said.returncode in (0, 1), f"{step.what}: {commands}: status {said.returncode}: {said.stdout}{said.stderr}")
        return said.stdout

    def stored(self, ending="", book="work.book"):
        try:
            with open(self.path(ending, book), "rb") as file:
                return file.read()
        except FileNotFoundError:
            return None

    def answers(self, step, said, expected):
        """What the step, or its end that was kept, answers in what was said, where it is not cut."""
        pattern = rf"^(?:{re.escape(step.command)}: [^ ]*|{ENDED}[^ ]*): (?:answer |it was done already \()?(refused \d+|\d+)"
        found = re.findall(pattern, said, re.MULTILINE)
        self.result.fact(found == expected, f"{step.what}: the answers are not {expected}, but {found}: {said[:2000]}")

    def ends(self, step, where, book="work.book"):
        """Both sides are those of the uncut run, and nothing is left beside them."""
        self.result.fact(replay(self.stored("", book)) == step.slots, f"{where}: another table than after the uncut run")
        self.result.fact(self.stored(".reverse", book) == step.after[1], f"{where}: another reverse side than after the uncut run")
        left = [ending for ending in BESIDE[2:] if os.path.exists(self.path(ending, book))]
        self.result.fact(not left, f"{where}: {left} is left")

    def again(self, step):
        """The same again after a restart: the client asks again; an ended lease is in the file beside the book."""
        return self.run(step, "book work.book", *([step.command] if step.is_lease else []))

    def stands(self, step, where, row):
        """What stands after the cut, as the row says: the step's beginning or its end on each side."""
        is_first, is_second = row in (BETWEEN, SECOND, BOTH, LOST), row in (BOTH, LOST)
        is_table, is_reverse = (is_first, is_second) if step.is_lease else (is_second, is_first)
        book = self.stored()
        slots = replay(book[:len(book) // BLOCK * BLOCK])
        self.result.fact(book.startswith(step.before[0]) and slots == (step.slots if is_table else replay(step.before[0])), f"{where}: another table stands")
        self.result.fact(self.stored(".reverse") == (step.after if is_reverse else step.before)[1], f"{where}: another reverse side stands")

    def row(self, step, row, cut):
        where = f"{step.what}, row {row}, cut {cut}, {os.path.basename(self.host)}"
        self.begin(step)
        is_refused = not step.answers[0].isdigit()
        if row == BEGUN and not step.is_lease:
            # an ended lease is kept before it is begun: the file that a cut before any store leaves is all that there is
            self.run(step, "book work.book", "cut before", step.command)
        elif row == LOST:
            self.answers(step, self.run(step, "book work.book", step.command), [step.answers[0]])
        elif cut:
            said = self.run(step, "book work.book", f"cut {cut}", step.command)
            self.result.fact(": POWER CUT: " in said and "answer" not in said, f"{where}: not cut, or told all the same: {said}")
        self.stands(step, where, BEGUN if is_refused else row)
        answer = step.answers[row in step.stored]
        if row == LOST and not step.is_lease:
            # it is kept no longer: somebody who was not told asks again by hand
            said = self.run(step, "book work.book", step.command)
            self.answers(step, said, [answer if is_refused else f"refused {answer}"])
        else:
            self.answers(step, self.again(step), [answer])
        self.ends(step, where)

    def rows(self, step):
        for row, cuts in step.rows.items():
            for cut in cuts:
                self.row(step, row, cut)

    def stops(self, step):
        """The process ends before each of its calls that store; then the same again. An ended lease that is not kept by then was not begun."""
        for number in itertools.count(1):
            self.begin(step)
            where = f"{step.what}, ended before store {number}"
            environment = dict(os.environ, POWER_OFF=str(number))
            said = subprocess.run([self.host], input=f"{step.setting}\nbook work.book\n{step.command}\n", cwd=self.folder, env=environment, capture_output=True, text=True,
                                  check=False)
            if said.returncode != 9:
                break
            is_left = not step.is_lease and self.stored(".ended") is None and self.stored() == step.before[0]
            self.run(step, "book work.book", *([step.command] if step.is_lease or is_left else []))
            self.ends(step, where)
        # a lease has its block, the reverse side under its other name, the rename and the folder; an ended one has its own file besides, and takes it away
        calls = (4 if step.is_lease else 9) if step.answers[0].isdigit() else (0 if step.is_lease else 5)
        self.result.fact(number == calls + 1, f"{step.what}: {number - 1} calls that store, and not {calls}")
        self.ends(step, f"{step.what}, not ended")

    def many(self, step, what, cuts):
        """Cut at each of these places in turn, for each row of places, in one process; then the same again, and compared."""
        commands = []
        for number, places in enumerate(cuts):
            self.begin(step, f"{number}.book")
            commands += [f"book {number}.book", f"cut {places[0]}", step.command]
            for place in places[1:]:
                commands += ["restart", f"cut {place}", step.command] if step.is_lease else [f"cut {place}", "restart"]
            commands += ["restart"] + ([step.command] if step.is_lease else [])
        said = self.run(step, *commands)
        self.result.fact(said.count(": POWER CUT: ") == sum(map(len, cuts)), f"{step.what}, {what}: {said.count(': POWER CUT: ')} cuts")
        self.answers(step, said, [step.answers[any(step.is_stored_by(place) for place in places)] for places in cuts])
        for number, places in enumerate(cuts):
            self.ends(step, f"{step.what}, {what}: cut {places}, {os.path.basename(self.host)}", f"{number}.book")
            self.clear(f"{number}.book")


def main(dhcids, folder, what, *hosts):
    result = Comparison()
    with open(dhcids, encoding="ascii") as file:
        every = steps([line.split()[1] for line in file])
    lease, end = every[0], every[5]
    with open("docs/POWER.md", encoding="utf-8") as file:
        rows = [" ".join(row).strip() for row in re.findall(r"^\| (\d) \| ([^|:,]*)", file.read(), re.MULTILINE)]
    result.fact(rows == [*LEASE_ROWS, *END_ROWS], f"docs/POWER.md has other rows: {rows}")
    places = ("before", "in-block 300", "between", "in-reverse 300", "after")
    for host in hosts:
        trial = Trial(result, host, folder)
        for step in (lease, end) if what == "rows" else every:
            if what == "stops":
                trial.stops(step)
                continue
            trial.begin(step)
            trial.answers(step, trial.run(step, "book work.book", step.command), [step.answers[0]])
            trial.ends(step, f"{step.what}, uncut")
            trial.rows(step)
            if step.answers[0].isdigit() and what == "all":
                trial.many(step, "cut twice", list(itertools.product(places, places)))
        # a second host, with sanitizers, has nothing more to show there than in the rows
        for step in (lease, end) if host == hosts[0] and what == "all" else ():
            trial.many(step, "every byte of the block", [[f"in-block {place}"] for place in range(BLOCK + 1)])
    for fault in result.faults[:20]:
        print(f"host: {fault}")
    print(f"{result.facts - len(result.faults)} passed, {len(result.faults)} failed")
    return 1 if result.faults else 0


if __name__ == "__main__":
    sys.exit(main(*sys.argv[1:]))
