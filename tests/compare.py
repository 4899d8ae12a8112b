"""Ask the harness, and compare what it answers with what it should.

    ask(harness, lines)      one answer for each line: "crashed ..." or "hung" where the harness fell, "no answer" where it was not asked
                             again
    main(test)               the whole of a comparison, which a Test describes: tests/README.md says what is compared
    held_to(edges, ...)      the cases of hand-written calls, to which the model is held too
    read_edges(path)         the hand-written texts of a data file: [Edge(text, expected, why), ...]
    shown(text)              bytes in the escape form of those files

Every call of the library can be compared through these; nothing here knows of listings or messages.
"""

import argparse
import itertools
import multiprocessing
import os
import re
import subprocess
from collections import Counter
from typing import Any, Callable, Iterable, Iterator, List, NamedTuple, Tuple

CRASHES = 3  # how often the harness is started again in one go
SECONDS = 300  # how long it may work in one go
SHOWN = 20  # differences that are printed
STEP = 12000  # cases of small forms in one go
PLANTED_BATCHES = 5  # of generated cases, that each shim is asked


# The harness

def run(harness: str, lines: List[str]) -> Tuple[List[str], str]:
    """The answers of one run of the harness, and how it fell, if it did."""
    process = subprocess.Popen([harness], stdin=subprocess.PIPE, stdout=subprocess.PIPE, stderr=subprocess.PIPE)
    fallen = ""
    try:
        out, err = process.communicate("".join(line + "\n" for line in lines).encode("ascii"), timeout=SECONDS)
    except subprocess.TimeoutExpired:
        process.kill()
        out, err = process.communicate()
        fallen = "hung"
    answers = out.decode("ascii", "replace").split("\n")[:-1]  # an answer that was not ended is none
    if not fallen and (process.returncode != 0 or len(answers) != len(lines)):
        said = [line for line in err.decode("ascii", "replace").splitlines() if "ERROR" in line or "error" in line or "harness:" in line]
        fallen = " ".join(["crashed (status %d)" % process.returncode] + said[:1])
    return answers, fallen


def ask(harness: str, lines: List[str]) -> List[str]:
    answers: List[str] = []
    for _ in range(CRASHES):
        rest = lines[len(answers):]
        if not rest:
            break
        got, fallen = run(harness, rest)
        answers += got[:len(rest)]
        if fallen and len(got) < len(rest):
            answers.append(fallen)  # it fell at the first line without an answer
        elif fallen:
            answers[-1] = fallen  # at its end, with all of them answered
    return answers + ["no answer"] * (len(lines) - len(answers))


# Comparing

class Case(NamedTuple):
    line: str  # as the harness reads it
    right: str  # the answer that it should print
    kind: str  # how the case was made, or why it has this answer
    group: str = ""  # which kind of answer that is; every group has to be met among the generated cases
    against: str = ""  # what speaks against the model: another answer was meant, or written by hand
    is_slow: bool = False  # too slow to be asked of every shim


class Test(NamedTuple):
    """What is compared. Its functions are called in several processes, so they stand at the top of a module.

    What is generated has three parts: its kind, what is asked, and the answer that it was meant to have, if that is known.
    """
    what: str  # the call, for each printed line
    noun: str  # what the cases are
    answer: Callable[[Any], Any]  # of the model, to what is asked
    printed: Callable[[Any], str]  # an answer as the harness prints it
    line: Callable[[Any], str]  # what is asked, as the harness reads it
    shown: Callable[[str], str]  # a line as people read it
    group: Callable[[Any, Any], str]  # of what is asked, and of the answer
    groups: List[str]
    edges: Callable[[], List[Case]]
    small_forms: Callable[[], Iterator[Tuple[str, Any, Any]]]
    generated: Callable[[int, int, int], Iterator[Tuple[str, Any, Any]]]  # seed, number of the batch, how many
    batch: int


def judged(test: Test, cases: Iterable[Tuple[str, Any, Any]]) -> List[Case]:
    judgements = []
    for kind, asked, meant in cases:
        answer = test.answer(asked)
        right = test.printed(answer)
        against = "" if meant in (None, answer) else "meant: %s; the model: %s" % (test.printed(meant), right)
        judgements.append(Case(test.line(asked), right, kind, test.group(asked, answer), against))
    return judgements


def held_to(edges: Iterable[Any], answer: Callable[[Any], Any], printed: Callable[[Any], str], line: Callable[[Any, Any], str]) -> List[Case]:
    """Of an edge's call, the zeros behind its bytes, its answer and why; the rest is the model's. Where there are zeros it has no memory for them."""
    cases = []
    for edge in edges:
        right = printed(edge.answer)
        model = right if any(edge.zeros) else printed(answer(edge.call))
        cases.append(Case(line(edge.call, edge.zeros), right, edge.why, against="" if model == right else "the model: " + model))
    return cases


class Found(NamedTuple):
    passed: int
    failed: int
    groups: "Counter[str]"
    differences: List[str]


def compared(test: Test, harness: str, cases: List[Case]) -> Found:
    differences = []
    failed = 0
    for case, answer in zip(cases, ask(harness, [case.line for case in cases])):
        wrong = ["the library: %s; right: %s" % (answer, case.right)] if answer != case.right else []
        wrong += [case.against] if case.against else []
        if wrong:
            failed += 1
            if len(differences) < SHOWN:
                differences.append("%s (%s)\n    %s" % ("; ".join(wrong), case.kind, test.shown(case.line)))
    return Found(len(cases) - failed, failed, Counter(case.group for case in cases), differences)


# Pieces of work for one process

def compared_small(given: Tuple[Test, str, int, int]) -> Found:
    test, harness, first, count = given
    return compared(test, harness, judged(test, itertools.islice(test.small_forms(), first, first + count)))


def compared_generated(given: Tuple[Test, str, int, int, int]) -> Found:
    test, harness, seed, batch, count = given
    return compared(test, harness, judged(test, test.generated(seed, batch, count)))


def told(given: Tuple[str, List[List[Case]]]) -> List[int]:
    """How many cases of each list tell a shim from what is right; a case that was not asked any more tells nothing."""
    harness, asked = given
    return [sum(answer not in (case.right, "no answer") for case, answer in zip(cases, ask(harness, [case.line for case in cases])))
            for cases in asked]


# The whole

class Tally:
    """What has passed and failed so far; the first differences are printed."""

    def __init__(self, what: str) -> None:
        self.what = what
        self.passed = self.failed = self.printed = 0
        self.groups: "Counter[str]" = Counter()

    def say(self, line: str) -> None:
        print("%s: %s" % (self.what, line))

    def add(self, found: Found) -> None:
        self.passed += found.passed
        self.failed += found.failed
        self.groups.update(found.groups)
        for difference in found.differences[:SHOWN - self.printed]:
            self.printed += 1
            self.say(difference)

    def judge(self, good: bool, line: str) -> None:
        self.passed += good
        self.failed += not good
        self.say(line)


def first_to_last(count: int, step: int) -> List[Tuple[int, int]]:
    """So many cases in pieces: the first of each, and how many it has."""
    return [(first, min(step, count - first)) for first in range(0, count, step)]


def main(test: Test) -> int:
    """Prints what was compared and ends in the line `N passed, M failed`; 0 only if M is 0."""
    parser = argparse.ArgumentParser(description="Compare the library with the model, through the harness: %s." % test.what)
    parser.add_argument("--harness", required=True)
    parser.add_argument("--seed", type=int, required=True)
    parser.add_argument("--cases", type=int, required=True, help="number of generated cases")
    parser.add_argument("--jobs", type=int, default=2)
    parser.add_argument("--planted", nargs="*", default=[], help="harnesses with a planted difference; `faithful` has none")
    options = parser.parse_args()
    harness, seed = options.harness, options.seed
    tally = Tally(test.what)

    with multiprocessing.Pool(options.jobs) as pool:
        edges = test.edges()
        tally.add(compared(test, harness, edges))
        tally.say("%d edges written by hand" % len(edges))

        small = sum(1 for _ in test.small_forms())
        for found in pool.imap(compared_small, [(test, harness, first, count) for first, count in first_to_last(small, STEP)]):
            tally.add(found)
        tally.say("%d %s of small forms, all of them" % (small, test.noun))

        tally.groups.clear()  # what is never generated, the others do not make up for
        pieces = [(test, harness, seed, first // test.batch, count) for first, count in first_to_last(options.cases, test.batch)]
        for found in pool.imap(compared_generated, pieces):
            tally.add(found)
        counts = ", ".join("%s %d" % (group, tally.groups[group]) for group in test.groups)
        tally.say("%d generated %s, seed %d: %s" % (options.cases, test.noun, seed, counts))
        for group in test.groups:
            if tally.groups[group] == 0:
                tally.judge(False, "not one of the generated %s had the answer: %s" % (test.noun, group))

        edges = [case for case in edges if not case.is_slow]
        generated = [case for batch in range(PLANTED_BATCHES) for case in judged(test, test.generated(seed, batch, test.batch))]
        for path, (by_edges, by_generated) in zip(options.planted, pool.imap(told, [(path, [edges, generated]) for path in options.planted])):
            name = os.path.basename(path)
            good = (by_edges + by_generated > 0) != (name == "faithful")
            tally.judge(good, "planted %-20s %s by %d of %d edges and %d of %d generated %s" % (
                name, "told" if good else "NOT AS IT SHOULD BE: told", by_edges, len(edges), by_generated, len(generated), test.noun))

    print("%d passed, %d failed" % (tally.passed, tally.failed))
    return 0 if tally.failed == 0 and tally.passed > 0 else 1


# Texts written by hand

class Edge(NamedTuple):
    text: bytes
    expected: str
    why: str


EDGE = re.compile(r'"((?:[^"\\]|\\.)*)"\s+(ok \d+|refused \d+ at \d+)\s+(\S.*)')
ESCAPE = re.compile(r"\\(?:x([0-9a-f]{2})|\{(\d+)\*((?:[^}\\]|\\.)*)\}|([nt\\\"]))")
SIMPLE = {"n": "\n", "t": "\t", "\\": "\\", '"': '"'}


def unescaped(form: str) -> bytes:
    def one(escape: "re.Match[str]") -> str:
        if escape[1] is not None:
            return chr(int(escape[1], 16))
        if escape[2] is not None:
            return int(escape[2]) * ESCAPE.sub(one, escape[3])
        return SIMPLE[escape[4]]

    if "\\" in ESCAPE.sub("", form):
        raise ValueError("an unknown escape in " + form)
    return ESCAPE.sub(one, form).encode("latin-1")


def read_edges(path: str) -> List[Edge]:
    edges = []
    with open(path, encoding="ascii") as file:
        for number, line in enumerate(file, 1):
            line = line.strip()
            if line and not line.startswith("#"):
                parts = EDGE.fullmatch(line)
                if not parts:
                    raise SystemExit("%s:%d: not a case" % (path, number))
                edges.append(Edge(unescaped(parts[1]), parts[2], parts[3]))
    return edges


def shown(text: bytes, most: int = 600) -> str:
    named = {9: "\\t", 10: "\\n", 34: '\\"', 92: "\\\\"}
    form = "".join(named.get(byte, chr(byte) if 32 <= byte < 127 else "\\x%02x" % byte) for byte in text[:most])
    return '"%s"' % form + (" ... (%d bytes)" % len(text) if len(text) > most else "")
