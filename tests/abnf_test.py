"""Compare the library's listing check with the grammar of docs/RULES.md, 6.1, and with what 6.2 says besides: tests/abnf.sh says how.

A text has to be accepted exactly if the grammar derives it and the conditions hold, and then with as many records as it has entries that are one. Which
texts are asked: edges of the conditions; texts that are derived by chance; such texts with one node of the derivation broken; and the simplest record of
each form with one byte changed, left out or put in.
Every alternative and every bound of the grammar has to be met by a text that is accepted, and every rule has to be broken in one that is refused.
Then the comparison is tried: it has to tell each grammar of PLANTED, which has one thing changed, from the library.
"""

import argparse
import os
import random
import re
import sys
from collections import Counter
from typing import Dict, List, NamedTuple, Optional, Set, Tuple

import abnf
import compare
import listing_cases

RULES = os.path.join(os.path.dirname(os.path.abspath(__file__)), os.pardir, "docs", "RULES.md")
START = "listing"
SHOWN = 10  # differences that are printed
DERIVED, TRIES = 40, 6  # records from a planted grammar, and how often

# One thing changed in 6.1 or 6.2: what, the text that is there once, and what is put in its place
PLANTED = [
    ("parentheses nest", 'fold         = WSP /', 'fold         = "(" *fold ")" / WSP /'),
    ("a parenthesis may stay open", 'end-in       = closed [comment]', 'end-in       = *fold / closed [comment]'),
    ("parentheses hold words", 'space        = WSP / "(" *fold ")"', 'space        = WSP'),
    ("parentheses do not fold lines", 'fold         = WSP / [comment] LF', 'fold         = WSP'),
    ("a line end is a blank anywhere", 'space        = WSP /', 'space        = WSP / LF /'),
    ("a tab is not a blank", 'space        = WSP /', 'space        = SP /'),
    ("no comment inside parentheses", '[comment] LF\n', 'LF\n'),
    ("a comment has no end", '";" *(WSP / VCHAR)', '";" *(WSP / VCHAR / LF)'),
    ("any byte in a comment", '";" *(WSP / VCHAR)', '";" *(WSP / %x21-FF)'),
    ("a comment inside a line", 'apart        = 1*space', 'apart        = 1*space [comment LF 1*space]'),
    ("a carriage return before a line end", 'entry *(LF entry)', 'entry *([CR] LF entry)'),
    ("the last line has to end", 'entry *(LF entry)', '*(entry LF)'),
    ("a blank before the owner", 'record       = owner', 'record       = *WSP owner'),
    ("no dot at an owner's end", 'owner        = 1*(label ".")', 'owner        = *(label ".") label ["."]'),
    ("a label of 64 bytes", '1*63(ALPHA', '1*64(ALPHA'),
    ("a label of 62 bytes at most", '1*63(ALPHA', '1*62(ALPHA'),
    ("no upper case in a label", '1*63(ALPHA', '1*63(%x61-7A'),
    ("no underscore in a label", ' / "-" / "_")', ' / "-")'),
    ("IN in upper case alone", 'class-out    = type-out / "IN"', 'class-out    = type-out / %x49.4E'),
    ("IN twice", 'class-in     = type-in  / "IN" (folded type-in', 'class-in     = type-in  / "IN" (folded class-in'),
    ("IN is wanted", 'class-out    = type-out / "IN"', 'class-out    = "IN"'),
    ("another class", 'class-out    = type-out / "IN"', 'class-out    = type-out / ("IN" / "CH")'),
    ("types in upper case alone", 'type-out     = "A" ', 'type-out     = %x41 '),
    ("no data", 'a-out        = ipv4 end-out', 'a-out        = [ipv4] end-out'),
    ("a word after the data", 'a-in         = ipv4 end-in', 'a-in         = ipv4 [folded label] end-in'),
    ("leading zeros in an A", 'octet        = DIGIT /', 'octet        = *"0" DIGIT /'),
    ("256 in an A", '"25" %x30-35', '"25" %x30-36'),
    ("`::`", '1*4HEXDIG', '*4HEXDIG'),
    ("groups of five digits", '1*4HEXDIG', '1*5HEXDIG'),
    ("a DHCID in one word", '(end-out / apart  base64-out /', '(end-out /'),
    ("a space after `\\#` is not wanted", '"\\#" (apart  size-out', '"\\#" ([apart] size-out'),
    ("any size after `\\#`", 'size-out     = "35"', 'size-out     = 1*DIGIT'),
    ("an odd number of digits in a word", '1*(2HEXDIG)', '1*HEXDIG'),
    ("identifier type 3", '(%x41 / %x45 / %x49)', '(%x41 / %x45 / %x49 / %x4D)'),
    ("digest type 2", '(%x41 / %x45 / %x49) %x42', '(%x41 / %x45 / %x49) %x43'),
    ("one digit more", '42base64-digit', '43base64-digit'),
    ("spare bits that are not zero", '%x4D / %x51', '%x4D / %x4E / %x51'),
    ("no `=`", 'base64-last "="', 'base64-last ["="]'),
    ("a hexadecimal DHCID of 34 bytes", '64HEXDIG', '62HEXDIG'),
    ("a listing of a byte more", 'at most 65,536 bytes', 'at most 65,537 bytes'),
    ("a listing of a byte less", 'at most 65,536 bytes', 'at most 65,535 bytes'),
    ("an owner of a byte more", 'at most 254 bytes', 'at most 255 bytes'),
    ("an owner of a byte less", 'at most 254 bytes', 'at most 253 bytes'),
]


def section(rules: str, number: str) -> str:
    found = re.search(r"^### %s\. .*?(?=^##)" % re.escape(number), rules, re.M | re.S)
    if not found:
        raise SystemExit("abnf: docs/RULES.md has no section %s" % number)
    return found[0]


def grammar_of(rules: str) -> abnf.Grammar:
    block = re.search(r"^```abnf\n(.*?)^```", section(rules, "6.1"), re.M | re.S)
    if not block:
        raise SystemExit("abnf: section 6.1 has no block of ABNF")
    return abnf.Grammar(block[1], abnf.conditions_of(section(rules, "6.2")))


def changed(rules: str, old: str, new: str) -> Optional[str]:
    """The rules with one thing of 6.1 or 6.2 changed, if it is there just once."""
    parts = section(rules, "6.1") + section(rules, "6.2")
    if parts.count(old) != 1 or parts not in rules:
        return None
    return rules.replace(parts, parts.replace(old, new))


def record_point(grammar: abnf.Grammar) -> str:
    """The alternative of `entry` that is a record."""
    entry = grammar.rules["entry"]
    return next(name for part, name in zip(entry.parts, entry.names) if part.name == "record")


def records_of(grammar: abnf.Grammar, text: bytes) -> Optional[int]:
    """How many records the text has by the grammar; none if it is no listing."""
    if len(text) > grammar.lengths[START].most:  # the longest texts need not be read for that
        return None
    recognizer = abnf.Recognizer(grammar, text)
    return recognizer.times(START, record_point(grammar)) if recognizer.accepts(START) else None


class Library:
    def __init__(self, harness: str):
        self.harness = harness
        self.answers: Dict[bytes, str] = {}

    def ask(self, texts: List[bytes]) -> List[str]:
        new = [text for text in dict.fromkeys(texts) if text not in self.answers]
        self.answers.update(zip(new, compare.ask(self.harness, [listing_cases.line(text) for text in new])))
        return [self.answers[text] for text in texts]


def agree(answer: str, records: Optional[int]) -> bool:
    return answer == "ok %d" % records if records is not None else re.fullmatch(r"refused \d+ at \d+", answer) is not None


# Texts

class Edge(NamedTuple):
    text: bytes
    refusal: Optional[int]  # the number that 6.2 gives; none where the text is a listing


def owner(length: int) -> bytes:
    """An owner of so many bytes in labels of 63, and what is left."""
    return (b"a" * 63 + b".") * (length // 64) + (b"a" * (length % 64 - 1) + b"." if length % 64 else b"")


def edges(grammar: abnf.Grammar) -> List[Edge]:
    """Both sides of each condition of 6.2. An owner's label and a DHCID's digits are the simplest that there are."""
    made = []
    for rule, (most, refusal) in {c.rule: c[1:] for c in grammar.lengths.values()}.items():
        for length in (most - 1, most, most + 1):
            over = refusal if length > most else None
            if rule == "owner":
                made.append(Edge(owner(length) + b" A 192.0.2.7", over))
            else:
                made.append(Edge(b"a. A 192.0.2.7\n;".ljust(length, b"x"), over))
    for joint in grammar.joints:
        form, whole, typed = (b"", b"AAAB" + b"A" * 43 + b"=", b"AAMB") if joint.part == "base64-word" else (b"\\# 35 ", b"000001" + b"0" * 64, b"0003")
        wrong = (whole + whole[-2:], whole[:-2], typed + whole[4:])
        for text, refusal in [(whole, None), (whole[:8] + b" " + whole[8:], None)] + [(text, joint.refusal) for text in wrong]:
            made.append(Edge(b"a. DHCID " + form + text, refusal))
    return made


# The simplest record of each form, and what is at its beginning and at its end
SIMPLE = [b"a. A 1.2.3.4", b"a. AAAA 1:2:3:4:5:6:7:8", b"a. DHCID AAAB" + b"A" * 43 + b"=", b"a. DHCID \\# 35 000001" + b"0" * 64]
BEGINNING, END = 24, 4


def neighbours() -> List[bytes]:
    """Each simple record with one byte another one, left out, or put in, wherever that is not in the middle of a DHCID's digits."""
    made = []
    for text in SIMPLE:
        for at in range(len(text) + 1):
            if at < BEGINNING or at > len(text) - END:
                made += [text[:at] + stray + text[at + more:] for stray in [b""] + [bytes([byte]) for byte in abnf.STRAYS] for more in (0, 1)]
    return list(dict.fromkeys(made))


# The comparison

class Count:
    def __init__(self) -> None:
        self.passed = self.failed = 0

    def add(self, right: bool, said: str) -> None:
        self.passed += right
        self.failed += not right
        if not right and self.failed <= SHOWN:
            print("abnf: " + said)


def compare_edges(count: Count, grammar: abnf.Grammar, library: Library) -> None:
    made = edges(grammar)
    for edge, answer in zip(made, library.ask([edge.text for edge in made])):
        records = records_of(grammar, edge.text)
        right = agree(answer, records) and (answer == "refused %d at 0" % edge.refusal if edge.refusal else records is not None)
        count.add(right, "%s; by 6.2: %s\n    %s" % (answer, edge.refusal or "accepted", compare.shown(edge.text)))


def compare_derived(count: Count, grammar: abnf.Grammar, library: Library, texts: List[bytes]) -> List[bytes]:
    """Some of the texts, which meet together all of the grammar that they all meet."""
    met: Set[str] = set()
    few = []
    for text, answer in zip(texts, library.ask(texts)):
        recognizer = abnf.Recognizer(grammar, text)
        is_derived = recognizer.accepts(START)
        count.add(is_derived and agree(answer, recognizer.times(START, record_point(grammar))), "derived, but: %s\n    %s" % (answer, compare.shown(text)))
        points = recognizer.met(START) if is_derived else set()
        few += [text] if points - met else []
        met |= points
    rules = grammar.reachable(START)
    wanted = grammar.points(rules)
    count.add(met >= wanted, "no text meets: " + ", ".join(sorted(wanted - met)))
    print("abnf: %d texts derived; they meet %d of the %d alternatives and bounds of %d rules" % (len(texts), len(met & wanted), len(wanted), len(rules)))
    return few


def compare_broken(count: Count, grammar: abnf.Grammar, library: Library, broken: List[Tuple[str, bytes]]) -> None:
    """Of each text the rule that is broken in it, if that is known."""
    refused: "Counter[str]" = Counter()
    for (rule, text), answer in zip(broken, library.ask([text for _, text in broken])):
        records = records_of(grammar, text)
        said = "no listing" if records is None else "%d records" % records
        count.add(agree(answer, records), "%s; the grammar: %s\n    %s" % (answer, said, compare.shown(text)))
        refused[rule] += records is None
    refused = +refused
    wanted = grammar.reachable(START) - {START, "entry"}  # what is broken is one entry
    count.add(set(refused) >= wanted, "never broken and refused: " + ", ".join(sorted(wanted - set(refused))))
    print("abnf: %d texts with something broken: %d are refused, %d are listings still; each of %d rules is broken in one that is refused"
          % (len(broken), sum(refused.values()), len(broken) - sum(refused.values()), len(wanted & set(refused))))


def telling(grammar: abnf.Grammar, library: Library, rng: random.Random, few: List[bytes]) -> Optional[bytes]:
    """A text that tells the grammar from the library: one that it derives, one that the right grammar derives, or an edge of its conditions."""
    def wrong(texts: List[bytes]) -> Optional[bytes]:
        return next((text for text, answer in zip(texts, library.ask(texts)) if not agree(answer, records_of(grammar, text))), None)

    deriver = abnf.Deriver(grammar, rng)
    for turn in range(TRIES):
        texts = [deriver.text("record") for _ in range(DERIVED)] + [deriver.text(START) for _ in range(DERIVED // 5)]
        refused = [text for text, answer in zip(texts, library.ask(texts)) if answer.startswith("refused")]
        found = wrong(refused[:1]) or (wrong(few) if turn == 0 else None)
        if found is not None:
            return found
    return wrong(sorted((edge.text for edge in edges(grammar)), key=len))


def main() -> int:
    parser = argparse.ArgumentParser(description=__doc__.splitlines()[0])
    parser.add_argument("--harness", required=True)
    parser.add_argument("--planted", nargs="*")  # shims, of which there are none here
    parser.add_argument("--seed", type=int, required=True)
    parser.add_argument("--cases", type=int, required=True)
    parser.add_argument("--jobs", type=int)
    given = parser.parse_args()
    sys.setrecursionlimit(20000)
    with open(RULES, encoding="ascii") as file:
        rules = file.read()
    count, library = Count(), Library(given.harness)
    grammar = grammar_of(rules)
    deriver = abnf.Deriver(grammar, random.Random(given.seed))
    compare_edges(count, grammar, library)
    few = compare_derived(count, grammar, library, [deriver.text(START) for _ in range(given.cases // 5)])
    compare_broken(count, grammar, library, [deriver.broken("entry") for _ in range(given.cases * 4 // 5)] + [("", text) for text in neighbours()])
    missed = []
    for what, old, new in PLANTED:
        other = changed(rules, old, new)
        if other is None or telling(grammar_of(other), library, random.Random(given.seed), few) is None:
            missed.append(what + ("" if other else " (cannot be planted)"))
    count.passed += len(PLANTED) - len(missed)
    count.failed += len(missed)
    print("abnf: told from the library: %d of %d grammars with one thing changed" % (len(PLANTED) - len(missed), len(PLANTED)))
    for what in missed:
        print("abnf: not told: " + what)
    print("%d passed, %d failed" % (count.passed, count.failed))
    return 1 if count.failed else 0


if __name__ == "__main__":
    sys.exit(main())
