"""Grammars in RFC 5234's ABNF: read, recognize texts, derive texts by chance.

    grammar = Grammar(block, conditions)     the rules of a block of ABNF, and what has to hold besides
    conditions_of(table)                     conditions, from the rows of a table in Markdown
    Recognizer(grammar, text).accepts(rule)  does the rule derive the whole text, and do the conditions hold?
    Recognizer(..).met(rule)                 the points of the grammar that the text then meets: alternatives, and bounds of repetitions and ranges
    Recognizer(..).times(rule, point)        how often it meets one that is an alternative
    Deriver(grammar, rng).text(rule)         a text that the rule derives
    Deriver(grammar, rng).broken(rule)       a text that it derives but for one node of the derivation, and the rule of that node; the recognizer says
                                             whether the text is derived otherwise

The ABNF that is read: rules, alternatives, groups, options, repetitions, text in quotes, %x with a value, a range or several values. The recognizer
wants a grammar without left recursion. Nothing here knows of listings.
"""

import random
import re
from collections import Counter
from typing import Any, Dict, FrozenSet, Iterator, List, NamedTuple, Optional, Set, Tuple

# RFC 5234, B.1
CORE = """
ALPHA  = %x41-5A / %x61-7A
CR     = %x0D
DIGIT  = %x30-39
HEXDIG = DIGIT / "A" / "B" / "C" / "D" / "E" / "F"
HTAB   = %x09
LF     = %x0A
SP     = %x20
VCHAR  = %x21-7E
WSP    = SP / HTAB
"""

# Bytes that a broken derivation puts where they do not belong: what the grammars at hand treat apart, and what none of them has
STRAYS = b"\x00\t\n\r !#()*+-./059:;=@AGINZ\\_`agiz~\x7f\x80\xff"

# The ends that a node derives from an offset; with each the words that have to be something when they are joined, and a tree of the points met on the
# way: a point's name, or a tuple of trees, or a Run
Ends = Dict[int, Tuple[Tuple[Tuple[str, bytes], ...], Any]]
NONE: Ends = {}


class Run(NamedTuple):
    """Single bytes, one after the other, which are taken apart only if somebody asks for their points."""
    node: "Repeat"
    start: int
    end: int


# What a grammar is made of. Each node has a number, and is a part of one rule.

class Node:
    first: FrozenSet[int] = frozenset()  # the bytes that it can begin with
    is_empty = False  # whether it derives no bytes as well
    single: Optional[Dict[int, Tuple]] = None  # where it derives single bytes alone: these, each with the points that it meets

    def __init__(self, rule: str, number: int):
        self.rule = rule
        self.number = number

    def point(self, what: str) -> str:
        return "%s #%d %s" % (self.rule, self.number, what)

    def points(self) -> List[str]:
        """What has to be met of it: each alternative, the bounds of a repetition, the ends of a range, letters in both cases."""
        return []

    def may_begin(self, text: bytes, at: int) -> bool:
        return self.is_empty or at < len(text) and text[at] in self.first

    def ends(self, reader: "Recognizer", at: int) -> Ends:
        if not self.may_begin(reader.text, at):
            return NONE
        if self.single is not None:
            return {at + 1: ((), self.single[reader.text[at]])}
        return self.long_ends(reader, at)

    def long_ends(self, reader: "Recognizer", at: int) -> Ends:
        raise NotImplementedError

    def learn(self, grammar: "Grammar") -> None:
        """Sets first and is_empty, as far as they are known of its parts."""
        raise NotImplementedError

    def learn_single(self, grammar: "Grammar") -> None:
        pass


class Bytes(Node):
    """So many bytes, each one of a set: text in quotes, or a %x."""
    def __init__(self, rule: str, number: int, sets: List[FrozenSet[int]]):
        super().__init__(rule, number)
        self.sets = sets
        self.is_text = any(len(s) == 2 and max(s) - min(s) == 32 for s in sets)
        self.is_range = not self.is_text and len(sets) == 1 and len(sets[0]) > 1
        self.first = sets[0]

    def points(self) -> List[str]:
        return [self.point(name) for name in (["upper", "lower"] if self.is_text else ["first", "last"] if self.is_range else [])]

    def met(self, matched: bytes) -> Tuple:
        if self.is_text:
            ways = [("upper", matched != matched.lower()), ("lower", matched != matched.upper())]
        elif self.is_range:
            ways = [("first", matched[0] == min(self.sets[0])), ("last", matched[0] == max(self.sets[0]))]
        else:
            ways = []
        return tuple(self.point(name) for name, is_met in ways if is_met)

    def learn(self, grammar: "Grammar") -> None:
        pass

    def learn_single(self, grammar: "Grammar") -> None:
        if len(self.sets) == 1:
            self.single = {byte: self.met(bytes([byte])) for byte in self.sets[0]}

    def long_ends(self, reader: "Recognizer", at: int) -> Ends:
        matched = reader.text[at:at + len(self.sets)]
        if len(matched) < len(self.sets) or any(byte not in allowed for byte, allowed in zip(matched, self.sets)):
            return NONE
        return {at + len(self.sets): ((), self.met(matched))}


class Choice(Node):
    def __init__(self, rule: str, number: int, parts: List[Node]):
        super().__init__(rule, number)
        self.parts = parts
        self.names = [self.point("alternative %d" % (i + 1)) for i in range(len(parts))]

    def points(self) -> List[str]:
        return self.names

    def learn(self, grammar: "Grammar") -> None:
        self.first = frozenset().union(*(part.first for part in self.parts))
        self.is_empty = any(part.is_empty for part in self.parts)

    def learn_single(self, grammar: "Grammar") -> None:
        if all(part.single is not None for part in self.parts):
            self.single = {byte: (name, met) for part, name in reversed(list(zip(self.parts, self.names))) for byte, met in part.single.items()}

    def long_ends(self, reader: "Recognizer", at: int) -> Ends:
        found: Ends = {}
        for part, name in zip(self.parts, self.names):
            for end, (words, tree) in part.ends(reader, at).items():
                if end not in found:
                    found[end] = words, (name, tree)
        return found


class Chain(Node):
    def __init__(self, rule: str, number: int, parts: List[Node]):
        super().__init__(rule, number)
        self.parts = parts

    def learn(self, grammar: "Grammar") -> None:
        self.is_empty = all(part.is_empty for part in self.parts)
        first: Set[int] = set()
        for part in self.parts:
            first |= part.first
            if not part.is_empty:
                break
        self.first = frozenset(first)

    def long_ends(self, reader: "Recognizer", at: int) -> Ends:
        found: Ends = {at: ((), ())}
        for part in self.parts:
            after: Ends = {}
            for start, (before, trees) in found.items():
                for end, (words, tree) in part.ends(reader, start).items():
                    if end not in after:
                        after[end] = before + words, (trees, tree)
            found = after
        return found


class Repeat(Node):
    def __init__(self, rule: str, number: int, part: Node, least: int, most: Optional[int]):
        super().__init__(rule, number)
        self.part, self.least, self.most = part, least, most
        self.bounds = {} if most == least else {least: self.point("least"), most: self.point("most")} if most is not None else {least: self.point("least")}
        self.beyond = self.point("more") if most is None else ""

    def points(self) -> List[str]:
        return list(self.bounds.values()) + ([self.beyond] if self.beyond else [])

    def met(self, count: int) -> Tuple:
        return (self.bounds[count],) if count in self.bounds else (self.beyond,) if self.beyond else ()

    def learn(self, grammar: "Grammar") -> None:
        self.first = self.part.first
        self.is_empty = self.least == 0 or self.part.is_empty

    def long_ends(self, reader: "Recognizer", at: int) -> Ends:
        if self.part.single is not None:
            return self.run(reader.text, at)
        reached: Ends = {at: ((), ())}
        found: Ends = {at: ((), self.met(0))} if self.least == 0 else {}
        count = 0
        while reached and count != self.most:
            count += 1
            after: Ends = {}
            for start, (before, trees) in reached.items():
                for end, (words, tree) in self.part.ends(reader, start).items():
                    if end not in after and end not in found:
                        after[end] = before + words, (trees, tree)
            if count >= self.least:
                for end, (words, trees) in after.items():
                    found[end] = words, (trees, self.met(count))
            reached = after
        return found

    def run(self, text: bytes, at: int) -> Ends:
        last = len(text) if self.most is None else min(len(text), at + self.most)
        end = at
        while end < last and text[end] in self.part.single:
            end += 1
        return {i: ((), Run(self, at, i)) for i in range(at + self.least, end + 1)}


class Call(Node):
    def __init__(self, rule: str, number: int, name: str):
        super().__init__(rule, number)
        self.name = name

    def learn(self, grammar: "Grammar") -> None:
        called = grammar.rules[self.name]
        self.first, self.is_empty = called.first, called.is_empty

    def learn_single(self, grammar: "Grammar") -> None:
        if self.name not in grammar.conditioned:
            self.single = grammar.rules[self.name].single

    def long_ends(self, reader: "Recognizer", at: int) -> Ends:
        return reader.rule(self.name, at)


# What has to hold besides

class Length(NamedTuple):
    rule: str
    most: int
    refusal: int


class Joined(NamedTuple):
    """The words that `part` derives in one `rule`, joined, are a `whole`, if there are any."""
    rule: str
    part: str
    whole: str
    refusal: int


Conditions = Tuple[List[Length], List[Joined]]


def conditions_of(table: str) -> Conditions:
    lengths, joints = [], []
    for row in re.findall(r"^\| `.*\|$", table, re.M):
        length = re.fullmatch(r"\| `([\w-]+)` \| It has at most ([\d,]+) bytes: (\d+)\. \|", row)
        joint = re.fullmatch(r"\| `([\w-]+)` \| Its `([\w-]+)`s, joined in their order, are a `([\w-]+)`, if it has any: (\d+)\. \|", row)
        if length:
            lengths.append(Length(length[1], int(length[2].replace(",", "")), int(length[3])))
        elif joint:
            joints.append(Joined(joint[1], joint[2], joint[3], int(joint[4])))
        else:
            raise SyntaxError("no condition that can be read: " + row)
    return lengths, joints


# Reading ABNF

TOKEN = re.compile(r"""\s*(?:;[^\n]*\s*)*(?:
    (?P<text>"[\x20\x21\x23-\x7e]*") | %x(?P<values>[0-9A-Fa-f]+(?:-[0-9A-Fa-f]+|(?:\.[0-9A-Fa-f]+)*)) |
    (?P<repeat>\d*\*\d*|\d+) | (?P<name>[A-Za-z][A-Za-z0-9-]*) | (?P<sign>[=/()\[\]]) | (?P<end>$))""", re.X)


class Grammar:
    def __init__(self, block: str, conditions: Conditions):
        self.rules: Dict[str, Node] = {}
        self.nodes: List[Node] = []
        self.lengths = {condition.rule: condition for condition in conditions[0]}
        self.joints = conditions[1]
        self.parts = {joint.part for joint in self.joints}
        self.conditioned = set(self.lengths) | self.parts | {joint.rule for joint in self.joints}
        for text in (CORE, block):
            self.read(text)
        called = {node.name for node in self.nodes if isinstance(node, Call)} | self.conditioned | {joint.whole for joint in self.joints}
        if not called <= set(self.rules):
            raise SyntaxError("no such rules: " + ", ".join(sorted(called - set(self.rules))))
        self.learn()

    def read(self, block: str) -> None:
        # a rule begins at the left margin, and what is indented goes on with it
        for text in re.findall(r"^[A-Za-z].*\n(?:[ \t]+.*\n|\n|;.*\n)*", block + "\n", re.M):
            self.tokens = list(TOKEN.finditer(text))
            if sum(len(token[0]) for token in self.tokens) != len(text):
                raise SyntaxError("no ABNF that can be read: " + text)
            self.at = 0
            self.rule = self.take("name")
            if self.take("sign") != "=" or self.rule in self.rules:
                raise SyntaxError("no rule, or one that is there twice: " + text)
            self.rules[self.rule] = self.alternation()
            self.take("end")

    def learn(self) -> None:
        """What each node can begin with, by going round until nothing is added; then which derive single bytes."""
        known: List[Tuple] = []
        while True:
            for node in self.nodes:
                node.learn(self)
            now = [(node.first, node.is_empty) for node in self.nodes]
            if now == known:
                break
            known = now
        for _ in range(4):  # a rule of single bytes may call another one
            for node in self.nodes:
                node.learn_single(self)

    def peek(self, kind: str) -> Optional[str]:
        return self.tokens[self.at].group(kind)

    def take(self, kind: str, value: Optional[str] = None) -> str:
        token = self.peek(kind)
        if token is None or value not in (None, token):
            raise SyntaxError("%s: %s is missing" % (self.rule, value or kind))
        self.at += 1
        return token

    def node(self, kind: Any, *given: Any) -> Node:
        made = kind(self.rule, len(self.nodes), *given)
        self.nodes.append(made)
        return made

    def alternation(self) -> Node:
        parts = [self.concatenation()]
        while self.peek("sign") == "/":
            self.at += 1
            parts.append(self.concatenation())
        return parts[0] if len(parts) == 1 else self.node(Choice, parts)

    def concatenation(self) -> Node:
        parts = []
        while self.peek("end") is None and self.peek("sign") not in ("/", ")", "]"):
            parts.append(self.repetition())
        if not parts:
            raise SyntaxError(self.rule + ": an alternative of nothing")
        return parts[0] if len(parts) == 1 else self.node(Chain, parts)

    def repetition(self) -> Node:
        repeat = self.peek("repeat")
        if repeat is None:
            return self.element()
        self.at += 1
        least, star, most = repeat.partition("*")
        part = self.element()
        return self.node(Repeat, part, int(least or 0), (int(most) if most else None) if star else int(least))

    def element(self) -> Node:
        sign, text, values = self.peek("sign"), self.peek("text"), self.peek("values")
        if sign in ("(", "["):
            self.at += 1
            part = self.alternation()
            self.take("sign", ")" if sign == "(" else "]")
            return part if sign == "(" else self.node(Repeat, part, 0, 1)
        if text is not None:
            self.at += 1
            return self.node(Bytes, [frozenset((c.lower() + c.upper()).encode()) for c in text[1:-1]])
        if values is not None:
            self.at += 1
            first, dash, last = values.partition("-")
            sets = [range(int(first, 16), int(last, 16) + 1)] if dash else [[int(value, 16)] for value in values.split(".")]
            return self.node(Bytes, [frozenset(allowed) for allowed in sets])
        return self.node(Call, self.take("name"))

    def reachable(self, start: str) -> Set[str]:
        """The rules that are used in deriving this one, and what words are when they are joined."""
        reached: Set[str] = set()
        waiting = [start] + [joint.whole for joint in self.joints]
        while waiting:
            rule = waiting.pop()
            if rule not in reached:
                reached.add(rule)
                waiting += [node.name for node in self.nodes if isinstance(node, Call) and node.rule == rule]
        return reached

    def points(self, rules: Set[str]) -> Set[str]:
        return {point for node in self.nodes if node.rule in rules for point in node.points()}


# Recognizing

class Recognizer:
    def __init__(self, grammar: Grammar, text: bytes):
        self.grammar, self.text = grammar, text
        self.memo: Dict[Tuple[str, int], Ends] = {}

    def accepts(self, rule: str) -> bool:
        return len(self.text) in self.rule(rule, 0)

    def met(self, rule: str) -> Set[str]:
        points: Set[str] = set()
        for leaf in self.leaves(rule):
            points.update(self.taken_apart(leaf) if isinstance(leaf, Run) else [leaf])
        return points

    def times(self, rule: str, point: str) -> int:
        return sum(leaf == point for leaf in self.leaves(rule))

    def leaves(self, rule: str) -> Iterator[Any]:
        waiting = [self.rule(rule, 0)[len(self.text)][1]]
        while waiting:
            this = waiting.pop()
            if isinstance(this, tuple) and not isinstance(this, Run):
                waiting += this
            else:
                yield this

    def taken_apart(self, run: Run) -> Iterator[str]:
        waiting: List[Any] = [run.node.met(run.end - run.start)] + [run.node.part.single[byte] for byte in set(self.text[run.start:run.end])]
        while waiting:
            this = waiting.pop()
            if isinstance(this, str):
                yield this
            else:
                waiting += this

    def rule(self, name: str, at: int) -> Ends:
        key = name, at
        if key not in self.memo:
            self.memo[key] = self.judged(name, at, self.grammar.rules[name].ends(self, at))
        return self.memo[key]

    def judged(self, name: str, at: int, ends: Ends) -> Ends:
        """Those of the ends for which the conditions hold, with the word that they make."""
        if name not in self.grammar.conditioned:
            return ends
        if name in self.grammar.lengths:
            most = self.grammar.lengths[name].most
            ends = {end: met for end, met in ends.items() if end - at <= most}
        if name in self.grammar.parts:
            ends = {end: (((name, self.text[at:end]),), tree) for end, (_, tree) in ends.items()}
        for joint in self.grammar.joints:
            if joint.rule == name:
                ends = self.joined(joint, ends)
        return ends

    def joined(self, joint: Joined, ends: Ends) -> Ends:
        kept: Ends = {}
        wholes: Dict[bytes, Optional[Recognizer]] = {}
        for end, (words, tree) in ends.items():
            text = b"".join(word for part, word in words if part == joint.part)
            if text and text not in wholes:
                whole = Recognizer(self.grammar, text)
                wholes[text] = whole if whole.accepts(joint.whole) else None
            if not text:
                kept[end] = words, tree
            elif wholes[text]:
                kept[end] = words, (tree, tuple(wholes[text].met(joint.whole)))
        return kept


# Deriving

class Open(NamedTuple):
    """A word that is not chosen yet: its rule, once it is derived, fills it."""
    part: str


class Deriver:
    """Texts by chance. Of words that have to be something when they are joined, that is derived first, and then cut."""
    def __init__(self, grammar: Grammar, rng: random.Random):
        self.grammar, self.rng = grammar, rng
        self.passed: List[str] = []  # of each node so far, in this derivation, the rule that it is a part of
        self.breaking: Optional[int] = None  # the node that is broken
        self.times: "Counter[str]" = Counter()  # how often a node of each rule was broken so far

    def text(self, rule: str) -> bytes:
        while True:
            self.passed = []
            try:
                return self.closed(self.derived(rule))
            except OverflowError:  # too long, or in too many words
                pass

    def broken(self, rule: str) -> Tuple[str, bytes]:
        """The derivation is made twice, by the same chances, and the second time one of its nodes is broken: the node's rule, and the text. It is the turn
        of the rule that was broken least often."""
        before = self.rng.getstate()
        self.text(rule)
        where = min(sorted(set(self.passed)), key=lambda name: self.times[name])
        self.times[where] += 1
        self.breaking = self.rng.choice([i for i, passed in enumerate(self.passed) if passed == where])
        self.rng.setstate(before)
        text = self.text(rule)
        self.breaking = None
        return where, text

    def breaks(self, rule: str) -> bool:
        """Whether it is the turn of this node, of that rule."""
        self.passed.append(rule)
        return len(self.passed) - 1 == self.breaking

    def stray(self, but: FrozenSet[int] = frozenset()) -> bytes:
        return bytes([self.rng.choice([byte for byte in STRAYS if byte not in but])])

    def derived(self, name: str) -> List[Any]:
        if name in self.grammar.parts:
            return [Open(name)]
        items = self.items(self.grammar.rules[name])
        for joint in self.grammar.joints:
            if joint.rule == name:
                items = self.filled(items, joint)
        length = self.grammar.lengths.get(name)
        if length and self.breaking is None and sum(len(item) for item in items) > length.most:
            raise OverflowError
        return items

    def items(self, node: Node) -> List[Any]:
        if isinstance(node, Call):
            return self.derived(node.name)
        breaks = self.breaks(node.rule)
        if isinstance(node, Bytes):
            return [self.bytes(node, breaks)]
        if isinstance(node, Choice):
            return self.derived(self.rng.choice(sorted(self.grammar.rules))) if breaks else self.items(self.rng.choice(node.parts))
        if isinstance(node, Chain):
            return [item for part in self.parts(node, breaks) for item in self.items(part)]
        assert isinstance(node, Repeat)
        items = [item for _ in range(self.count(node, breaks)) for item in self.items(node.part)]
        return items + [self.stray()] if breaks and node.least == 0 and node.most is None else items

    def bytes(self, node: Bytes, breaks: bool) -> bytes:
        made = bytearray(self.byte(allowed) for allowed in node.sets)
        if breaks:
            at = self.rng.randrange(len(made))
            made[at:at + 1] = self.rng.choice((b"", self.stray(node.sets[at]), bytes([made[at], made[at]])))
        return bytes(made)

    def byte(self, allowed: FrozenSet[int]) -> int:
        some = sorted(allowed)
        return self.rng.choice((some[0], some[-1], self.rng.choice(some), self.rng.choice(some)))

    def parts(self, node: Chain, breaks: bool) -> List[Node]:
        """One left out, one twice, or two the other way round, where it is broken."""
        parts = list(node.parts)
        if breaks:
            at = self.rng.randrange(len(parts))
            way = self.rng.randrange(3)
            if way == 0:
                del parts[at]
            elif way == 1:
                parts.insert(at, parts[at])
            else:
                parts[at], parts[at - 1] = parts[at - 1], parts[at]
        return parts

    def count(self, node: Repeat, breaks: bool) -> int:
        """One too few or one too many, where it is broken and has such a bound."""
        beyond = ([node.least - 1] if node.least > 0 else []) + ([node.most + 1] if node.most is not None else [])
        if breaks and beyond:
            return self.rng.choice(beyond)
        if node.most is None:
            return node.least + self.rng.choice((0, 0, 0, 1, 1, 2, 3))
        few = min(node.most, node.least + 8)
        return self.rng.choice((node.least, node.most, self.rng.randint(node.least, few), self.rng.randint(node.least, few)))

    def filled(self, items: List[Any], joint: Joined) -> List[Any]:
        holes = [i for i, item in enumerate(items) if isinstance(item, Open) and item.part == joint.part]
        if not holes:
            return items
        whole = self.closed(self.derived(joint.whole))
        cuts = [end for end in Recognizer(self.grammar, whole).rule(joint.part, 0) if end < len(whole)]
        if self.breaks(joint.part):
            at = self.rng.randrange(len(whole))
            whole, cuts = self.rng.choice((whole, whole[:at] + self.stray() + whole[at:])), list(range(1, len(whole)))
        if len(cuts) < len(holes) - 1:
            raise OverflowError
        ends = sorted(self.rng.sample(cuts, len(holes) - 1)) + [len(whole)]
        filled = list(items)
        for hole, start, end in zip(holes, [0] + ends, ends):
            filled[hole] = whole[start:end]
        return filled

    def closed(self, items: List[Any]) -> bytes:
        """The bytes. A word is still open if a broken derivation put it where no rule fills it."""
        return b"".join(b"".join(self.items(self.grammar.rules[item.part])) if isinstance(item, Open) else item for item in items)
