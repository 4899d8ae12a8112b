"""The pictures of the crates in the documents against crates.txt.

    python3 -B tests/picture.py CRATES FILE..    a line for each fact that does not hold; then how many facts were compared

A picture is a code block of the documents. In one that is marked `layers` every word in small letters is a crate: each crate of the list is there once, and on
a line above all that it uses. In one that is marked `way` a line has a crate, after an arrow or at the line's beginning, and then what it does, in words. An arrow
`->` leads there from the crate above it that is less far to the right, which uses it, directly or through others; an arrow `<-` leads the other way."""

import re
import sys

from comparison import Comparison
from crates_list import crates_list


def crates_of(path):
    """Each crate, with all that it uses, directly or through others. What the list uses and does not list is the toolchain's."""
    direct = crates_list(path)
    uses = {}

    def below(name):
        if name not in uses:
            uses[name] = set()
            for other in direct[name] & direct.keys():
                uses[name] |= {other} | below(other)
        return uses[name]

    for name in direct:
        below(name)
    return uses


def pictures(path):
    """The code blocks with a mark: where the block begins, the mark, the lines."""
    with open(path, encoding="utf-8") as file:
        lines = file.read().split("\n")
    mark = None
    for number, line in enumerate(lines, 1):
        if line.startswith("```"):
            if mark is None:
                mark, begin, block = line[3:].strip(), number, []
            else:
                if mark in ("layers", "way"):
                    yield begin, mark, block
                mark = None
        elif mark is not None:
            block.append(line)
    if mark is not None:
        yield begin, mark, block


def layers(result, where, uses, block):
    stands = {}
    for row, line in enumerate(block):
        for word in re.findall(r"[a-z]\w*", line):
            stands.setdefault(word, []).append(row)
    for word in stands:
        result.fact(word in uses, f"{where}: {word} is not a crate")
    for name in uses:
        result.fact(len(stands.get(name, [])) == 1, f"{where}: {name} is there {len(stands.get(name, []))} times, and not once")
    for name in uses:
        for other in uses[name]:
            if name in stands and other in stands:
                result.fact(max(stands[name]) < min(stands[other]), f"{where}: {name} uses {other}, and is not above it")


def way(result, where, uses, block):
    above = []
    arrows = 0
    for line in block:
        if not line.strip():
            continue
        found = re.match(r"([ |]*\+(->|<-) )?([a-z]\w*)(  |$)", line)
        if not found:
            result.fact(False, f"{where}: not a line of a way: {line}")
            continue
        column, arrow, name = found.start(3), found.group(2), found.group(3)
        result.fact(name in uses, f"{where}: {name} is not a crate")
        while above and above[-1][0] >= column:
            above.pop()
        if arrow is not None:
            arrows += 1
            if not above:
                result.fact(False, f"{where}: an arrow to {name} from nowhere")
            elif arrow == "->":
                result.fact(name in uses.get(above[-1][1], ()), f"{where}: an arrow from {above[-1][1]} to {name}, which it does not use")
            else:
                result.fact(above[-1][1] in uses.get(name, ()), f"{where}: an arrow from {name} to {above[-1][1]}, which it does not use")
        above.append((column, name))
    result.fact(arrows > 0, f"{where}: a way without arrows")


def main():
    uses = crates_of(sys.argv[1])
    result = Comparison()
    marks = []
    for path in sys.argv[2:]:
        for begin, mark, block in pictures(path):
            marks.append(mark)
            (layers if mark == "layers" else way)(result, f"{path}, line {begin}", uses, block)
    result.fact(len(uses) > 0, f"{sys.argv[1]}: no crate")
    result.fact(marks.count("layers") == 1, f"{marks.count('layers')} pictures of the layers, and not one")
    result.fact(marks.count("way") > 1, f"{marks.count('way')} ways, and not one for requests and one for listings")
    for fault in result.faults:
        print(fault)
    print(f"{result.facts} facts, {len(result.faults)} do not hold")
    return 1 if result.faults else 0


sys.exit(main())
