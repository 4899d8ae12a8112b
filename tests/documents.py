"""The documents, as text: the length of their lines, and what they lead to.

    python3 -B tests/documents.py ROOT FILE..    a line for each fact that does not hold; then how many facts were compared

- A line has at most 120 characters, but for the rows of tables, code and what a reader does not see (`<!-- .. -->`).
- A link leads to a file that is there, and its anchor to a heading of that file.
- A path in backquotes that begins with a folder of the repository leads to something that is there. Words in capitals and stars stand for others.
- A code block behind the line `<!-- FILE -->` is that file. Behind `<!-- lines of FILE.. -->` its lines are lines of these files, in their order;
  one that ends in `..` is the beginning of such a line.
- A code block behind the line `<!-- run -->` has commands after `$ `, and behind each what it prints, both streams, when it is run in the repository.
- README.md of the root has at most 150 lines."""

import os
import re
import subprocess
import sys
from pathlib import Path

from comparison import Comparison

LONGEST = 120
README_LINES = 150
FOLDERS = "bench|crates|docs|examples|include|man|tests|tools"
PATH = re.compile(rf"`((?:{FOLDERS})/[\w./-]*[\w/])`")
LINK = re.compile(r"\[[^\]]*\]\(([^)\s]+)\)")
ELSEWHERE = re.compile(r"[a-z]+:")


def parts(lines):
    """Each line of prose or of a table with its number, and each code block: (number, line, None) or (number, mark, block)."""
    inside, mark, begin, block = False, "", 0, []
    before = ""
    for number, line in enumerate(lines, 1):
        if line.startswith("```"):
            if not inside:
                inside, mark, begin, block = True, before.strip(), number, []
            else:
                inside = False
                yield begin, mark, block
        elif inside:
            block.append(line)
        elif not line.startswith("    "):
            yield number, line, None
        if line.strip():
            before = line


def anchors(path):
    """The anchors of a document's headings, as the common readers of Markdown make them."""
    found = set()
    for _, line, block in parts(path.read_text(encoding="utf-8").split("\n")):
        if block is None and line.startswith("#"):
            heading = line.lstrip("#").strip().lower()
            found.add(re.sub(r"[^\w\- ]", "", heading.replace("`", "")).replace(" ", "-"))
    return found


def links(result, where, path, line):
    for target in LINK.findall(re.sub(r"`[^`]*`", "", line)):
        if ELSEWHERE.match(target):
            continue
        name, _, anchor = target.partition("#")
        file = path.parent / name if name else path
        result.fact(file.exists(), f"{where}: a link to {name}, which is not there")
        if anchor and file.is_file():
            result.fact(anchor in anchors(file), f"{where}: a link to {target}: there is no such heading")


def paths(result, where, root, line):
    for name in PATH.findall(line):
        if not re.search(r"\b[A-Z]{4,}\b(?!\.md)", name):
            result.fact((root / name).exists(), f"{where}: `{name}` is not there")


def is_in_order(block, lines):
    rest = iter(lines)
    return all(any(line == other or (line.endswith("..") and other.startswith(line[:-2])) for other in rest) for line in block)


def printed(root, block):
    """What the block's commands print, after each command."""
    lines = []
    for line in block:
        if line.startswith("$ "):
            lines.append(line)
            done = subprocess.run(["sh", "-c", line[2:]], cwd=root, stdout=subprocess.PIPE, stderr=subprocess.STDOUT, text=True, check=False)
            lines += done.stdout.splitlines()
    return lines


def code(result, where, root, mark, block):
    if mark == "<!-- run -->":
        shown = printed(root, block)
        result.fact(shown == block, f"{where}: its commands print something else:\n    " + "\n    ".join(shown))
        return
    found = re.fullmatch(r"<!-- (lines of )?([^>]*?) -->", mark)
    if not found:
        return
    files = [root / name for name in found.group(2).split()]
    for file in files:
        result.fact(file.is_file(), f"{where}: {file.name} is not there")
    if all(file.is_file() for file in files):
        lines = [line for file in files for line in file.read_text(encoding="utf-8").rstrip("\n").split("\n")]
        holds = is_in_order(block, lines) if found.group(1) else block == lines
        result.fact(holds, f"{where}: the block is not {'lines of ' if found.group(1) else ''}{found.group(2)}")


def document(result, root, path):
    name = os.path.relpath(path, root)
    lines = path.read_text(encoding="utf-8").split("\n")
    for number, line, block in parts(lines):
        where = f"{name}:{number}"
        if block is not None:
            code(result, where, root, line, block)
            continue
        if not line.startswith(("|", "<!--")):
            result.fact(len(line) <= LONGEST, f"{where}: {len(line)} characters, and not at most {LONGEST}")
        links(result, where, path, line)
        paths(result, where, root, line)
    if name == "README.md":
        result.fact(len(lines) - 1 <= README_LINES, f"{name}: {len(lines) - 1} lines, and not at most {README_LINES}")


def main():
    root = Path(sys.argv[1]).resolve()
    result = Comparison()
    for path in sys.argv[2:]:
        document(result, root, Path(path).resolve())
    result.fact(len(sys.argv) > 2, "no document")
    for fault in result.faults:
        print(fault)
    print(f"{result.facts} facts, {len(result.faults)} do not hold")
    return 1 if result.faults else 0


sys.exit(main())
