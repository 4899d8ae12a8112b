"""Hold docs/RULES.md together with the header and with those who cite it: tests/rules.sh says how.

    cited      each section that a file cites is there, and so is each that the rules themselves cite
    named      each comment of crates/ that says "document 01" names a section
    refusals   section 2.2 has the numbers of the header, and 25, which no call for C gives
    calls      section 8.2 has the calls of the header
    slot       section 7.2 has the sizes and the offsets of the header
    block      section 11.1 has a block of the header's length, with the slot of section 7.2 behind number and kind
    reverse    section 12.2 has the sizes and the offsets of the header's reverse side, and section 12.1 the most bytes of a PTR name
    messages   the lengths of the messages in section 13.2 are those of their records, and the longest is the header's; section 13.3 has its codes
    lines      no line is longer than 119 characters
"""

import os
import re
import subprocess
import sys
from typing import Callable, Dict, List, Tuple

RULES, HEADER = "docs/RULES.md", "include/vichrelka.h"
NUMBERS = r"\d+(?:\.\d+)?(?:(?:,| and|, and| to) \d+(?:\.\d+)?)*"
CITES = re.compile(r"RULES\.md`?, (?:sections? )?(%s)" % NUMBERS)
INNER = re.compile(r"\(((?:[A-Za-z :]+ )?\d+\.\d+(?:(?:,| and| to) \d+\.\d+)*)\)")  # a section in brackets, within the rules

Files = Dict[str, str]


def read_files() -> Files:
    """What the repository has, but for what it only stores."""
    listed = subprocess.run(["git", "ls-files", "-co", "--exclude-standard"], check=True, stdout=subprocess.PIPE).stdout.decode().split("\n")
    names = [name for name in listed if re.search(r"\.(antt|rt|md|py|sh|bash|c|h|txt)$", name) and os.path.isfile(name) and name != "tests/rules.py"]
    files = {}
    for name in names:
        with open(name, encoding="utf-8") as file:
            files[name] = file.read()
    return files


def flowing(text: str) -> str:
    """Comments without their marks, on one line: a citation may go over two."""
    return re.sub(r"\s+", " ", re.sub(r"(?m)^\s*(?:--|//|#|\*)? ", " ", text))


def section(rules: str, number: str) -> str:
    found = re.search(r"^### %s\. .*?(?=^##|\Z)" % re.escape(number), rules, re.M | re.S)
    return found[0] if found else ""


def cited(files: Files) -> List[str]:
    there = set(re.findall(r"^##+ (\d+(?:\.\d+)?)\. ", files[RULES], re.M))
    wrong = []
    for name, text in files.items():
        flow = flowing(text)
        found = CITES.findall(flow) + (INNER.findall(flow) if name == RULES else [])
        wrong += ["%s cites section %s, which is not there" % (name, number)
                  for numbers in found for number in re.findall(r"\d+(?:\.\d+)?", numbers) if number not in there]
    return wrong


def named(files: Files) -> List[str]:
    wrong = []
    for name, text in files.items():
        if name.startswith("crates/") and name.endswith((".antt", ".rt")):
            for comment in re.findall(r"(?m)(?:^\s*(?:--|//).*\n)+", text):
                if re.search("[Dd]ocument 01(?!'s example)", comment) and "RULES.md" not in comment and not quotes(comment):
                    wrong.append("%s: document 01 without a section: %s" % (name, flowing(comment)[:100]))
    return wrong


def quotes(comment: str) -> bool:
    """A comment that has the customer's own words, in which document 01 is named."""
    return "the refusal number that document 01 fixes, by its order" in flowing(comment)


def refusals(files: Files) -> List[str]:
    header = {int(number) for number in re.findall(r"VICHRELKA_REFUSED_\w+ = (\d+)", files[HEADER])}
    rules = {int(number) for row in re.findall(r"^\| ([\d, ]+) \|", section(files[RULES], "2.2"), re.M) for number in row.split(", ")}
    return ["refusal %d is in the header alone, or in section 2.2" % number for number in sorted(rules ^ (header | {25}))]


def calls(files: Files) -> List[str]:
    header = set(re.findall(r"^uint64_t vichrelka_(\w+)\(", files[HEADER], re.M))
    rules = set(re.findall(r"^\| `(\w+)`", section(files[RULES], "8.2"), re.M))
    return ["the call %s is in the header alone, or in section 8.2" % name for name in sorted(rules ^ header)]


def sizes_of(files: Files) -> Dict[str, int]:
    """The constants of the header that are plain numbers."""
    return {name: int(value) for name, value in re.findall(r"^#define VICHRELKA_(\w+) (\d+)$", files[HEADER], re.M)}


def fields_of(text: str) -> List[Tuple[int, int, str]]:
    """Of a table of bytes: offset, size and content of each field."""
    return [(int(at), int(size), what) for at, size, what in re.findall(r"^\| (\d+) \| (\d+) \| (.*) \|$", text, re.M)]


def row_of_slots(files: Files, number: str, words: str, offsets: List[str], count: str, size: str) -> List[str]:
    """Whether a section has a table of a slot's fields as the header has them, and says how many slots there are, of how many bytes."""
    defined = sizes_of(files)
    text = section(files[RULES], number)
    fields = fields_of(text)
    wrong = [] if len(fields) == len(offsets) else ["section %s has %d fields" % (number, len(fields))]
    end = 0
    for (at, length, what), name in zip(fields, offsets):
        if at != end or name and defined[name] != at:
            wrong.append("a field of section %s is not where the header has it, or not behind the one before: %s" % (number, what))
        end = at + length
    said = re.search(words + r" is ([\d,]+) slots of ([\d,]+) bytes, ([\d,]+) bytes", text)
    sizes = [int(digits.replace(",", "")) for digits in said.groups()] if said else []
    if sizes != [defined[count], defined[size], defined[count] * defined[size]] or end != defined[size]:
        wrong.append("section %s has other sizes than the header" % number)
    return wrong


def slot(files: Files) -> List[str]:
    return row_of_slots(files, "7.2", "A table", ["", "SLOT_NAME", "SLOT_FLAGS", "SLOT_A", "SLOT_AAAA", "SLOT_DHCID"], "TABLE_NAMES", "SLOT_LEN")


def reverse(files: Files) -> List[str]:
    fields = ["", "REVERSE_ADDRESS", "REVERSE_NAME_LEN", "REVERSE_NAME"]
    wrong = row_of_slots(files, "12.2", "A reverse side", fields, "REVERSE_NAMES", "REVERSE_SLOT_LEN")
    most = [int(digits) for digits in re.findall(r"(\d+) \|$", section(files[RULES], "12.1"), re.M)]
    if not most or max(most) != sizes_of(files)["PTR_LIMIT"]:
        wrong.append("section 12.1 has another length of the longest PTR name than the header")
    return wrong


def block(files: Files) -> List[str]:
    fields = fields_of(section(files[RULES], "11.1"))
    wrong, end = [], 0
    for at, size, what in fields:
        if at != end:
            wrong.append("a field of section 11.1 is not behind the one before: " + what)
        end = at + size
    if end != sizes_of(files)["BLOCK_LEN"]:
        wrong.append("section 11.1 has %d bytes, and the header another number" % end)
    if [size for _, size, _ in fields[2:8]] != [size for _, size, _ in fields_of(section(files[RULES], "7.2"))]:
        wrong.append("section 11.1 does not have the fields of section 7.2 from the third on")
    if fields and fields[-1][:2] != (480, 32):
        wrong.append("section 11.1 does not end in a check of 32 bytes from byte 480 on")
    return wrong


def messages(files: Files) -> List[str]:
    """A message is 16 bytes and the zone, and then for each record 10 bytes, the name and the data: nothing, an address or a DHCID of 35 bytes."""
    text, counted, what = section(files[RULES], "13.2"), {}, ""
    for first, data in re.findall(r"^\| ([a-z ]*)\| (?:prerequisite|update): .*\| (none|the address|the DHCID) \| [\d.]+ \|$", text, re.M):
        what = first.strip() or what
        fixed, names, addresses = counted.get(what, (16, 0, 0))
        counted[what] = (fixed + 10 + 35 * (data == "the DHCID"), names + 1, addresses + (data == "the address"))
    said = re.findall(r"^\| ([a-z ]+) \| .* \| (\d+) \+ Z \+ (\d) N( \+ (?:\d )?a)? \| ([\d,]+) \|$", text, re.M)
    lengths = {}
    wrong = [] if len(said) == len(counted) == 4 else ["section 13.2 does not have the records or the lengths of four messages"]
    for what, fixed, names, addresses, longest in said:
        has = (int(fixed), int(names), int(addresses.strip(" +a") or 1) if addresses else 0)
        lengths[what] = int(longest.replace(",", ""))
        if has != counted.get(what) or lengths[what] != has[0] + 255 + 255 * has[1] + 16 * has[2]:
            wrong.append("section 13.2 has a length of the %s that is not that of its records" % what)
    if not lengths or max(lengths.values()) != sizes_of(files)["UPDATE_LIMIT"]:
        wrong.append("section 13.2 has another length of the longest message than the header")
    codes = sorted(int(code) for code in re.findall(r"VICHRELKA_CODE_[A-Z_]+ = (\d+)", files[HEADER]))
    if codes != sorted(int(code) for code in re.findall(r"^\| (\d+) \| [A-Z]+ \|", section(files[RULES], "13.3"), re.M)):
        wrong.append("section 13.3 has other codes than the header")
    return wrong


def lines(files: Files) -> List[str]:
    return ["line %d has %d characters" % (number + 1, len(line)) for number, line in enumerate(files[RULES].split("\n")) if len(line) > 119]


CHECKS: List[Callable[[Files], List[str]]] = [cited, named, refusals, calls, slot, block, reverse, messages, lines]

# What each check has to tell: a file, the text that is there, and what is put in its place
PLANTED = [
    (cited, RULES, "### 3.4. ", "### 3.9. "),
    (cited, RULES, "(4.2, 4.4)", "(4.2, 4.8)"),
    (cited, "crates/name/specs/Label.antt", "docs/RULES.md, 3.1", "docs/RULES.md, 31"),
    (cited, "crates/base/specs/Answer.antt", "docs/RULES.md, 2.1)", "docs/RULES.md, 2.1 and 2.4)"),
    (named, "crates/name/specs/Label.antt", " (docs/RULES.md, 3.1)", ""),
    (named, "crates/edges/src/main.rt", "docs/RULES.md, 9", "9"),
    (refusals, RULES, "| 34 |", "| 36 |"),
    (refusals, HEADER, "TABLE_FULL = 32", "TABLE_FULL = 33"),
    (calls, RULES, "| `table_count` (D) |", "| `table_counts` (D) |"),
    (calls, HEADER, "uint64_t vichrelka_table_clear(", "uint64_t vichrelka_table_wipe("),
    (slot, RULES, "| 261 | 16 |", "| 261 | 15 |"),
    (slot, HEADER, "VICHRELKA_SLOT_A 257", "VICHRELKA_SLOT_A 258"),
    (slot, RULES, "19,968 bytes (D). Names", "19,986 bytes (D). Names"),
    (slot, HEADER, "VICHRELKA_TABLE_NAMES 64", "VICHRELKA_TABLE_NAMES 65"),
    (block, RULES, "| 317 | 163 |", "| 317 | 162 |"),
    (block, RULES, "| 6 | 255 |", "| 7 | 254 |"),
    (block, RULES, "| 480 | 32 |", "| 448 | 64 |"),
    (block, HEADER, "VICHRELKA_BLOCK_LEN 512", "VICHRELKA_BLOCK_LEN 511"),
    (reverse, RULES, "| 17 | 1 |", "| 16 | 2 |"),
    (reverse, RULES, "34,944 bytes (D). Addresses", "34,994 bytes (D). Addresses"),
    (reverse, RULES, "`arpa` | 74 |", "`arpa` | 73 |"),
    (reverse, HEADER, "VICHRELKA_REVERSE_NAME 18", "VICHRELKA_REVERSE_NAME 17"),
    (reverse, HEADER, "VICHRELKA_REVERSE_NAMES 128", "VICHRELKA_REVERSE_NAMES 512"),
    (reverse, HEADER, "VICHRELKA_PTR_LIMIT 74", "VICHRELKA_PTR_LIMIT 75"),
    (messages, RULES, "| 126 + Z + 4 N | 1,401 |", "| 127 + Z + 4 N | 1,402 |"),
    (messages, RULES, "| 81 + Z + 3 N + 2 a | 1,133 |", "| 81 + Z + 3 N + a | 1,117 |"),
    (messages, RULES, "| | prerequisite: it has no AAAA | 28 | 254 | 0 | none | 2.4.3 |\n", ""),
    (messages, HEADER, "VICHRELKA_UPDATE_LIMIT 1401", "VICHRELKA_UPDATE_LIMIT 1400"),
    (messages, HEADER, "VICHRELKA_CODE_SET_STANDS = 7", "VICHRELKA_CODE_SET_STANDS = 3"),
    (lines, RULES, "# The rules\n", "# The rules" + "!" * 119 + "\n"),
]


def main() -> int:
    files = read_files()
    passed = failed = 0
    for check in CHECKS:
        wrong = check(files)
        for said in wrong:
            print("rules: " + said)
        passed += not wrong
        failed += len(wrong)
    for check, name, old, new in PLANTED:
        told = files[name].count(old) > 0 and check({**files, name: files[name].replace(old, new, 1)}) != check(files)
        passed += told
        failed += not told
        if not told:
            print("rules: %s does not tell '%s' in %s from '%s'" % (check.__name__, new[:40], name, old[:40]))
    print("%d passed, %d failed" % (passed, failed))
    return 1 if failed else 0


if __name__ == "__main__":
    sys.exit(main())
