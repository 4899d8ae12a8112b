"""What the definitions cite: that they are written down without the code that reads, and without proofs.

    python3 -B tests/imports.py ROOT    a line for each fact that does not hold, of ROOT/crates and ROOT/crates.txt; then how many files were looked at

No file of specs/, of any crate, cites a file of proofs/. What a listing spells is defined in the crates of GROUND, below all that read: their specs/ cite specs/ of
these crates alone, each of those that it uses, and the toolchain's libraries. Some of their files are of the code: how far a loop has read, what a record of the
code holds, functions that find what a text spells. The others, MEANINGS, state what is meant: they cite each other and the libraries and nothing else of these crates, not
even a type of the code. So a file that is not listed may be cited by no meaning."""

import glob
import os
import re
import sys

from crates_list import crates_list

GROUND = ["base", "name", "text", "address", "dhcid_text", "grammar"]

MEANINGS = {
    "base": ["Logic", "Bytes", "Refusal", "Order", "Family", "Dhcid"],
    "name": ["Label", "Name"],
    "text": ["Digits"],
    "address": ["Address"],
    "dhcid_text": ["Dhcid"],
    "grammar": ["Listing", "Whole", "Faults", "Outcome", "Examples"],
}

LIBRARIES = ["Prim", "mathlib", "native", "lib"]
# what passes these on, and what a definition above the ground may have of the toolchain beside that
PASSED_ON = re.compile(r"Rattle\.std\.(?:specs\.Prelude|proofs\.Math)(?:\.|$)")
TOOLCHAIN = re.compile(r"Rattle\.std\.specs\.[A-Za-z0-9_]+")

SPECS = re.compile(r"Rattle\.([a-z0-9_]+)\.specs\.([A-Za-z0-9_]+)")


def plain(text):
    """A text without its strings and comments."""
    return re.sub(r'("(?:\\.|[^"\\])*")|(?:(?<=\s)|^)--.*', lambda m: '""' if m[1] else "", text, flags=re.M)


def cited(text):
    """The paths into crates, whether a `use` brings them or an expression has the whole path; and what else a `use` begins with."""
    text = plain(text)
    paths = [path.rstrip(".") for path in re.findall(r"(?<![^\s(){},;])(?:package\.)?(Rattle\b[^\s(){},;]*)", text)]
    heads = re.findall(r"^\s*(?:unfoldable\s+)?(?:pub\s+)?use\s+(?:package\.)?([^\s.{]+)", text, re.M)
    return paths, [h for h in heads if h != "Rattle"]


class Look:
    def __init__(self, root):
        self.root, self.files, self.faults = root, 0, []
        self.uses = crates_list(os.path.join(root, "crates.txt"))

    def fault(self, file, words):
        self.faults.append(f"{file} {words}")

    def all(self):
        for path in sorted(glob.glob(os.path.join(self.root, "crates/*/specs/**/*.antt"), recursive=True)):
            file = os.path.relpath(path, self.root)
            crate, name = file.split("/")[1], file.split("/")[3].removesuffix(".antt")
            with open(path, encoding="utf-8") as opened:
                paths, heads = cited(opened.read())
            self.files += 1
            self.one(file, crate, name, paths, heads)
        for crate in GROUND:
            if crate not in self.uses:
                self.faults.append(f"{crate} is no crate")
            for name in MEANINGS[crate]:
                if not os.path.exists(os.path.join(self.root, "crates", crate, "specs", name + ".antt")):
                    self.fault(f"crates/{crate}/specs/{name}.antt", "is not there")

    def one(self, file, crate, name, paths, heads):
        meant = name in MEANINGS.get(crate, [])
        for path in paths:
            if PASSED_ON.match(path) or crate not in GROUND and TOOLCHAIN.match(path):
                continue
            if TOOLCHAIN.match(path):
                self.fault(file, f"cites {path}, which is none of the libraries {', '.join(LIBRARIES)}, nor passes them on")
                continue
            match = SPECS.match(path)
            if not match:
                self.fault(file, f"cites {path}, which is no file of specs/")
                continue
            other, cites = match[1], match[2]
            if crate not in GROUND:
                continue
            if other not in GROUND:
                self.fault(file, f"cites {path}, of a crate that is not among {', '.join(GROUND)}")
            elif other != crate and other not in self.uses.get(crate, []):
                self.fault(file, f"cites {path}, of a crate that {crate} does not use")
            elif meant and cites not in MEANINGS[other]:
                self.fault(file, f"states a meaning and cites {path}, which states none")
        for head in heads:
            if crate in GROUND and head not in LIBRARIES:
                self.fault(file, f"cites {head}, which is none of the libraries {', '.join(LIBRARIES)}")


def main():
    sys.stdout.reconfigure(encoding="utf-8")
    look = Look(sys.argv[1])
    look.all()
    for words in look.faults:
        print(words)
    if not look.files:
        print("no file of specs/ is there")
    print(f"{look.files} files of specs/, {len(look.faults)} faults")
    return 1 if look.faults or not look.files else 0


if __name__ == "__main__":
    sys.exit(main())
