"""Compare the library's load and write with the model, through the harness: tests/load.sh says how."""

import sys
from typing import List

import compare
import listing_model
import load_cases
import load_edges
import load_model
from message_test import shown
from table_model import NAMES, SLOT

# How many names are loaded or written, and the refusals of each call, in the order in which it gives them
SIZES = ("none", "some", "all")
REFUSALS = {"load": ("17", "20", "21", "22", "24", "35", "35 of more names", "32", "13"), "write": ("40", "13"), "again": ("40", "13")}
SLOW = 500  # lines of a text; each of its names may have to be compared with all others

GROUPS = (["%s %s" % (word, size) for word in REFUSALS for size in SIZES]
          + ["%s refused %s" % (word, kind) for word, kinds in REFUSALS.items() for kind in kinds])


def group(call: load_model.Call, answer: load_model.Answer) -> str:
    if answer[0] == "ok":
        table = call.table if call.word == "write" else answer[2]
        return "%s %s" % (call.word, "none" if table[0] == 0 else "some" if table[SLOT.size * (NAMES - 1)] == 0 else "all")
    kind = "%s refused %d" % (call.word, answer[1])
    if answer[1] == load_model.RECORD_REPEATED and len({record.owner for record in listing_model.read(call.text)[1]}) > NAMES:
        return kind + " of more names"
    return kind


def edges() -> List[compare.Case]:
    some = load_edges.read_edges()
    cases = compare.held_to(some, load_model.answer, load_model.printed, load_cases.line)
    return [case._replace(is_slow=edge.call.text.count(b"\n") > SLOW) for case, edge in zip(cases, some)]


if __name__ == "__main__":
    sys.exit(compare.main(compare.Test("load", "calls", load_model.answer, load_model.printed, load_cases.line, shown, group, GROUPS,
                                       edges, load_cases.small_forms, load_cases.generated, load_cases.BATCH)))
