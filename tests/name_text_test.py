"""Compare the library's calls on names in text with the model, through the harness: tests/name_text.sh says how."""

import sys
from typing import List

import compare
import name_text_cases
import name_text_edges
import name_text_model
from message_test import shown

GROUPS = ["%s %s" % (word, kind) for word in ("from", "to") for kind in ("ok", "9", "13")] + [
    "%s %s" % (word, kind) for word in ("again", "back") for kind in ("ok", "9")]


def group(call: name_text_model.Call, answer: name_text_model.Answer) -> str:
    return "%s %s" % (call.word, "ok" if answer[0] == "ok" else answer[1])


def edges() -> List[compare.Case]:
    return compare.held_to(name_text_edges.read_edges(), name_text_model.answer, name_text_model.printed, name_text_cases.line)


if __name__ == "__main__":
    sys.exit(compare.main(compare.Test("name_text", "calls", name_text_model.answer, name_text_model.printed, name_text_cases.line, shown, group,
                                       GROUPS, edges, name_text_cases.small_forms, name_text_cases.generated, name_text_cases.BATCH)))
