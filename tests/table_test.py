"""Compare the library's steps on the table of names, with find and count, with the model, through the harness: tests/table.sh says how."""

import sys
from typing import List

import compare
import table_cases
import table_edges
import table_model
from message_test import shown

# The values and the refusals of each call, in the order in which it gives them; of find and count some values, the least and the most among them
ANSWERS = {
    "add": ((0, 1, 2), (12, 40, 9, 15, 16, 32, 31, 30)),
    "remove": ((0,), (12, 40, 9, 15, 16, 33, 31, 30, 34)),
    "clear": ((0,), (40, 9, 33)),
    "find": ((0, 1, 62, 63), (40, 9, 33)),
    "count": ((0, 1, 2, 63, 64), (40,)),
}
GROUPS = [form % (word, number) for word, numbers in ANSWERS.items() for form, some in zip(("%s %d", "%s refused %d"), numbers) for number in some]


def group(call: table_model.Call, answer: table_model.Answer) -> str:
    return ("%s %d" if answer[0] == "ok" else "%s refused %d") % (call.word, answer[1])


def edges() -> List[compare.Case]:
    return compare.held_to(table_edges.read_edges(), table_model.answer, table_model.printed, table_cases.line)


if __name__ == "__main__":
    sys.exit(compare.main(compare.Test("table", "steps", table_model.answer, table_model.printed, table_cases.line, shown, group, GROUPS,
                                       edges, table_cases.small_forms, table_cases.generated, table_cases.BATCH)))
