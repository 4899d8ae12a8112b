"""Compare the library's UPDATE messages, and what it reads of answers to them, with the model, through the harness: tests/update.sh says how."""

import sys
from typing import List

import compare
import update_cases
import update_edges
import update_model
from message_test import shown

# The families or the values of each call, and its refusals in the order in which it gives them
ANSWERS = {
    **dict.fromkeys(update_model.WITH_ADDRESS, ((4, 6), (12, 9, 15, 16, 13))),
    "remove_second": ((0,), (9, 15, 13)),
    "answer": ((0, 6, 7, 8), (47, 48)),
}
GROUPS = [form % (word, number) for word, numbers in ANSWERS.items() for form, some in zip(("%s %d", "%s refused %d"), numbers) for number in some]


def group(call: update_model.Call, answer: update_model.Answer) -> str:
    if answer[0] == "refused":
        return "%s refused %d" % (call.word, answer[1])
    return "%s %d" % (call.word, answer[1] if call.word == "answer" else call.family if call.word in update_model.WITH_ADDRESS else 0)


def edges() -> List[compare.Case]:
    return compare.held_to(update_edges.read_edges(), update_model.answer, update_model.printed, update_cases.line)


if __name__ == "__main__":
    sys.exit(compare.main(compare.Test("update", "calls", update_model.answer, update_model.printed, update_cases.line, shown, group, GROUPS,
                                       edges, update_cases.small_forms, update_cases.generated, update_cases.BATCH)))
