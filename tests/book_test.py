"""Compare the library's calls on books of names with the model, through the harness: tests/book.sh says how."""

import sys
from typing import List

import book_cases
import book_edges
import book_model
import compare
from message_test import shown
from table_model import NAMES, SLOT

# How many names stand, or how many of a book's whole blocks are sound; and the refusals of each call, in the order in which it gives them
SIZES = ("none", "some", "all")
REFUSALS = {"block": ("40", "9", "13"),
            "replay": ("44", "42", "42 past 64", "43", "43 past 64", "40", "13"),
            "tidy": ("44", "42", "42 past 64", "43", "43 past 64", "40", "13"),
            "again": ("44", "42", "43", "40", "13")}
SLOW, SLOW_TOO = 300, 60  # blocks of a book as it is written by hand, and as it is asked too; longer ones take long in every shim

GROUPS = (["block stands", "block gone", "again"] + ["%s %s" % (word, size) for word in ("replay", "tidy", "sound") for size in SIZES]
          + ["%s refused %s" % (word, kind) for word, kinds in REFUSALS.items() for kind in kinds])


def size_of(count: int, most: int) -> str:
    return "none" if count == 0 else "some" if count < most else "all"


def group(call: book_model.Call, answer: book_model.Answer) -> str:
    if answer[0] == "refused":
        past = book_model.history(call.book) if answer[1] in (42, 43) and call.word != "again" else None
        return "%s refused %d%s" % (call.word, answer[1], " past 64" if past and past.sound() + 1 < len(past.tables) else "")
    if call.word == "block":
        return "block stands" if answer[2][4] == 1 else "block gone"
    if call.word == "again":
        return "again"
    if call.word == "sound":
        return "sound " + size_of(answer[1], len(call.book) // book_model.BLOCK)
    names = len(answer[2]) // book_model.BLOCK if call.word == "tidy" else sum(answer[2][at] > 0 for at in range(0, NAMES * SLOT.size, SLOT.size))
    return "%s %s" % (call.word, size_of(names, NAMES))


def edges() -> List[compare.Case]:
    some = book_edges.read_edges()
    cases = compare.held_to(some, book_model.answer, book_model.printed, book_cases.line)
    most = {False: SLOW, True: SLOW_TOO}
    return [case._replace(is_slow=len(edge.call.book) // book_model.BLOCK > most[edge.is_asked_too]) for case, edge in zip(cases, some)]


if __name__ == "__main__":
    sys.exit(compare.main(compare.Test("book", "calls", book_model.answer, book_model.printed, book_cases.line, shown, group, GROUPS,
                                       edges, book_cases.small_forms, book_cases.generated, book_cases.BATCH)))
