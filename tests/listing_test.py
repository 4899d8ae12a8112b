"""Compare the library's listing check with the model, through the harness: tests/listing.sh says how."""

import os
import sys
from typing import List

import compare
import listing_cases
import listing_model

EDGES = os.path.join(os.path.dirname(os.path.abspath(__file__)), "listing_edges.txt")

# Edges that no file can hold: texts of so many zero bytes. A length must not be cut to 16 or to 32 bits.
ZEROS = {"check -+%d" % length: "refused 20 at 0" if length <= listing_model.LIMIT else "refused 17 at 0"
         for length in (1, 65536, 65537, 2 ** 31, 2 ** 32 - 1, 2 ** 32, 2 ** 32 + 1, 2 ** 32 + 65536, 2 ** 33)}

GROUPS = ["records", "no records", "17", "20", "21", "22", "24"]


def shown(line: str) -> str:
    field = line.split()[1]
    return line if "+" in field else compare.shown(bytes.fromhex(field.replace("-", "")))


def group(_: bytes, answer: listing_model.Answer) -> str:
    if answer[0] == "ok":
        return "records" if answer[1] else "no records"
    return str(answer[1])


def edges() -> List[compare.Case]:
    cases = [compare.Case(line, right, "zeros") for line, right in ZEROS.items()]
    for edge in compare.read_edges(EDGES):
        model = listing_model.answer(edge.text)
        against = "" if model == edge.expected else "the model: " + model
        cases.append(compare.Case(listing_cases.line(edge.text), edge.expected, edge.why, against=against))
    return cases


if __name__ == "__main__":
    sys.exit(compare.main(compare.Test("listing", "texts", listing_model.read, listing_model.printed, listing_cases.line, shown, group, GROUPS,
                                       edges, listing_cases.small_forms, listing_cases.generated, listing_cases.BATCH)))
