"""Compare the library's PTR names, leases and ended leases with the model, through the harness: tests/lease.sh says how."""

import sys
from typing import List

import compare
import lease_cases
import lease_edges
import lease_model
from message_test import shown

# The values and the refusals of each call, in the order in which it gives them; of a PTR name its shortest and longest in each family
ANSWERS = {
    "ptr": ((22, 30, 74), (12, 16, 13)),
    "lease": ((0, 1, 2), (12, 40, 9, 15, 16, 46, 32, 31, 30)),
    "end": ((0,), (12, 40, 9, 15, 16, 33, 31, 30, 34)),
}
# Again after a cut: what an accepted call answers then
AGAIN = ("again 0 lease 0", "again 0 lease 2", "again 1 lease 1", "again 2 lease 1", "again 0 end 0", "again 1 end 0", "again 2 end refused 33",
         "again 2 end refused 34")
GROUPS = [form % (word, number) for word, numbers in ANSWERS.items() for form, some in zip(("%s %d", "%s refused %d"), numbers) for number in some]
GROUPS += AGAIN


def group(call: lease_model.Call, answer: lease_model.Answer) -> str:
    word = call.word if call.cut is None else "again %d %s" % (call.cut, call.word)
    return ("%s %d" if answer[0] == "ok" else "%s refused %d") % (word, answer[1])


def edges() -> List[compare.Case]:
    """The same call again on the same sides is not asked of every shim: it tells none that it does not tell the first time."""
    some = lease_edges.read_edges()
    cases = compare.held_to(some, lease_model.answer, lease_model.printed, lease_cases.line)
    return [case._replace(is_slow=edge.is_same_again) for case, edge in zip(cases, some)]


if __name__ == "__main__":
    sys.exit(compare.main(compare.Test("lease", "calls", lease_model.answer, lease_model.printed, lease_cases.line, shown, group, GROUPS,
                                       edges, lease_cases.small_forms, lease_cases.generated, lease_cases.BATCH)))
