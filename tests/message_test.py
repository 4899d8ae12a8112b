"""Compare the library's calls on DHCP messages with the model, through the harness: tests/message.sh says how."""

import sys
from typing import List

import compare
import message_cases
import message_edges
import message_model

GROUPS = (["v4 " + kind for kind in "message,site,type 0,type 1,type 2,1,2,3,4,5,6,7,8,9,13".split(",")]
          + ["v6 " + kind for kind in "message,site,type 2,1,4,5,7,8,9,11,13".split(",")] + ["12"])


def shown(line: str, most: int = 1200) -> str:
    return line if len(line) <= most else "%s ... (%d characters)" % (line[:most], len(line))


def group(call: message_model.Call, answer: message_model.Answer) -> str:
    if answer == ("refused", message_model.UNKNOWN_SETTING):
        return "12"
    kind = answer[1] if answer[0] == "refused" or call.out_len is None else "type %d" % answer[1][1]
    return "v%d %s" % (call.family, kind)


def edges() -> List[compare.Case]:
    return compare.held_to(message_edges.read_edges(), message_model.answer, message_model.printed, message_cases.line)


if __name__ == "__main__":
    sys.exit(compare.main(compare.Test("message", "calls", message_model.answer, message_model.printed, message_cases.line, shown, group, GROUPS,
                                       edges, message_cases.small_forms, message_cases.generated, message_cases.BATCH)))
