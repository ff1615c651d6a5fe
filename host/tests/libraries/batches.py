"""Judges batches of plans: lines of CASE PLAN .. in hex. Each verdict is that of judging the plan alone."""

import sys

from kadunfo import LONGEST_MESSAGE, Accepted, Breach, Refused, judge, judge_batch

counts = {Accepted: 0, Breach: 0, Refused: 0}
for line in sys.stdin:
    case, *plans = map(bytes.fromhex, line[:-1].split(" "))
    verdicts = judge_batch(case, plans)
    alone = [judge(case, plan) for plan in plans]
    if isinstance(verdicts, Refused):
        assert verdicts.of == "case" and alone == [verdicts] * len(plans)
        continue
    assert verdicts == alone
    for verdict in verdicts:
        counts[type(verdict)] += 1

# Of the last line, whose case passes reading and whose first plan is accepted.
whole = plans[0] + bytes(LONGEST_MESSAGE)
assert judge_batch(case, []) == []
assert judge_batch(case[:1], []) == Refused("case", 1, 8)
assert judge_batch(case, iter([b"", whole])) == [Refused("plan", 1, 0), Refused("plan", 6, 8 * len(plans[0]))]
# More completions than the longest takes of room, so that more is asked for.
many = judge_batch(case, plans[:1] * 2_000)
assert many == [judge(case, plans[0])] * 2_000 and sum(len(one.completion) for one in many) > 70_876
for odd in ("text", None, 3):
    try:
        judge_batch(case, [odd])
    except TypeError:
        continue
    raise AssertionError(odd)
print(*counts.values())
