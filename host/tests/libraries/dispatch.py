"""Dispatches of the two-set day, worked by hand; the case comes in hex."""

import sys

from kadunfo import Dispatched, NotDispatched, Offer, Refused, dispatch

case = bytes.fromhex(sys.stdin.read())
cheap, dear = Offer(1, 1, 100, 0, 3), Offer(1, 2, 100, 0, 5)

answer = dispatch(case, 2, [(1, 150)], [dear, cheap], 160)
assert isinstance(answer, Dispatched) and answer.powers == (160,)
assert [offer.figures() for offer in answer.offers] == [cheap.figures(), dear.figures()]
assert dispatch(case, 2, [(1, 150)], [dear, cheap], 149) == NotDispatched(9, 149)
assert dispatch(case, 3, [(1, 150)], [dear, cheap], 160) == NotDispatched(8, 0)
assert dispatch(case, 2, [(1, 150)], [dear], 160) == NotDispatched(8, 0)
assert dispatch(case, 2, [], [], 0) == Dispatched((), ())
assert dispatch(case[:1], 2, [], [], 0) == Refused("case", 1, 8)
print("dispatched")
