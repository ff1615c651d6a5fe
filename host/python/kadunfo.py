"""The plan unit over its shared library, libkadunfo.so (x86-64 Linux), in one file of the standard library.

    import kadunfo
    answer = kadunfo.judge(case, plan)      # bytes each
    if isinstance(answer, kadunfo.Accepted):
        print(answer.surplus, kadunfo.read_completion(case, answer.completion).intervals[0])

The library is looked for where KADUNFO_LIBRARY says, beside this file, then where the system keeps its libraries.
Messages are described in docs/MESSAGES.md, the functions in include/kadunfo.h. Every answer is one of the classes below;
bytes of any content are answered, and nothing is raised but TypeError for what is not bytes and Defect for an answer
that the header does not have. Calls keep nothing and may be made from several threads at once; a thread needs 1,500,000
bytes of stack, which it has unless threading.stack_size was set lower.
"""

import ctypes
import os
from dataclasses import dataclass
from typing import Iterable, Iterator, List, Optional, Tuple, Union

NEWEST_EDITION = 5
LONGEST_COMPLETION = 70876
LONGEST_COPY = 16340
LONGEST_CASE = 328113
LONGEST_PLAN = 158427
LONGEST_LIST = 615808
LONGEST_MESSAGE = 1048576
MOST_NUMBERS = 46721
BATCH_NUMBERS = 6

CASE, PLAN, MESSAGE, BATCH = "case", "plan", "message", "batch"


class Defect(Exception):
    """The library answered what its header does not have: it is not the library that this module was made for."""


@dataclass(frozen=True)
class Accepted:
    """The plan breaks no rule. Money in grains, 1/100,000 of a currency unit."""

    surplus: int
    completion: bytes


@dataclass(frozen=True)
class Breach:
    """A broken rule, by number, and its place: each from 1, or 0 where the rule has none."""

    rule: int
    interval: int
    device: int
    window: int


@dataclass(frozen=True)
class Refused:
    """A message that was not read: which one, by which number (1 to 6), at which bit."""

    of: str
    number: int
    bit: int


Verdict = Union[Accepted, Breach, Refused]


@dataclass(frozen=True)
class Counts:
    """What a case that passes reading has."""

    devices: int
    intervals: int
    zones: int


@dataclass(frozen=True)
class Mended:
    """The least change of one online power after which the plan breaks no rule."""

    interval: int
    device: int
    power: int


@dataclass(frozen=True)
class Unmendable:
    """No change of one online power mends the plan."""


class Offer(ctypes.Structure):
    """A block that is offered: numbers of device and block from 1, cap and floor in kW, price in grains per kW min."""

    _fields_ = [(name, ctypes.c_uint64) for name in ("set", "block", "cap", "floor")] + [("price", ctypes.c_int64)]

    def figures(self) -> Tuple[int, ...]:
        """Set, block, cap, floor and price."""
        return tuple(getattr(self, name) for name, _ in self._fields_)


@dataclass(frozen=True)
class Dispatched:
    """The cheapest powers in the order in which the devices were named, and the offers in merit order."""

    powers: Tuple[int, ...]
    offers: Tuple[Offer, ...]


@dataclass(frozen=True)
class NotDispatched:
    """8 with 0: the question is not one of the case; 9 with the target: no such powers exist."""

    number: int
    returned: int


@dataclass(frozen=True)
class Running:
    """A device in an interval; state and blocks are None in a market copy. State 0 is none."""

    started: bool
    stopped: bool
    state: Optional[int]
    blocks: Optional[Tuple[int, int, int, int]]


@dataclass(frozen=True)
class Interval:
    """By device; by zone the shortfalls of rgu, rgd, scr, nsc, rru, rrd in W and, from edition 2 on, of qru, qrd in var;
    by bar the mismatches in kW and in kvar (one bar up to edition 4, no kvar in edition 1)."""

    devices: Tuple[Running, ...]
    shortfalls: Tuple[Tuple[int, ...], ...]
    mismatches: Tuple[int, ...]
    reactive_mismatches: Tuple[int, ...]


@dataclass(frozen=True)
class Completion:
    """A completion, or a market copy, whose surplus is None. Overruns in kW min, by device, then energy window."""

    edition: int
    intervals: Tuple[Interval, ...]
    overruns: Tuple[int, ...]
    surplus: Optional[int]


def _library() -> ctypes.CDLL:
    named = os.environ.get("KADUNFO_LIBRARY")
    beside = os.path.join(os.path.dirname(os.path.abspath(__file__)), "libkadunfo.so")
    return ctypes.CDLL(named or (beside if os.path.exists(beside) else "libkadunfo.so"))


_LIBRARY = _library()


def _call(name: str, *arguments) -> Tuple[int, List[int]]:
    """Calls an exported function with slices and numbers: its word and its four figures."""
    words = []
    for argument in arguments:
        if isinstance(argument, int):
            words.append(ctypes.c_uint64(argument))
        elif isinstance(argument, bytes):
            words += [ctypes.c_char_p(argument), ctypes.c_size_t(len(argument))]
        elif isinstance(argument, ctypes.Array):
            words += [argument, ctypes.c_size_t(len(argument))]
        else:
            raise TypeError(f"bytes are asked for, not {type(argument).__name__}")
    figures = (ctypes.c_uint64 * 4)()
    function = getattr(_LIBRARY, name)
    function.restype = ctypes.c_uint64
    word = function(*words, figures, ctypes.c_size_t(4))
    return word, list(figures)


def _refusal(word: int, figures: List[int], third: str = PLAN) -> Refused:
    if word == 2:
        return Refused(CASE, figures[0], figures[1])
    if word == 3:
        return Refused(third, figures[0], figures[1])
    raise Defect(f"word {word} with {figures}")


def _signed(figure: int) -> int:
    return figure - (1 << 64) if figure >> 63 else figure


def _verdict(word: int, figures: List[int], completion: bytes) -> Verdict:
    if word == 0:
        return Accepted(_signed(figures[0]), completion)
    return Breach(*figures) if word == 1 else _refusal(word, figures)


def judge(case: bytes, plan: bytes) -> Verdict:
    """The verdict: accepted with the surplus and the completion, the first broken rule, or a refusal."""
    result = (ctypes.c_ubyte * 0)()
    word, figures = _call("kadunfo_judge", case, plan, result)
    if word == 4:
        result = (ctypes.c_ubyte * figures[1])()
        word, figures = _call("kadunfo_judge", case, plan, result)
    return _verdict(word, figures, bytes(result))


def judge_batch(case: bytes, plans: Iterable[bytes]) -> Union[List[Verdict], Refused]:
    """The verdict on each plan, as judge gives it, with the case read for all of them at once; or the case's refusal."""
    # No plan is as long as a batch takes a message, so one that is cut there is refused as it would be whole.
    taken = [plan[:LONGEST_MESSAGE] for plan in plans]
    batch = b"".join(len(message).to_bytes(3, "big") + message for message in taken)
    table = (ctypes.c_uint64 * (BATCH_NUMBERS * len(taken)))()
    needed, room = LONGEST_COMPLETION, 0
    while needed > room:
        room = needed
        results = (ctypes.c_ubyte * room)()
        word, figures = _call("kadunfo_judge_batch", case, batch, results, table)
        if word != 0:
            return _refusal(word, figures, BATCH)
        turns = [table[k : k + BATCH_NUMBERS] for k in range(0, len(table), BATCH_NUMBERS)]
        needed = figures[1] + sum(turn[2] for turn in turns if turn[0] == 4)
    verdicts, completions, at = [], bytes(results), 0
    for word, *told, length in turns:
        verdicts.append(_verdict(word, told, completions[at : at + length]))
        at += length
    return verdicts


def breaches(case: bytes, plan: bytes) -> Union[List[Breach], Refused]:
    """Every broken rule in the order of judging; none where the plan is accepted."""
    entries = (ctypes.c_ubyte * LONGEST_LIST)()
    word, figures = _call("kadunfo_breaches", case, plan, entries)
    if word != 0:
        return _refusal(word, figures)
    return [Breach(*entries[4 * k : 4 * k + 4]) for k in range(figures[0])]


def inspect(case: bytes) -> Union[Counts, Refused]:
    """A case's devices, intervals and zones."""
    word, figures = _call("kadunfo_inspect", case)
    return Counts(*figures[:3]) if word == 0 else _refusal(word, figures)


def write_case(case: bytes) -> Union[bytes, Refused]:
    """The case in the newest edition."""
    result = (ctypes.c_ubyte * LONGEST_CASE)()
    word, figures = _call("kadunfo_write_case", case, result)
    return bytes(result[: figures[0]]) if word == 0 else _refusal(word, figures)


def write_plan(case: bytes, plan: bytes) -> Union[bytes, Refused]:
    """The plan, read with its case, in the newest edition; it goes with write_case(case)."""
    result = (ctypes.c_ubyte * LONGEST_PLAN)()
    word, figures = _call("kadunfo_write_plan", case, plan, result)
    return bytes(result[: figures[0]]) if word == 0 else _refusal(word, figures)


def market(case: bytes, plan: bytes) -> Union[bytes, Breach, Refused]:
    """The market's copy of an accepted plan's completion; the first broken rule; or a refusal."""
    result = (ctypes.c_ubyte * LONGEST_COPY)()
    word, figures = _call("kadunfo_market", case, plan, result)
    if word == 0:
        return bytes(result[: figures[0]])
    return Breach(*figures) if word == 1 else _refusal(word, figures)


def read_completion(case: bytes, message: bytes) -> Union[Completion, Refused]:
    """A completion of a case, figure by figure."""
    return _read("kadunfo_read_completion", case, message, True)


def read_market(case: bytes, message: bytes) -> Union[Completion, Refused]:
    """A market copy of a case, figure by figure."""
    return _read("kadunfo_read_market", case, message, False)


def mend(case: bytes, plan: bytes) -> Union[int, Mended, Unmendable, Refused]:
    """The surplus of a plan that breaks no rule; else the least change of one online power that mends it, or none."""
    word, figures = _call("kadunfo_mend", case, plan)
    if word == 0:
        return _signed(figures[0])
    if word == 1:
        return Mended(*figures[:3])
    return Unmendable() if word == 6 else _refusal(word, figures)


def dispatch(
    case: bytes, interval: int, earlier: Iterable[Tuple[int, int]], offers: Iterable[Offer], target: int
) -> Union[Dispatched, NotDispatched, Refused]:
    """The cheapest powers of devices that stay on in an interval: earlier has each device with its power before, offers
    exactly the blocks of these devices, in any order."""
    named = list(earlier)
    numbers = ctypes.c_uint64 * len(named)
    sets, powers = numbers(*(s for s, _ in named)), numbers(*(p for _, p in named))
    lent = list(offers)
    table = (Offer * len(lent))(*lent)
    word, figures = _call("kadunfo_dispatch", case, interval, sets, powers, table, target)
    if word == 0:
        return Dispatched(tuple(powers), tuple(Offer(*offer.figures()) for offer in table))
    return NotDispatched(*figures[:2]) if word == 7 else _refusal(word, figures)


def messages(batch: bytes) -> Iterator[Union[bytes, Refused]]:
    """The messages of a batch, up to its end or to what is refused of it."""
    at = 0
    while True:
        word, figures = _call("kadunfo_split", batch, at)
        if word == 1:
            return
        if word != 0:
            yield Refused(BATCH, figures[0], figures[1])
            return
        yield batch[figures[0] : figures[1]]
        at = figures[1]


def _read(function: str, case: bytes, message: bytes, whole: bool) -> Union[Completion, Refused]:
    table = (ctypes.c_uint64 * MOST_NUMBERS)()
    word, figures = _call(function, case, message, table)
    if word != 0:
        return _refusal(word, figures, MESSAGE)
    counts = inspect(case)
    return _records(message[0] & 15, counts, table[: figures[0]], whole)


def _records(edition: int, counts: Counts, numbers: List[int], whole: bool) -> Completion:
    """The numbers stand in the message's order."""
    left = iter(numbers)

    def take(count: int) -> Tuple[int, ...]:
        return tuple(next(left) for _ in range(count))

    def running() -> Running:
        started, stopped = take(2)
        state, blocks = (take(1)[0], take(4)) if whole else (None, None)
        return Running(bool(started), bool(stopped), state, blocks)

    bars = 2 if edition >= 5 else 1

    def interval() -> Interval:
        devices = tuple(running() for _ in range(counts.devices))
        shortfalls = tuple(take(8 if edition >= 2 else 6) for _ in range(counts.zones))
        return Interval(devices, shortfalls, take(bars), take(bars if edition >= 2 else 0))

    intervals = tuple(interval() for _ in range(counts.intervals))
    rest = list(left)
    surplus = _signed(rest.pop()) if whole else None
    return Completion(edition, intervals, tuple(rest), surplus)
