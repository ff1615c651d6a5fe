"""Prints what the module answers on pairs of messages, one line for each function and pair: lines of CASE PLAN in hex."""

import sys
import threading

import kadunfo


def words(answer):
    if isinstance(answer, bytes):
        return answer.hex()
    if isinstance(answer, list):
        return " ".join(words(one) for one in answer)
    if isinstance(answer, kadunfo.Accepted):
        return f"accepted {answer.surplus} {answer.completion.hex()}"
    if isinstance(answer, kadunfo.Breach):
        return f"broken {answer.rule} {answer.interval} {answer.device} {answer.window}"
    if isinstance(answer, kadunfo.Refused):
        return f"refused {answer.of} {answer.number} {answer.bit}"
    if isinstance(answer, kadunfo.Counts):
        return f"counts {answer.devices} {answer.intervals} {answer.zones}"
    if isinstance(answer, int):
        return f"unbroken {answer}"
    if isinstance(answer, kadunfo.Mended):
        return f"mended {answer.interval} {answer.device} {answer.power}"
    if isinstance(answer, kadunfo.Unmendable):
        return "unmendable"
    raise AssertionError(answer)


def flat(records):
    """The numbers of a completion's or a copy's records, in the message's order."""
    numbers = []
    for interval in records.intervals:
        for one in interval.devices:
            numbers += [int(one.started), int(one.stopped)]
            if one.state is not None:
                numbers += [one.state, *one.blocks]
        for zone in interval.shortfalls:
            numbers += zone
        numbers += interval.mismatches + interval.reactive_mismatches
    numbers += records.overruns
    if records.surplus is not None:
        numbers.append(records.surplus)
    return " ".join(map(str, numbers))


def lines(case, plan):
    verdict = kadunfo.judge(case, plan)
    copy = kadunfo.market(case, plan)
    yield words(verdict)
    yield words(kadunfo.breaches(case, plan))
    yield words(kadunfo.inspect(case))
    yield words(kadunfo.write_case(case))
    yield words(kadunfo.write_plan(case, plan))
    yield words(copy)
    yield words(kadunfo.mend(case, plan))
    if isinstance(verdict, kadunfo.Accepted):
        yield flat(kadunfo.read_completion(case, verdict.completion))
        yield flat(kadunfo.read_market(case, copy))
        yield words(kadunfo.read_market(case, verdict.completion))


def answers(pairs):
    return [line for case, plan in pairs for line in lines(case, plan)]


def main():
    pairs = [tuple(map(bytes.fromhex, line[:-1].split(" "))) for line in sys.stdin]
    found = answers(pairs)
    # From several threads at once the same comes out.
    beside = [[], []]
    threads = [threading.Thread(target=lambda k=k: beside[k].extend(answers(pairs))) for k in range(2)]
    for thread in threads:
        thread.start()
    for thread in threads:
        thread.join()
    assert beside == [found, found]
    batch = b"".join(len(message).to_bytes(3, "big") + message for pair in pairs for message in pair)
    assert list(kadunfo.messages(batch)) == [message for pair in pairs for message in pair]
    assert list(kadunfo.messages(b"\0\0")) == [kadunfo.Refused("batch", 1, 0)]
    print("\n".join(found))


main()
