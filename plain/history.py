"""The bytes that the reading rules look at over a list of calls from a fresh start, counted from the list's history alone: the bytes its
calls took, and what they answered. Plainly, from the papers, round by round over the words of a book; no state is asked.

A case is a book's bodies, an image's length and the calls, as steps.py has them; their bytes need not be those of any image. `causes` names
what a case meets, `wanted` all that the fixed cases must meet.
"""
import random

import steps
import sweep
import tables

LONG = bytes(steps.RUN + 1)  # a packet that is too long


def next_round(words, shortest, b, stretches, matched, closing):
    """Rules 4 to 6: the next boundary, and the stretches then, each as its left place and its bytes."""
    start, to = b - len(matched), b + sweep.shift(words, shortest, matched, closing)
    left_over = [(left, there) for left, there in stretches if left < start]
    cut = max([start] + [left + len(there) for left, there in left_over])
    left_over.append((cut, matched[cut - start :]))
    return to, [(left, there) for left, there in left_over if 4 * (to - left - len(there)) <= len(there)]


def answers(bodies, n, taken):
    """What the rules answer in turn, when each place they fetch gets the next byte taken: up to a place that gets none, or to done. With
    each answer, how many bytes they have fetched by then, and looked at; a byte that is due is not yet looked at."""
    spelled = sorted(tables.spelled(bodies), key=lambda one: -len(one[1]))
    words = [word for _, word in spelled]
    endings, inner = sweep.endings_of(words)
    b, stretches, fetched, looks = len(words[-1]), [], 0, 0
    while b <= n:
        matched, closing = b"", None
        while closing is None and len(matched) < b and matched in inner:
            place = b - 1 - len(matched)
            x = next((there[place - left] for left, there in stretches if left <= place < left + len(there)), None)
            if x is None:
                yield f"fetch {place}", fetched, looks
                if fetched == len(taken):
                    return
                x, fetched = taken[fetched], fetched + 1
            looks += 1
            longer = bytes([x]) + matched
            matched, closing = (longer, None) if longer in endings else (matched, x)
        yield from ((f"hit {b} {number}", fetched, looks) for number, word in spelled if matched.endswith(word))
        b, stretches = next_round(words, len(words[-1]), b, stretches, matched, closing)
    yield "done", fetched, looks


def accounts(bodies, n, history):
    """What each call is to be answered, and how many bytes the rules have fetched and looked at after it. The history has of each call the
    bytes it took and its answer; a refused one takes none, and leaves the rules where they were."""
    events, at = [("", 0, 0), *answers(bodies, n, b"".join(taken for taken, _ in history))], 0
    for taken, answer in history:
        if answer.startswith("refused"):
            yield answer, *events[at][1:]
            continue
        if taken or not events[at][0].startswith(("fetch", "done")):  # else the same is answered again
            at = min(at + max(1, len(taken)), len(events) - 1)
        yield events[at]


# What a list meets


def brought(what):
    """The bytes that come with a call."""
    return b"" if what == steps.CARRY else what if isinstance(what, bytes) else bytes([what])


def causes(bodies, n, calls):
    """What a list meets, by name."""
    yield from ["no call"] * (not calls)
    lists, shortest, count = steps.built(bodies)
    state, place, there = steps.State(n, shortest, count), None, {}
    for what in calls:
        said, used = steps.call(lists, state, what)
        for k, x in enumerate(brought(what)[:used]):
            yield from ["another byte at a place fetched again"] * (there.get(place - k, x) != x)
            there[place - k] = x
        word, *values = said.split()
        place = int(values[0]) if word == "fetch" else place
        if state.spared:
            yield f"{said} with bytes spared" if word == "refused" else f"{word} with bytes spared, {steps.kind_of(what)}"
            yield from ["a place answered again with bytes spared"] * (what == b"" and word == "fetch")
            yield from ["more bytes spared than fetched"] * (state.spared > state.supplied)


def wanted():
    yield from ("no call", "another byte at a place fetched again")
    yield from (f"{word} with bytes spared, {kind}" for word in ("fetch", "hit", "done") for kind in steps.KINDS)
    yield from ("refused 11 0 with bytes spared", "refused 15 0 with bytes spared")
    yield from ("a place answered again with bytes spared", "more bytes spared than fetched")


# The cases: bodies, an image's length, and calls from a fresh start


def disturbed(calls):
    """The calls, before each of them others that are out of turn, too long or empty; and some when done."""
    for what in calls:
        yield from [97, b"", b"a", LONG] if what == steps.CARRY else [steps.CARRY, b"", LONG]
        yield what
    yield from [steps.CARRY, 97, b"", b"a", LONG, steps.CARRY]


def whole(bodies, image):
    """A sweep of the image, by single bytes and by packets; alone, and disturbed."""
    for size in (None, 1, 3, steps.RUN):
        calls = steps.sweep(bodies, image, size and (lambda: size))[2]
        yield bodies, len(image), calls
        yield bodies, len(image), list(disturbed(calls))


def some_list(rng):
    """Random calls from a fresh start, most of them in turn, with any bytes."""
    bodies, n = steps.some_bodies(rng), rng.randint(0, 60)
    lists, shortest, count = steps.built(bodies)
    return bodies, n, steps.some_calls(rng, lists, steps.State(n, shortest, count))


def cases():
    yield [b"axbbx"], 8, []
    for bodies, image, _ in steps.SAMPLES:
        yield from whole(bodies, image)
    yield from whole([b"a" * 32, b"b" + b"a" * 34], b"a" * 45 + b"b" + b"a" * 36)
    rng = random.Random(7)
    for _ in range(150):
        yield some_list(rng)
