#!/usr/bin/env python3
"""Compares the proved merge of two books with the plain one: every answer, and all that the output then holds, with what lies around it and
the two books. The pairs of books.py come first, with outputs of lengths about the one needed; they must be as many as COUNTS says and meet
all that `wanted` names; then fresh random ones. Some of these are swept with both books and the merged one, by single bytes and as a whole,
with as many bytes fetched and spared: the merged book finds, by token bytes, what the two find, each hit once and in its order. Fails at
the first difference and says where.

  plain/merge.py            with a new seed, which it prints
  plain/merge.py --seed N   the random cases of that seed again
"""
import argparse
import collections
import itertools
import random
import sys

import books
import calls
import proved
import steps
import sweep
import tables
from calls import Differs, told
from proved import BYTES, HITS, NUMBERS, Byte, Lent

COUNTS = (253, 1476)  # pairs, and merges of them
FRESH, SWEPT = 4200, 300  # random pairs, and those of them that are swept
LONGEST = 2000  # bytes of a merged book to sweep with: a step goes over all its nodes

# What the fixed pairs met, by name; the hits found with merged books; and the bytes spared in all sweeps.
seen = collections.Counter()
found = spared = 0


def held(room):
    """What an output holds before the call."""
    return bytes((7 * i + 165) % 256 for i in range(room))


def merge_case(first, second, room):
    out, answer = held(room), tables.merge(first, second, room)
    lent = [Lent(BYTES, x) for x in (first, second, out)]
    if answer[0] == "refused":
        calls.expect("probe_merge", lent, told(0, *answer[1:]))
    else:
        book = answer[1]
        calls.expect("probe_merge", lent, told(1, len(book)), [(2, book + out[len(book) :])])


# What a pair meets


def at_limits(bodies):
    """The limits that these bodies just keep."""
    return ["256 tokens"] * (len(bodies) == 256) + ["16,384 body bytes"] * (tables.body_bytes(bodies) == 16384)


def over(tokens, others, place):
    """How the record at a place of the second book, with these others as its bodies, brings the merged book over its limits."""
    places = list(itertools.accumulate((1 + len(body) for body in others), initial=0))
    i = places.index(place)
    before = tokens + [body for body in others[:i] if not tables.has(tokens, body)]
    bodies = tables.body_bytes(before + [others[i]])
    yield "5 by tokens" if len(before) == 256 and bodies <= 16384 else "5 by bodies" if len(before) < 256 else "5 by both"
    yield from ["5 by one byte"] * (bodies == 16385)
    yield from ["5 by a reverse"] * (len(before) < 256 and tables.body_bytes(before) + len(others[i]) <= 16384)
    yield from ["5 at the first record"] * (i == 0)
    yield from ["5 behind a new token"] * (len(before) > len(tokens))
    yield from ["5 behind a common token"] * (len(before) - len(tokens) < i)
    if i > 0 and tables.has(tokens, others[i - 1]):
        yield from (f"5 behind a common token at {limit}" for limit in at_limits(before))
    if i > 0 and books.reversed_in(tokens, others[i - 1]):
        yield from (f"5 behind a reversed token at {limit}" for limit in at_limits(before))
    yield from ["5 before a record that would fit"] * any(tables.body_bytes(before + [body]) <= 16384 for body in others[i + 1 :])


def written(tokens, others, needed, room):
    """What is met where both books can be merged."""
    new = [body for body in others if not tables.has(tokens, body)]
    if room < needed:
        yield from ["14"] + ["14 by one byte"] * (room == needed - 1) + ["14 with no room"] * (room == 0)
        return
    yield "nothing new" if not new else "nothing common" if len(new) == len(others) else "new and common"
    yield from at_limits(tokens + new)
    yield from (f"nothing new at {limit}" for limit in at_limits(tokens))
    yield from reversals(tokens, new, others)
    yield "bytes behind" if room > needed else "no byte behind"


def reversals(tokens, new, others):
    """What is met by bodies of the second book that are the first's reversed."""
    turned = [body for body in others if books.reversed_in(tokens, body)]
    yield from ["nothing but reversed tokens"] * (turned == others)
    yield from (f"{limit} with reversed tokens" for limit in at_limits(tokens + new) if turned)
    yield from (f"the reverse of {len(body)} bytes is new" for body in new if body[::-1] in tokens)


def causes(first, second, room):
    """What a pair meets, by name."""
    reading, other, answer = tables.read(first), tables.read(second), tables.merge(first, second, room)
    refusal = f"{reading[1]} of the first book" if reading[0] == "refused" else f"13 with {other[1]}" if other[0] == "refused" else None
    if refusal:
        new = [body for body in tables.whole_bodies(second) if not tables.contains(first, body)]
        bad, (_, number, place) = (first, reading) if reading[0] == "refused" else (second, other)
        yield refusal
        yield from [f"{refusal}, by a reverse"] * (number == 4 and books.reversed_in(*books.refused_at(bad, place)))
        yield from ["13 with 4 of common tokens"] * (refusal == "13 with 4" and new == [])
        yield from [f"{refusal}, before 14"] * (room == 0)
        yield from [f"{refusal}, before 13"] * (reading[0] == other[0])
        yield from ["13 before 5"] * (reading[0] == "accepted" and len(reading[1]) == 256 and new != [])
    elif answer[:2] == ("refused", 5):
        yield from over(reading[1], other[1], answer[2])
        yield from ["5 before 14"] * (room == 0)
    else:
        yield from written(reading[1], other[1], answer[2] if answer[0] == "refused" else len(answer[1]), room)


def wanted():
    for n in range(1, 7):
        yield from (f"{n} of the first book", f"{n} of the first book, before 13", f"{n} of the first book, before 14")
        yield from (f"13 with {n}", f"13 with {n}, before 14")
    yield from ("4 of the first book, by a reverse", "13 with 4, by a reverse", "13 with 4 of common tokens")
    yield from ("13 before 5", "5 by tokens", "5 by bodies", "5 by both", "5 by one byte", "5 at the first record", "5 behind a new token")
    yield from ("5 behind a common token", "5 before a record that would fit", "5 before 14", "5 by a reverse")
    for limit in ("256 tokens", "16,384 body bytes"):
        yield from (limit, f"5 behind a common token at {limit}", f"nothing new at {limit}")
        yield from (f"{limit} with reversed tokens", f"5 behind a reversed token at {limit}")
    yield from ("14", "14 by one byte", "14 with no room")
    yield from ("nothing new", "nothing common", "new and common", "bytes behind", "no byte behind", "nothing but reversed tokens")
    yield from (f"the reverse of {n} bytes is new" for n in (3, 5, 6, 8, 9, 11))


# Sweeps with the two books and with the merged one


def room_for(book):
    """Tables with just room for this book."""
    return calls.lend([[0] * (1 + tables.body_bytes(tables.read(book)[1]))] * 6)


def by_bytes(book, image):
    """The hits (end, token) of the sweep by single bytes, and the bytes fetched and spared."""
    lent, state, slices = Lent(BYTES, book), Lent(NUMBERS, [0] * steps.SIZE), room_for(book)
    _, nodes, shortest, *_ = proved.call("probe_build", lent, *slices)
    proved.call("probe_start", state, len(image), shortest, nodes)
    hits, (kind, *values) = [], proved.call("probe_carry_on", state, *slices)
    while kind != calls.KIND["done"]:
        if kind == calls.KIND["fetch"]:
            kind, *values = proved.call("probe_supply", state, *slices, Byte(image[values[0]]))
        elif kind == calls.KIND["hit"]:
            hits.append(tuple(values[:2]))
            kind, *values = proved.call("probe_carry_on", state, *slices)
        else:
            raise Differs(f"the sweep by single bytes is refused: {values}")
    return hits, *steps.billed(state.content())


def as_a_whole(book, image):
    """The same of the gateway's sweep."""
    most = len(image) * len(tables.read(book)[1])
    ends, tokens = Lent(HITS, [0] * most), Lent(HITS, [0] * most)
    refusal, value, hits, *bill = proved.sweep(Lent(BYTES, book), Lent(BYTES, image), *room_for(book), ends, tokens)
    if refusal:
        raise Differs(f"the sweep of the whole image is refused: {refusal} {value}")
    return list(zip(ends.content()[:hits], tokens.content()[:hits])), *bill


def plainly(bodies, image):
    """The same by a search, and by the reading rules round by round."""
    return sweep.search(bodies, image), *sweep.bill(bodies, image)


def swept(book, image):
    """The hits as pairs of end and token bytes, a body and its reverse being one token; every way of sweeping finds the same, in the same
    order, and with the same bytes fetched and spared."""
    global spared
    bodies = tables.read(book)[1]
    plain = plainly(bodies, image)
    for way in (by_bytes, as_a_whole):
        said = way(book, image)
        if said != plain:
            raise Differs(f"{way.__name__} says {said}, the plain readings {plain}")
    spared += plain[2]
    return [(end, min(tables.words(bodies[number - 1]))) for end, number in plain[0]]


def joined(hits, others):
    """Those of two books, each once: ends rise, and at one end the longest token comes first."""
    return sorted({*hits, *others}, key=lambda hit: (hit[0], -len(hit[1])))


def union_case(first, second, image):
    global found
    out = Lent(BYTES, held(len(first) + len(second)))
    kind, length, *_ = proved.call("probe_merge", Lent(BYTES, first), Lent(BYTES, second), out)
    if kind != 1:
        raise Differs("the books are not merged")
    merged, both = swept(bytes(out.content()[:length]), image), joined(swept(first, image), swept(second, image))
    found += len(merged)
    if merged != both:
        raise Differs(f"the merged book finds {merged}, the two {both}")


# All cases


def rooms(first, second):
    """The lengths of the outputs that a pair is tried with."""
    most = len(first) + len(second)
    answer = tables.merge(first, second, most)
    if answer[0] == "refused":
        return [0, 1, most]
    needed = len(answer[1])
    return sorted({0, *range(0 if needed < 30 else needed - 3, needed + 4), most})


def fixed():
    for first, second in books.pairs():
        for room in rooms(first, second):
            yield merge_case, (first, second, room)


def fresh(rng):
    left = SWEPT
    for i in range(FRESH):
        first, second = books.some_pair(rng, books.SHAPES[i % len(books.SHAPES)])
        most = len(first) + len(second)
        answer = tables.merge(first, second, most)
        needed = len(answer[1]) if answer[0] == "accepted" else rng.randint(0, most)
        yield merge_case, (first, second, max(0, needed + rng.choice([0, 0, 1, 2, 3, -1, -2, -3, -needed])))
        if answer[0] == "accepted" and needed < LONGEST and left:
            left -= 1
            bodies = tables.read(answer[1])[1]
            yield union_case, (first, second, sweep.planted(rng, rng.sample(bodies, min(6, len(bodies)))))


def run(name, cases):
    """Runs them; how many there were of each check."""
    ran = collections.Counter()
    for i, (check, case) in enumerate(cases):
        try:
            check(*case)
        except Differs as why:
            print(f"merge: {name} {i}, {check.__name__}: {why}"[:2000])
            print("  ", repr(case)[:2000])
            sys.exit(1)
        ran[check.__name__] += 1
    return ran


def main():
    parser = argparse.ArgumentParser(description=__doc__, formatter_class=argparse.RawDescriptionHelpFormatter)
    parser.add_argument("--seed", type=int, default=random.SystemRandom().randrange(2**32))
    seed = parser.parse_args().seed
    proved.load("gateway")
    print(f"merge: seed {seed}", flush=True)
    all_fixed = list(fixed())
    counts = (len(list(books.pairs())), len(all_fixed))
    if counts != COUNTS:
        sys.exit(f"merge: {counts} pairs and merges of them, wanted {COUNTS}")
    for _, case in all_fixed:
        seen.update(causes(*case))
    missing = [name for name in wanted() if not seen[name]]
    if missing:
        sys.exit("merge: no pair meets: " + "; ".join(missing))
    run("pair", all_fixed)
    ran = run(f"seed {seed}, case", fresh(random.Random(seed)))
    if ran["union_case"] < SWEPT or not found or not spared:
        sys.exit(f"merge: only {ran['union_case']} pairs were swept, with {found} hits and {spared} bytes spared")
    print(
        f"merge: {counts[0]} pairs of books with {counts[1]} outputs, which meet {len(list(wanted()))} causes, and {FRESH} pairs of seed "
        f"{seed}: {calls.made} calls tell and leave what the plain reading says; {SWEPT} pairs are swept, and the merged book finds the "
        f"{found} hits of the two; by single bytes and as a whole the same bytes are fetched, and the same {spared} spared"
    )


if __name__ == "__main__":
    main()
