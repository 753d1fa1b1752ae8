#!/usr/bin/env python3
"""Compares the proved calls with the plain readings of the papers: every answer, and all that the lent tables and states then hold, with
what lies around them; and after each call of a list from a fresh start, the state's counts of bytes fetched and spared with the list's
history. The books of books.py, the states of steps.py, the lists of history.py and the images of fits.py come first, and must be as many as
COUNTS says and meet all that `wanted` names in each; then fresh random ones. Fails at the first difference and says where.

  plain/calls.py            with a new seed, which it prints
  plain/calls.py --seed N   the random cases of that seed again
"""
import argparse
import copy
import random
import sys

import books
import fits
import history
import proved
import steps
import tables
from fits import FAR
from proved import BYTES, ENTRIES, NUMBERS, Byte, Lent

COUNTS = (945, 3294, 49250, 319, 18581, 9970, 67468)  # books, states, steps from them, lists, their calls, images, questions about them
FRESH = (3000, 2000, 800, 1000, 15000)  # random books, states, whole sweeps, lists, and images
FILL = 0xA5  # in lent tables
BEHIND = [7, 0, 2**64 - 1]  # behind the numbers of a state
NO_STATE = (4, 0, 0, 0, 0)
STEPS = (steps.CARRY, 97, b"", b"a", b"a" * steps.RUN, b"a" * (steps.RUN + 1))  # tried on what is no state
KIND = {"refused": 0, "fetch": 1, "hit": 2, "done": 3}
FIT = {"refused": 0, "fits": 1, "differs": 2, "cut off": 3}


class Differs(Exception):
    pass


made = 0


def told(kind, *numbers):
    return (kind, *numbers, 0, 0, 0, 0)[:5]


def expect(name, given, wanted, after=()):
    """Calls, and compares the answer, and each lent slice with what is wanted of it; nothing said, it stays as it was."""
    global made
    after = dict(after)
    contents = [(x.around(after[i]) if i in after else x.whole[:]) if isinstance(x, Lent) else None for i, x in enumerate(given)]
    said = proved.call(name, *given)
    made += 1
    if said != wanted:
        raise Differs(f"{name} of {[x for x in given if not isinstance(x, Lent)]} tells {said}, wanted {wanted}")
    for i, x in enumerate(given):
        if isinstance(x, Lent) and x.whole != contents[i]:
            at = next(k for k, (a, b) in enumerate(zip(x.whole, contents[i])) if a != b)
            raise Differs(f"{name} leaves {x.whole[at]} at {at - proved.GUARD} of its slice {i}, wanted {contents[i][at]}")


def lend(lists):
    return [Lent(BYTES if k == 1 else ENTRIES, entries) for k, entries in enumerate(lists)]


# Books: reading, placing, containing, building, testing, walking


def reading_told(reading):
    if reading[0] == "refused":
        return told(0, *reading[1:])
    sizes = [len(body) for body in reading[1]]
    return told(1, len(sizes), tables.body_bytes(reading[1]), min(sizes), max(sizes))


def place_told(place):
    return told({"refused": 0, "found": 1, "missing": 2}[place[0]], *place[1:])


def near(word):
    """A word, the same reversed, and others that are almost it."""
    changed = bytes([word[-1] ^ 1])
    yield from (word, word[::-1], books.ends_exchanged(word))
    yield from (word[:-1], word[1:], word[:-1] + changed, changed + word[1:], word + b"\0", word + word[-1:])


def tried(book):
    """Bodies that the book has, in either order, that it almost has, that stand in it elsewhere, and others."""
    bodies = tables.whole_bodies(book)
    for _, word in tables.spelled(bodies[:2] + bodies[-1:]):
        yield from near(word)
    for at in range(min(len(book), 20)):
        yield book[at + 1 : at + 1 + tables.body_at(book, at)]
    yield from (b"", b"a", b"not there", book, book[1:], book[-2:], bytes(1024))


def two_ways(bodies, built):
    """The shifts of a small book's nodes are those found by trying each shift with each word."""
    words = [word for _, word in tables.spelled(bodies)]
    if tables.body_bytes(bodies) <= books.SMALL:
        for v, shift in enumerate(built[5]):
            if shift != tables.node_shift(words, steps.ending(built, v)):
                raise Differs(f"the plain readings differ in the shift of node {v}, one has {shift}")


def building(reading, lengths):
    """What building tells, and the tables then."""
    lists = [[FILL] * n for n in lengths]
    if reading[0] == "refused":
        return told(0, *reading[1:]), lists
    sizes, need = [len(body) for body in reading[1]], 1 + tables.body_bytes(reading[1])
    if min(lengths) < need:
        return told(0, 7, need), lists
    built = tables.build(reading[1])
    two_ways(reading[1], built)
    for k in range(6):
        lists[k][: len(built[k])] = built[k]
    return told(1, len(built[0]), min(sizes), max(sizes)), lists


def book_case(book, lengths, i, damage, count):
    lent, reading = Lent(BYTES, book), tables.read(book)
    expect("probe_read", [lent], reading_told(reading))
    for k in (i, 0, 1, FAR):
        expect("probe_token", [lent, k], place_told(tables.token(book, k)))
    for at in (*range(min(len(book) + 2, 40)), FAR):
        expect("probe_body_at", [lent, at], tables.body_at(book, at))
    for body in set(tried(book)):
        expect("probe_contains", [lent, Lent(BYTES, body)], told(1 if tables.contains(book, body) else 2))
    wanted, lists = building(reading, lengths)
    slices = lend([[FILL] * n for n in lengths])
    expect("probe_build", [lent, *slices], wanted, enumerate(lists, 1))
    which, at, value = damage
    if which < 6 and at < lengths[which]:
        lists[which][at] = value % 256 if which == 1 else value
        slices = lend(lists)
    broken = tables.first_break(lists, count)
    expect("probe_test", [*slices, count], told(1) if broken is None else told(0, 9, broken))
    for node in {0, 1, at, max(0, count - 1), count, FAR}:
        walks(lists, slices, count, node, b"abcx"[node % 4])


def walks(lists, slices, count, node, byte):
    label, first, following = lists[1], lists[3], lists[4]
    head = first[node] if node < len(first) else 0
    found, _ = tables.walk(label, following, count, head, byte)
    given = [slices[1], slices[3], slices[4], count, node, Byte(byte)]
    expect("probe_child", given, told(2) if found is None else told(1, found))
    found, last = tables.walk(label, following, count, node, byte)
    given = [slices[1], slices[4], count, node, Byte(byte)]
    expect("probe_walk", given, told(2, last) if found is None else told(1, found))


# States: starting and stepping


def step_told(what, said, used):
    """An answer in numbers; a packet's last one is how many bytes it used."""
    word, *values = said.split()
    answer = told(KIND[word], *map(int, values))
    return (*answer[:4], used) if isinstance(what, bytes) else answer


def step(state, slices, what, wanted, after=()):
    if what == steps.CARRY:
        expect("probe_carry_on", [state, *slices], wanted, after)
    elif isinstance(what, bytes):
        expect("probe_packet", [state, *slices, Lent(BYTES, what)], wanted, after)
    else:
        expect("probe_supply", [state, *slices, Byte(what)], wanted, after)


def state_case(lists, state, calls):
    """Of each call: its answer, how many bytes it used, and how many were fetched and spared by then, as the state has it."""
    slices, state, said_so = lend(lists), copy.deepcopy(state), []
    lent = Lent(NUMBERS, state.numbers() + BEHIND)
    for what in calls:
        said, used = steps.call(lists, state, what)
        step(lent, slices, what, step_told(what, said, used), {0: state.numbers() + BEHIND}.items())
        said_so.append((said, used, *steps.billed(lent.content())))
    return said_so


def list_case(bodies, n, calls):
    """From a fresh start: each answer in turn is the rules', and fetched and spared together are the bytes they looked at by then."""
    lists, shortest, count = steps.built(bodies)
    start_case(n, shortest, count)
    said_so = state_case(lists, steps.State(n, shortest, count), calls)
    past = [(history.brought(what)[:used], said) for what, (said, used, *_) in zip(calls, said_so)]
    for (said, _, fetched, spared), wanted in zip(said_so, history.accounts(bodies, n, past)):
        if (said, fetched, fetched + spared) != wanted:
            raise Differs(f"{said}, {fetched} bytes fetched and {spared} spared; by the history {wanted}, the last of bytes looked at")


def start_case(n, shortest, nodes):
    lent = Lent(NUMBERS, [FILL] * steps.SIZE + BEHIND)
    wanted, state = (told(1), steps.State(n, shortest, nodes)) if n <= steps.IMAGE else (told(0, 8, steps.IMAGE), steps.State(0, 0, 0))
    expect("probe_start", [lent, n, shortest, nodes], wanted, {0: state.numbers() + BEHIND}.items())


def no_state(lists, numbers, what):
    """The numbers are too few, or the one that says whether a byte is due is neither 0 nor 1."""
    lent = Lent(NUMBERS, numbers)
    step(lent, lend(lists), what, NO_STATE)
    if len(numbers) < steps.SIZE:
        expect("probe_start", [lent, 9, 1, 2], NO_STATE)


def starts():
    for n in (0, 4, steps.IMAGE - 1, steps.IMAGE, steps.IMAGE + 1, FAR):
        for shortest, nodes in ((5, 6), (0, 0), (1024, 16385), (FAR, FAR)):
            yield start_case, (n, shortest, nodes)


def no_states():
    lists, shortest, count = steps.built([b"axbbx"])
    numbers = steps.State(8, shortest, count).numbers()
    for what in STEPS:
        for n in range(steps.SIZE):
            yield no_state, (lists, numbers[:n], what)
        for due in (2, 256, FAR):
            yield no_state, (lists, numbers[:6] + [due] + numbers[7:] + BEHIND, what)


# Where a token stops fitting


def fit_case(book, image, asked):
    slices = [Lent(BYTES, book), Lent(BYTES, image)]
    for number, end in asked:
        answer, *values = fits.fit(book, image, number, end)
        expect("probe_fit", [*slices, number, end], told(FIT[answer], *values))


# All cases


def fresh(rng):
    for _ in range(FRESH[0]):
        yield book_case, books.arbitrary(rng)
    for i in range(FRESH[1] + FRESH[2]):
        case = steps.arbitrary(rng) if i < FRESH[1] else steps.some_sweep(rng)
        yield state_case, case
        numbers = case[1].numbers() + BEHIND
        cut = numbers[: rng.randrange(steps.SIZE)] if rng.random() < 0.5 else numbers[:6] + [rng.choice([2, 3, FAR])] + numbers[7:]
        yield no_state, (case[0], cut, rng.choice(STEPS))
        yield start_case, (rng.choice([rng.randint(0, 99), steps.IMAGE + rng.randint(-1, 1)]), rng.randint(0, 2000), rng.randint(0, 20000))
    for _ in range(FRESH[3]):
        yield list_case, history.some_list(rng)
    for _ in range(FRESH[4]):
        yield fit_case, fits.some_case(rng)


def run(name, cases):
    for i, (check, case) in enumerate(cases):
        try:
            check(*case)
        except Differs as why:
            print(f"calls: {name} {i}, {check.__name__}: {why}")
            parts = case if check is not state_case else (case[0], case[1].numbers(), case[2])
            print("  ", ", ".join(repr(part)[:2000] for part in parts))
            sys.exit(1)


def counted(cases):
    """How many cases there are, and calls made in them."""
    return len(cases), sum(len(calls) for _, _, calls in cases)


def main():
    parser = argparse.ArgumentParser(description=__doc__, formatter_class=argparse.RawDescriptionHelpFormatter)
    parser.add_argument("--seed", type=int, default=random.SystemRandom().randrange(2**32))
    seed = parser.parse_args().seed
    print(f"calls: seed {seed}", flush=True)
    parts = (books, steps, history, fits)
    all_books, all_states, all_lists, all_fits = fixed = [list(part.cases()) for part in parts]
    counts = (len(all_books), *counted(all_states), *counted(all_lists), *counted(all_fits))
    if counts != COUNTS:
        sys.exit(f"calls: {counts} books, states, steps, lists, calls, images and questions, wanted {COUNTS}")
    steps.seen.clear()
    run("book", ((book_case, case) for case in all_books))
    run("state", ((state_case, case) for case in all_states))
    met = {name for name in steps.wanted() if steps.seen[name]}
    run("list", ((list_case, case) for case in all_lists))
    run("image", ((fit_case, case) for case in all_fits))
    met |= {name for part, cases in zip(parts, fixed) if part is not steps for case in cases for name in part.causes(*case)}
    causes = [name for part in parts for name in part.wanted()]
    missing = [name for name in causes if name not in met]
    if missing:
        sys.exit("calls: no case meets: " + "; ".join(missing))
    run("start", starts())
    run("no state", no_states())
    run(f"seed {seed}, case", fresh(random.Random(seed)))
    print(
        f"calls: {counts[0]} books, {counts[1]} states with {counts[2]} steps, {counts[3]} lists of {counts[4]} calls and {counts[5]} "
        f"images with {counts[6]} questions about them, which meet {len(causes)} causes, and {FRESH[0]} books, {FRESH[1] + FRESH[2]} "
        f"states, {FRESH[3]} lists and {FRESH[4]} images of seed {seed}: {made} calls tell and leave what the plain readings say"
    )


if __name__ == "__main__":
    main()
