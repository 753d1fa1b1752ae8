"""The sweep by single bytes and by packets, plainly, from the papers alone, and states to step from.

A case is six tables, a state and the calls made from it: CARRY to carry on, a byte to supply, or a packet, which is a run of bytes. `seen`
counts the causes of refusals 9, 10, 11 and 15, the ends of ranges, the kinds of answers, the ways packets ended, how remembered bytes were
taken, what reverses made and how the entries of the sixth table were followed that calls met; `wanted` names those that some case must
meet.
"""
import collections
import copy
import itertools
import random

import tables

CARRY = 256
NODES, IMAGE, BODY, RUN = 16385, 16777216, tables.LONGEST, 64
MOST, SPARED = 1000000000, 20000000000  # the counts of bytes supplied and of bytes spared stop here
SIZE = 26  # numbers of a state
TABLES = tables.NAMES
ROOT = ("parent", "label", "token", "next sibling")  # what is 0 of the root

# What the cases met, by name.
seen = collections.Counter()


class State:
    def __init__(self, image, shortest, count, boundary=None, node=0, depth=0, due=False, slots=(), supplied=0, spared=0, end=0, hit=0):
        self.image, self.shortest, self.count = image, shortest, count
        self.boundary = shortest if boundary is None else boundary
        self.node, self.depth, self.due = node, depth, due
        self.supplied, self.spared = supplied, spared  # bytes fetched, and bytes taken from stretches instead
        self.slots = [list(s) for s in slots] + [[0, 0, 0] for _ in range(5 - len(slots))]
        self.end, self.hit = end, hit  # of the hits left: their end, and the node of the next
        # No parts of the state: the last answer's word, the last hit's node, the remembered bytes taken so far, each as its place and
        # whether it closed its round, and of a book's tables the nodes where a reverse ends.
        self.said, self.met, self.recalled, self.reverses = None, 0, [], frozenset()

    def numbers(self):
        first = [self.image, self.shortest, self.count, self.boundary, self.node, self.depth, int(self.due), self.supplied, self.spared]
        return [*first, *(x for s in self.slots for x in s), self.end, self.hit]

    def stretches(self):
        return [s for s in self.slots if any(s)]


def billed(numbers):
    """Of a state's numbers, those of bytes fetched and of bytes spared."""
    return numbers[7:9]


# The reading rules


def ending(lists, v):
    parent, label = lists[0], lists[1]
    out = []
    while v:
        out.append(label[v])
        v = parent[v]
    return bytes(out)


def child(lists, v, x):
    label, first, following = lists[1], lists[3], lists[4]
    at = first[v]
    while at:
        if label[at] == x:
            return at
        at = following[at]
    return None


def carriers(lists, v):
    """The nodes with a token from v up to the root."""
    while v:
        if lists[2][v]:
            yield v
        v = lists[0][v]


def kept(b, s):
    return 4 * (b - s[1]) <= s[1] - s[0]


def recall(lists, state, place):
    for left, right, node in state.stretches():
        if left <= place < right:
            return ending(lists, node)[place - left]
    return None


def at_remembered(lists, s):
    """Whether the rules take the next byte from a stretch."""
    return s.hit == 0 and s.boundary <= s.image and lists[3][s.node] > 0 and recall(lists, s, s.boundary - 1 - s.depth) is not None


def words_of(lists, count, left_out=frozenset()):
    """The words of all nodes with a number but those left out."""
    return [ending(lists, v) for v in range(count) if lists[2][v] and v not in left_out]


def shifts(lists, s, closing, left_out=frozenset()):
    """Rule 5 by the words of all nodes with a number but those left out: the node shift, whatever its entry is, and the byte shift."""
    words, u = words_of(lists, s.count, left_out), ending(lists, s.node)

    def agrees(t, by, k, x):
        return k + by >= len(t) or t[len(t) - 1 - k - by] == x

    def least(test):
        return next((by for by in range(1, s.shortest) if any(test(t, by) for t in words)), s.shortest)

    node = least(lambda t, by: all(agrees(t, by, k, u[len(u) - 1 - k]) for k in range(len(u))))
    byte = 1 if closing is None else least(lambda t, by: agrees(t, by, len(u), closing))
    return node, byte


def shift_of(s, node, byte):
    """The greater of a node shift and a byte shift, and S where that is less."""
    return min(s.shortest, max(node, byte))


def end_round(lists, s, last, closing=None):
    """Rules 4 to 6; the round's hits are left then. `last` says how its last byte came in."""
    start, b = s.boundary - s.depth, s.boundary
    s.hit = next(carriers(lists, s.node), 0)
    s.end = b if s.hit else 0
    note_end(lists, s, last, closing)
    left_over = [m for m in s.stretches() if not (start <= m[0] and m[1] <= b)]
    left = max([start] + [m[1] for m in left_over])
    node = s.node
    for _ in range(s.depth - (b - left)):
        node = lists[0][node]
    found = shifts(lists, s, closing)
    after = b + shift_of(s, lists[5][s.node], found[1])
    note_shifts(lists, s, closing, found)
    note_stretches(lists, s, left_over + [[left, b, node]], found)
    stretches = [m for m in left_over + [[left, b, node]] if kept(after, m)]
    seen["rule 4: forgotten"] += len(left_over) < len(s.stretches())
    seen["rule 4: cut"] += left > start
    seen["rule 6: not kept"] += len(stretches) <= len(left_over)
    seen["rule 6: just kept"] += any(4 * (after - m[1]) == m[1] - m[0] for m in stretches)
    s.slots = stretches + [[0, 0, 0] for _ in range(5 - len(stretches))]
    s.boundary, s.node, s.depth = after, 0, 0


def take(lists, s, x, last="supplied"):
    """Rule 3."""
    to = child(lists, s.node, x)
    if to is None:
        end_round(lists, s, last, x)
    else:
        s.node, s.depth = to, s.depth + 1


def answered(lists, s):
    """The next of the hits left, from the longest token to the shortest; the one after it is next then."""
    s.met = s.hit
    said = f"hit {s.end} {lists[2][s.met]}"
    seen["hit of a reverse at an inner node"] += s.met in s.reverses and lists[3][s.met] > 0
    s.hit = next(carriers(lists, lists[0][s.met]), 0)
    s.end = s.end if s.hit else 0
    return said


def settle(lists, s, last="before the call"):
    """Runs on to an answer; a hit that is left comes first."""
    s.due = False
    while not s.hit:
        if s.boundary > s.image:
            return "done"
        if not lists[3][s.node] or s.depth == s.boundary:
            end_round(lists, s, last)
            continue
        place = s.boundary - 1 - s.depth
        x = recall(lists, s, place)
        if x is None:
            s.due = True
            return f"fetch {place}"
        s.spared = min(SPARED, s.spared + 1)
        s.recalled.append((place, child(lists, s.node, x) is None))
        last = "remembered"
        take(lists, s, x, last)
    return answered(lists, s)


def supply(lists, s, x, last="supplied"):
    s.supplied = min(MOST, s.supplied + 1)
    take(lists, s, x, last)
    return settle(lists, s, last)


def packet(lists, s, run):
    """The answer, and how many bytes are used. Each is for the place below the one before it, and is used while its place is wanted."""
    place, used, before = s.boundary - 1 - s.depth, 0, s.supplied
    said = f"fetch {place}"
    while used < len(run) and said == f"fetch {place - used}":
        seen["a packet on past a token"] += used > 0 and lists[2][s.node] > 0
        said = supply(lists, s, run[used], "of a packet")
        used += 1
    note_packet(run, used, place, said)
    note_count("a packet", before, used, MOST)
    return said, used


# The refusals, each by all causes that hold: a name for each


def off(name, low, x, high):
    """How x lies outside its range."""
    if x < low:
        yield f"{name} {'one' if x == low - 1 else 'far'} below"
    if x > high:
        yield f"{name} {'one' if x == high + 1 else 'far'} above"


def node_causes(lists, count, v, depth):
    """The rules that node v breaks, where no node before it breaks one."""
    parent, label, token, first, following, shift = lists
    if v == 0:
        for name, table in zip(TABLES, lists):
            if name in ROOT:
                yield from off(f"9: the root's {name}", 0, table[0], 0)
        yield from off("9: the root's shift", 1, shift[0], BODY)
    else:
        yield from off("9: shift", 1, shift[v], BODY)
        yield from off("9: parent", 0, parent[v], v - 1)
        yield from off("9: token number", 0, token[v], 256)
        yield from off("9: depth", 0, depth, BODY)
    for name, link, above in (("first child", first[v], v), ("next sibling", following[v], parent[v])):
        if link:
            yield from off(f"9: {name}", v + 1, link, count - 1)
            if link >= len(parent) or parent[link] != above:
                yield f"9: {name} of another parent"


def broken(lists, count):
    """The value of refusal 9 and its causes at that node, or None and none."""
    short = [cause for name, table in zip(TABLES, lists) for cause in off(f"9: table length, {name},", count, len(table), 2**64)]
    if short:
        return min(map(len, lists)), short
    depths = []
    for v in range(count):
        up = lists[0][v]
        depths.append(depths[up] + 1 if up < v else 0)
        causes = list(node_causes(lists, count, v, depths[v]))
        if causes:
            return v, causes
    return None, []


def deep(lists, v):
    """How deep a node lies, also one behind the count; more than any number where no way leads from it to the root."""
    parent, steps = lists[0], 0
    while v:
        if v >= len(parent) or parent[v] >= v:
            return 2**64
        v, steps = parent[v], steps + 1
    return steps


def state_ranges(lists, s):
    """The ranges of refusal 10: name, least, number, greatest."""
    yield "node count", 1, s.count, NODES
    yield "N", 0, s.image, IMAGE
    yield "S", 1, s.shortest, BODY
    yield "node", 0, s.node, s.count - 1
    yield "d", deep(lists, s.node), s.depth, deep(lists, s.node)
    yield "b", s.depth, s.boundary, s.image + BODY
    yield "supplied", 0, s.supplied, MOST
    yield "spared", 0, s.spared, SPARED
    before = 0
    for left, right, node in s.stretches():
        yield f"{'next' if before else 'first'} stretch's left", before, left, 2**64
        yield "stretch's right", left + 1, right, s.image
        yield "stretch's distance from b", 1, s.boundary - right, 2**64
        yield "four times its distance", 0, 4 * (s.boundary - right), right - left
        yield "stretch's node", 0, node, s.count - 1
        yield "stretch's length", deep(lists, node), right - left, deep(lists, node)
        before = right
    yield from left_ranges(lists, s)


def left_ranges(lists, s):
    """Those of the hits left; where there is none, the node of the next is the root."""
    if s.hit == 0:
        yield "end with no hit left", 0, s.end, 0
        return
    yield "hit's node", 1, s.hit, s.count - 1
    yield "hit's token", 1, lists[2][s.hit] if s.hit < len(lists[2]) else 0, 2**64
    yield "end", deep(lists, s.hit), s.end, s.image
    yield "b's distance from the end", 1, s.boundary - s.end, s.shortest
    for _, right, _ in s.stretches():
        yield "stretch's right with a hit left", 0, right, s.end


def due_causes(lists, s):
    if s.hit:
        yield "10: due with a hit left"
    if s.boundary > s.image:
        yield "10: due when done"
    elif s.depth == s.boundary:
        yield "10: due at the image's start"
    elif recall(lists, s, s.boundary - 1 - s.depth) is not None:
        yield "10: due at a remembered place"
    if not lists[3][s.node]:
        yield "10: due with no child"


def range_causes(lists, s):
    """What puts the state out of its ranges, over tables that are a tree."""
    causes = [cause for r in state_ranges(lists, s) for cause in off(f"10: {r[0]}", *r[1:])]
    used = s.stretches()
    if s.slots[: len(used)] != used:
        causes.append("10: unused slot before one in use")
    if s.hit and (s.node or s.depth):
        causes.append("10: round begun with a hit left")
    return causes or (list(due_causes(lists, s)) if s.due else [])


# A cause of the first group is met alone. Those of the second never hold alone: such a child has another parent than the node, a count
# of 0 leaves no node, and a stretch of no byte is kept nowhere before b. Some ranges have one side: a hit's node is not below 1, since 0
# is none; its token is not above 256, which is 9; and no number is below 0. With a hit left, a node that is not the root and a d that is
# not 0 are one cause, as either alone breaks d's own range.
ALONE = (
    *(f"9: table length, {name}, one below" for name in TABLES),
    *(f"9: the root's {name} one above" for name in ROOT),
    *(f"9: {whose}shift {way}" for whose in ("", "the root's ") for way in ("one below", "one above", "far above")),
    "9: parent one above", "9: parent far above", "9: token number one above", "9: depth one above",
    "9: first child one above", "9: first child of another parent",
    "9: next sibling one below", "9: next sibling far below", "9: next sibling one above", "9: next sibling of another parent",
    "10: node count one above", "10: N one above", "10: S one below", "10: S one above", "10: node one above",
    "10: d one below", "10: d one above", "10: b one below", "10: b one above", "10: supplied one above", "10: spared one above",
    "10: next stretch's left one below", "10: next stretch's left far below", "10: stretch's right one above",
    "10: stretch's distance from b one below", "10: four times its distance one above", "10: stretch's node one above",
    "10: stretch's length one below", "10: stretch's length one above", "10: unused slot before one in use",
    "10: due when done", "10: due at the image's start", "10: due at a remembered place", "10: due with no child",
    "10: end with no hit left one above", "10: end with no hit left far above", "10: hit's node one above", "10: hit's token one below",
    "10: end one below", "10: end far below", "10: end one above", "10: end far above",
    "10: b's distance from the end one below", "10: b's distance from the end far below",
    "10: b's distance from the end one above", "10: b's distance from the end far above",
    "10: stretch's right with a hit left one above", "10: stretch's right with a hit left far above",
    "10: round begun with a hit left", "10: due with a hit left",
)
NEVER_ALONE = (
    "9: first child one below", "9: first child far below", "10: node count one below",
    "10: stretch's right one below", "10: stretch's right far below",
)
WITHIN = (
    "node count least", "node count greatest", "N least", "N greatest", "S least", "S greatest", "node greatest", "d least",
    "b least", "b greatest", "supplied greatest", "spared greatest", "first stretch's left least", "next stretch's left least",
    "stretch's right greatest", "stretch's distance from b least", "four times its distance greatest", "stretch's node greatest",
    "stretch's length least",
    "four stretches", "a byte due", "a node 1,024 deep", "token number 256", "entries behind the nodes",
    "end with no hit left greatest", "hit's node least", "hit's node greatest", "hit's token least", "end least", "end greatest",
    "b's distance from the end least", "b's distance from the end greatest", "stretch's right with a hit left greatest",
    "three hits left", "68 hits left", "hits left with one token number", "a hit left when b > N", "four stretches and a hit left",
    "the root's shift least", "the root's shift greatest", "shift least", "shift greatest",
    "shift 0 behind the nodes", f"shift {BODY + 1} behind the nodes",
)
KINDS = ("carrying on", "supplying", "a packet")
# How a round ends, and how its last byte came in; what a hit is, by whether one was left before the call, and one is after it.
ENDS = ("a closing byte", "no child", "the image's start")
LAST = ("supplied", "of a packet", "remembered", "before the call")
HITS = (("the only hit of a round", "the first of several hits"), ("the last of several hits", "one of several hits"))
SHIFTS = ("a node shift", "a byte shift", "a shift")
# Whether a packet has bytes left, how many it used, and what it answered, seen from the place of the last one used.
RESTS, USED = ("used whole", "with bytes left"), ("no byte", "one byte", "several bytes")
NEXT, THEN = "fetch the next place down", ("hit", "done", "fetch a higher place", "fetch a place below a stretch")
LIMITS = ("at", "up to", "past", "from one below past")  # how what one call adds stands to the count's limit


def wanted():
    for kind in KINDS:
        yield from (f"{cause}, alone, {kind}" for cause in ALONE)
        yield from (f"{cause}, {kind}" for cause in NEVER_ALONE)
        yield from (f"{what}, {kind}" for what in ("11", "9 before 10", "9 before 11", "10 before 11", "10 near 2^64"))
        yield from (f"{what}, {kind}" for what in ("fetch", "done", *HITS[False], "hit when b > N"))
    yield from (f"{what}, carrying on" for what in HITS[True])
    yield from (f"11 with a hit left, {kind}" for kind in KINDS[1:])
    yield from ("hit after hit", "fetch after hit", "done after hit", "done after done")
    for how, last in itertools.product(ENDS, LAST):
        if (how, last) != ("a closing byte", "before the call"):
            yield from (f"{hits} of a round ended by {how}, its last byte {last}" for hits in ("hits", "no hit"))
    yield from wanted_of_packets()
    yield from (f"9: shortest of {len(TABLES) - 1}, {name}" for name in TABLES)
    yield from (f"within: {what}" for what in WITHIN)
    yield from wanted_of_memory()
    yield from ("rule 4: forgotten", "rule 4: cut", "rule 6: not kept", "rule 6: just kept")
    yield from (f"rule 5: {what} that only a reverse makes" for what in SHIFTS)
    yield from wanted_of_entries()
    yield from (f"{what}, of a reverse" for what in (*HITS[False], *HITS[True]))
    yield from ("hit of a reverse at an inner node", *(f"hit of a reverse, {kind}" for kind in KINDS))


def entry_names():
    """All that an entry from 1 on can be beside a node shift and a byte shift of 1 to S; by rule 5 the root's is 1."""
    for shortest, entry, byte, alone in itertools.product(range(1, 5), range(1, 6), range(1, 5), (False, True)):
        if byte <= shortest:
            yield entry_name(True, entry, 1, byte, alone, shortest)
            yield from (entry_name(False, entry, node, byte, alone, shortest) for node in range(1, shortest + 1))


def wanted_of_entries():
    yield from dict.fromkeys(entry_names())
    yield from (f"rule 5: an entry with no token, {what}" for what in ("alone", "and a closing byte"))
    yield from (f"rule 6: {which} {what} by an entry" for which in ("the new stretch", "one left over") for what in ("kept", "dropped"))
    yield from (f"9: a shift {order} another cause" for order in ("before", "behind", "at the node of"))
    yield from (f"9: shift {way}, at the last node" for way in ("one below", "one above", "far above"))


def wanted_of_packets():
    for due in ("a byte due", "no byte due"):
        yield from (f"15 before {number}, {due}" for number in (9, 10))
    yield from ("15 before 11, no byte due", "15 before 11 with a hit left", "15 alone, a byte due")
    yield from (f"15 with a packet of {n} bytes" for n in (RUN + 1, RUN + 2, 200, 1000))
    yield from (f"{number} with a packet of {n} bytes" for number in (9, 10, 11) for n in (0, RUN))
    yield from (f"a packet of {n} bytes {rest}" for n in (RUN - 1, RUN) for rest in RESTS)
    yield from (f"a packet used whole, {used} used, then {NEXT}" for used in USED)
    for rest in RESTS:
        yield from (f"a packet {rest}, {used} used, then {then}" for used in USED[1:] for then in THEN)
        yield from (f"a packet {rest} at place 0, then {then}" for then in THEN[:3])
    yield "a packet on past a token"
    yield from (f"a packet {way} the count's limit" for way in LIMITS)


def wanted_of_memory():
    """A round's first place is never remembered: carrying on takes remembered bytes only of the round in which the given state stands, and
    none again."""
    for kind in KINDS:
        yield from (f"{what} remembered, {kind}" for what in ("a match", "a closing byte", "several bytes"))
        yield from (f"remembered bytes, {kind}, {way} the count's limit" for way in LIMITS)
        yield f"remembered bytes past a count of 2^32, {kind}"
    for kind in KINDS[1:]:
        yield from (f"a remembered place again, {kind}", f"11 at a remembered place, {kind}")
    yield "15 at a remembered place"


def note(causes, kind):
    for cause in causes:
        seen[f"{cause}, {kind}"] += 1
        seen[f"{cause}, alone, {kind}"] += len(causes) == 1


def note_short(lists, count):
    """Which table is the shortest, where some are too short."""
    sizes = [len(table) for table in lists]
    seen[f"9: shortest of {sum(n < count for n in sizes)}, {TABLES[sizes.index(min(sizes))]}"] += 1


def note_shift_break(lists, count, value, causes):
    """Where the first shift out of its range stands to the first other cause, no table being too short."""
    by_shift = next((v for v in range(count) if not 1 <= lists[5][v] <= BODY), None)
    other = tables.first_break([*lists[:5], [1] * count], count)
    if by_shift is not None and other is not None:
        seen[f"9: a shift {'before' if by_shift < other else 'behind' if by_shift > other else 'at the node of'} another cause"] += 1
    for cause in causes:
        seen[f"{cause}, at the last node"] += value == count - 1


def note_end(lists, s, last, closing):
    """How a round ended; it still stands where it ended."""
    for how, holds in zip(ENDS, (closing is not None, not lists[3][s.node], s.depth == s.boundary)):
        seen[f"{'hits' if s.hit else 'no hit'} of a round ended by {how}, its last byte {last}"] += holds


def beside(x, y):
    return "below" if x < y else "above" if x > y else "equal to"


def entry_name(root, entry, node, byte, alone, shortest):
    """How the entry at which a round ends lies to rule 5's own node shift, to the byte shift, if there is a closing byte, and to S."""
    other = "alone" if alone else f"{beside(entry, byte)} the byte shift"
    return f"rule 5: {'the root' if root else 'a node'}'s entry {beside(entry, node)} the rule's, {other}, {beside(entry, shortest)} S"


def note_shifts(lists, s, closing, found):
    """How the entry lies to the shifts that rule 5 finds, and which of these would be greater without the words that are reverses."""
    alone = closing is None
    seen[entry_name(s.node == 0, lists[5][s.node], *found, alone, s.shortest)] += 1
    seen[f"rule 5: an entry with no token, {'alone' if alone else 'and a closing byte'}"] += not any(lists[2][: s.count])
    if s.reverses:
        own = shifts(lists, s, closing, s.reverses)
        for what, by, other in zip(SHIFTS, (*found, max(found)), (*own, max(own))):
            seen[f"rule 5: {what} that only a reverse makes"] += by < other


def note_stretches(lists, s, stretches, found):
    """Which stretches, the last one the new one, are kept by the entry and would not be by the rule's own shift, or the other way round."""
    given, own = (s.boundary + shift_of(s, node, found[1]) for node in (lists[5][s.node], found[0]))
    for m in stretches:
        which = "the new stretch" if m is stretches[-1] else "one left over"
        seen[f"rule 6: {which} kept by an entry"] += kept(given, m) > kept(own, m)
        seen[f"rule 6: {which} dropped by an entry"] += kept(given, m) < kept(own, m)


def follows(last, said):
    """A packet's answer, seen from the place of the last byte used."""
    word, *values = said.split()
    if word != "fetch":
        return word
    place = int(values[0])
    return NEXT if place == last - 1 else THEN[2 if place > last else 3]


def note_packet(run, used, place, said):
    """How a packet ended whose first byte was for this place."""
    last = place + 1 - used
    rest, then = RESTS[used < len(run)], follows(last, said)
    seen[f"a packet of {len(run)} bytes {rest}"] += 1
    seen[f"a packet {rest}, {USED[min(used, 2)]} used, then {then}"] += 1
    seen[f"a packet {rest} at place 0, then {then}"] += used > 0 and last == 0


def note_count(what, before, many, most):
    """How so many bytes in one call stand to the greatest count of them: at it, up to it, past it by several, past it from one below."""
    holds = (before == most and many > 0, before < most == before + many and many > 1)
    holds += (before < most < before + many - 1, before == most - 1 and many > 1)
    for way, met in zip(LIMITS, holds):
        seen[f"{what} {way} the count's limit"] += met


def note_recalled(s, count, many, kind):
    """What remembered bytes a call took; before it they were `many`, and the state's count was `count`."""
    earlier, taken = {place for place, _ in s.recalled[:many]}, s.recalled[many:]
    for place, closing in taken:
        seen[f"{'a closing byte' if closing else 'a match'} remembered, {kind}"] += 1
        seen[f"a remembered place again, {kind}"] += place in earlier
    seen[f"several bytes remembered, {kind}"] += len(taken) > 1
    seen[f"remembered bytes past a count of 2^32, {kind}"] += count < 2**32 <= count + len(taken)
    note_count(f"remembered bytes, {kind},", count, len(taken), SPARED)


def note_left(lists, s):
    """What hits are left, in their ranges."""
    numbers = [lists[2][v] for v in carriers(lists, s.hit)]
    seen["within: three hits left"] += len(numbers) >= 3
    seen["within: 68 hits left"] += len(numbers) == 68
    seen["within: hits left with one token number"] += len(set(numbers)) < len(numbers)
    seen["within: a hit left when b > N"] += s.hit > 0 and s.boundary > s.image
    seen["within: four stretches and a hit left"] += s.hit > 0 and len(s.stretches()) == 4


def note_answer(s, word, kind, left):
    """What a call answered; `left`: a hit was left before it."""
    if word == "hit":
        seen[f"{HITS[left][s.hit > 0]}, {kind}"] += 1
        seen[f"{HITS[left][s.hit > 0]}, of a reverse"] += s.met in s.reverses
        seen[f"hit of a reverse, {kind}"] += s.met in s.reverses
        seen[f"hit when b > N, {kind}"] += s.boundary > s.image
    seen[f"{word}, {kind}"] += 1
    seen[f"{word} after {s.said}"] += 1
    s.said = word


def note_within(lists, s):
    for name, low, x, high in state_ranges(lists, s):
        seen[f"within: {name} least"] += x == low
        seen[f"within: {name} greatest"] += x == high
    seen["within: four stretches"] += len(s.stretches()) == 4
    seen["within: a byte due"] += s.due
    seen["within: a node 1,024 deep"] += len(ending(lists, s.count - 1)) == BODY
    seen["within: token number 256"] += max(lists[2][: s.count]) == 256
    seen["within: entries behind the nodes"] += min(map(len, lists)) > s.count
    note_shifts_within(lists[5], s.count)
    note_left(lists, s)


def note_shifts_within(shift, count):
    for x, end in ((1, "least"), (BODY, "greatest")):
        seen[f"within: the root's shift {end}"] += shift[0] == x
        seen[f"within: shift {end}"] += x in shift[1:count]
    for x in (0, BODY + 1):
        seen[f"within: shift {x} behind the nodes"] += x in shift[count:]


def note_refusal(lists, state, kind, number, value, causes):
    """What led to the first of 9, 10 and 11, or to none of them."""
    early = out_of_turn(state, kind)
    note(causes, kind)
    if number == 9:
        if min(map(len, lists)) < state.count:
            note_short(lists, state.count)
        else:
            note_shift_break(lists, state.count, value, causes)
        seen[f"9 before 10, {kind}"] += state.shortest == 0
        seen[f"9 before 11, {kind}"] += early
    elif number == 10:
        seen[f"10 before 11, {kind}"] += early
        seen[f"10 near 2^64, {kind}"] += max(state.numbers()) >= 2**63
    else:
        note_within(lists, state)
        seen[f"11, {kind}"] += early
        seen[f"11 with a hit left, {kind}"] += early and state.hit > 0
        seen[f"11 at a remembered place, {kind}"] += early and at_remembered(lists, state)


def note_long(lists, state, number):
    """What refusal 15 came before: the first of the others, or 0."""
    due = "a byte due" if state.due else "no byte due"
    seen[f"15 before {number}, {due}" if number else f"15 alone, {due}"] += 1
    seen["15 before 11 with a hit left"] += number == 11 and state.hit > 0
    seen["15 at a remembered place"] += number == 11 and at_remembered(lists, state)


def kind_of(what):
    return KINDS[2] if isinstance(what, bytes) else KINDS[what != CARRY]


def out_of_turn(state, kind):
    return state.due == (kind == "carrying on")


def step_refusal(lists, state, kind):
    """The first of the refusals 9, 10 and 11, or 0, its value and its causes."""
    value, causes = broken(lists, state.count)
    assert value == tables.first_break(lists, state.count)
    if causes:
        return 9, value, causes
    causes = range_causes(lists, state)
    return 10 if causes else 11 if out_of_turn(state, kind) else 0, 0, causes


def refusal(lists, state, what):
    """The number of the refusal, or 0, and its value."""
    kind = kind_of(what)
    number, value, causes = step_refusal(lists, state, kind)
    if kind == "a packet" and len(what) > RUN:
        note_long(lists, state, number)
        number, value = 15, 0
    else:
        note_refusal(lists, state, kind, number, value, causes)
    if kind == "a packet":
        seen[f"{number} with a packet of {len(what)} bytes"] += 1
    return number, value


def call(lists, state, what):
    """The answer, and how many bytes it used; the state is changed in place where the call is not refused, and stays in its ranges."""
    kind, left, count, many = kind_of(what), state.hit > 0, state.spared, len(state.recalled)
    number, value = refusal(lists, state, what)
    if number:
        return f"refused {number} {value}", 0
    if kind == "a packet":
        said, used = packet(lists, state, what)
    else:
        said, used = (settle(lists, state), 0) if what == CARRY else (supply(lists, state, what), 1)
    assert not range_causes(lists, state)
    note_answer(state, said.split()[0], kind, left)
    note_recalled(state, count, many, kind)
    return said, used


# The cases: tables, a state, and calls


def built(bodies):
    lists = tables.build(bodies)
    return lists, min(map(len, bodies)), len(lists[0])


def search(words, image):
    """The hits (end, number) of words, each a number and its bytes, plainly: ends rise, and at one end the longest word comes first."""
    order = sorted(words, key=lambda word: -len(word[1]))
    return [(end, number) for end in range(len(image) + 1) for number, body in order if image[:end].endswith(body)]


def followed(lists, state, reply):
    """The calls of a sweep from the state on, the answers and the places fetched; what `reply` gives for a place is supplied there."""
    calls, answers, places, what, place = [], [], [], CARRY, 0
    while answers[-1:] != ["done"]:
        said, used = call(lists, state, what)
        calls.append(what)
        answers.append(said)
        places += range(place, place - used, -1)
        word, *values = said.split()
        assert word != "refused"
        if word == "fetch":
            place = int(values[0])
        what = reply(place) if word == "fetch" else CARRY
    return calls, answers, places


def swept(lists, words, image, reply=None):
    """Tables with these words, first state, and the calls of a whole sweep, whose hits are those of a search; and the places fetched, with
    the number of bytes spared."""
    state = State(len(image), min(len(body) for _, body in words), len(lists[0]))
    last = copy.deepcopy(state)
    calls, answers, places = followed(lists, last, reply or image.__getitem__)
    assert [said for said in answers if said.startswith("hit")] == [f"hit {end} {number}" for end, number in search(words, image)]
    return lists, state, calls, (places, last.spared)


def run_at(image, place, size):
    """The run that is sent for a place: the byte there, the one below, and so on; a shorter one at the image's start."""
    return image[max(0, place + 1 - size) : place + 1][::-1]


def swept_by_packets(lists, words, image, size):
    """The same by packets, each as long as `size` then says; the places fetched, and how many bytes are spared, are those of the sweep by
    single bytes."""
    case = swept(lists, words, image, lambda place: run_at(image, place, size()))
    assert case[3] == swept(lists, words, image)[3]
    return case


def reverses(lists, bodies):
    """The nodes of a book's tables where a token's reverse ends."""
    backwards = {word for body in bodies for word in tables.words(body)[1:]}
    return frozenset(v for v in range(len(lists[0])) if lists[2][v] and ending(lists, v) in backwards)


def sweep(bodies, image, size=None):
    """By single bytes, or by packets as long as `size` says."""
    given = tables.build(bodies), tables.spelled(bodies), image
    case = swept_by_packets(*given, size) if size else swept(*given)
    case[1].reverses = reverses(given[0], bodies)
    return case


# Books, images, and of some of them the places fetched and how many bytes are spared.
SAMPLES = (
    ([b"axbbx"], b"cccaxbbx", ("4 3 7 6 5 4 3", 0)),
    ([b"b", b"baaaa"], b"aaaaaaaa", ("0 1 0 2 1 0 3 2 1 0 4 5 4 3 2 1 6 7 6 5 4 3", 8)),
    ([b"a", b"aa"], b"aaa", ("0 1 0 2 1", 0)),
    ([b"axbbx"], b"", ("", 0)),
    ([b"axbbx"], b"axbb", ("", 0)),
    ([b"aaaaa", b"aa"], b"aaaaaa", None),
    ([b"baab", b"ab", b"a"], b"bbaabbaaa", None),
    ([b"baba", b"babab"], b"bbababaa", None),
    ([b"a", b"aa", b"aaa", b"aaaa"], b"aaaaaabaaa", None),
    ([b"aaaa", b"aa", b"baaaa", b"a", b"aaa"], b"baaaaabaaaa", None),
    ([b"x", b"bx", b"bbx", b"xbbx", b"axbbx"], b"axbbxbbxcbxaxbbx", None),
    ([b"axbbx", b"bx", b"xbbx", b"ccaxbbx", b"b", b"xb"], b"bbxccaxbbxbbxb", None),
    ([b"abab", b"ab", b"bab", b"b", b"ababab"], b"abababababbab", None),
    ([b"abcd"], b"dcba", ("3 2 1 0", 0)),
    ([b"abcd", b"edc"], b"dcbaxedcbabcdcba", None),
    ([b"abcdefg", b"dcba", b"xabcd"], b"gfedcbabcdefgxdcbaxabcd", None),
    ([b"zyxdcbaxy", b"abcd", b"xdcba", b"ba", b"xyzabcd"], b"zyxdcbaxyzabcdxdcbabcdcbazyx", None),
    ([b"abcdefghij", b"hgfedcb", b"dcba"], b"jihgfedcbaabcdefghijihgfedcbabc", None),
    ([b"aabb", b"abba", b"aab", b"bbaab"], b"bbaabbaaabbabbaabb", None),
    ([b"abc", b"abcde", b"abcdef", b"bcdefghi"], b"cbaedcbafedcbaihgfedcbabcdefghi", None),
)


def samples():
    for bodies, image, by_hand in SAMPLES:
        lists, state, calls, (places, spared) = sweep(bodies, image)
        assert by_hand is None or (" ".join(map(str, places)), spared) == by_hand
        yield lists, state, calls + [CARRY, 7, b"\7"]
        yield [l + [9, 9] for l in lists], state, calls
        yield from (sweep(bodies, image, lambda: size)[:3] for size in (1, 2, 3, RUN))


def chain(n):
    """One token of n bytes: node v is v deep."""
    return tables.build([b"a" * n])


EACH = [CARRY, 97, b"ab", b"", b"a" * RUN, b"a" * (RUN + 1)]


def damaged():
    """Tables that refusal 9 must tell apart: a root, its child, three children of that, and a node that no chain leads to."""
    good = [[0, 0, 1, 1, 1, 0, 1], [0, 97, 98, 99, 100, 7, 7], [0, 0, 1, 2, 256, 0, 300], [1, 2, 0, 0, 0, 0, 9], [0, 0, 3, 4, 0, 0, 9]]
    good.append([1, 2, 1, 2, 1024, 2, 0])
    parent, label, token, first, following, shift = range(6)
    changes = [[], [(parent, 0, 1)], [(label, 0, 1)], [(token, 0, 1)], [(following, 0, 1)], [(first, 0, 0)], [(first, 0, 2)]]
    changes += [[(parent, 5, 5)], [(parent, 5, 6)], [(parent, 5, 4)], [(token, 5, 256)], [(token, 5, 257)], [(token, 5, 65535)]]
    changes += [[(first, 5, 5)], [(first, 5, 4)], [(first, 4, 5)], [(parent, 6, 4), (first, 4, 6)], [(first, 4, 6)], [(first, 4, 7)]]
    changes += [[(parent, 5, 4), (first, 4, 5)], [(following, 3, 3)], [(following, 3, 2)], [(following, 4, 5)], [(following, 4, 6)]]
    changes += [[(parent, 5, 1), (following, 4, 5)], [(following, 4, 7)], [(first, 1, 6), (following, 4, 9)]]
    changes += [[(shift, v, x)] for v in (0, 1, 4, 5) for x in (0, 1, 1024, 1025, 1280, 65535)]  # 1,280 has 0 as its low byte
    changes += [[(shift, 1, 0), (token, 2, 257)], [(shift, 4, 1025), (following, 3, 3)], [(shift, 0, 0), (label, 0, 1)]]
    changes += [[(shift, 5, 1025), (parent, 5, 5)], [(shift, 0, 1025), (parent, 5, 6)], [(shift, 5, 0), (following, 0, 1)]]
    changes += [[(shift, 2, 0), (shift, 4, 1025)], [(shift, 6, 1025)]]
    for change in changes:
        lists = copy.deepcopy(good)
        for k, at, value in change:
            lists[k][at] = value
        yield lists, State(9, 2, 6), EACH
        yield lists, State(9, 2, 6, due=True), EACH
        yield lists, State(9, 2, 6, 4, end=3, hit=4), EACH + EACH
    for k in range(6):
        yield from ((good[:k] + [good[k][:n]] + good[k + 1 :], State(9, 2, 6), EACH) for n in (5, 0))
        yield [l[: 1 + (i + k) % 6] for i, l in enumerate(good)], State(9, 0, 6), EACH
    yield good, State(9, 2, 8), EACH
    spoilt = copy.deepcopy(good)
    spoilt[label][0] = 1
    yield spoilt, State(9, 0, 6, due=True), EACH
    yield spoilt, State(9, 0, 0), EACH
    yield spoilt, State(9, 2, 6, 4, end=3, hit=2**64 - 1), EACH
    deepest = chain(1024)
    yield deepest, State(2000, 1024, 1025), EACH
    deeper = [l + [x] for l, x in zip(deepest, (1024, 97, 0, 0, 0, 1))]
    deeper[first][1024] = 1025
    yield deeper, State(2000, 1024, 1026), EACH


def ranges():
    """Ranges at their ends and one further, over one token of 20 bytes and an entry behind it: node v is v deep."""
    lists = [l + [x] for l, x in zip(chain(20), (20, 97, 0, 0, 0, 0))]
    base = dict(image=30, shortest=20, count=21, boundary=25, slots=[(0, 20, 20), (20, 24, 4)])
    none, far = dict(slots=[]), 2**64 - 1
    for changes in (
        dict(), dict(count=0) | none, dict(count=23), dict(image=IMAGE), dict(image=IMAGE + 1), dict(shortest=0),
        dict(shortest=1), dict(shortest=1024), dict(shortest=1025), dict(supplied=MOST), dict(supplied=MOST + 1), dict(spared=SPARED),
        dict(spared=SPARED + 1), dict(due=True, spared=SPARED), dict(due=True, spared=SPARED + 1), dict(spared=far),
        dict(node=2, depth=2), dict(node=2, depth=1), dict(node=2, depth=3), dict(node=20, depth=20), dict(node=21, depth=21),
        dict(boundary=2, node=2, depth=2) | none, dict(boundary=1, node=2, depth=2) | none, dict(boundary=0) | none,
        dict(boundary=1054) | none, dict(boundary=1055) | none, dict(boundary=31) | none, dict(boundary=30) | none,
        dict(image=IMAGE, boundary=IMAGE + 1024) | none, dict(image=IMAGE, boundary=IMAGE + 1025) | none,
        dict(image=IMAGE, boundary=IMAGE, slots=[(IMAGE - 9, IMAGE - 1, 8)]), dict(image=0, boundary=20) | none,
        dict(image=24), dict(image=23), dict(boundary=24, slots=[(20, 24, 4)]), dict(boundary=23, slots=[(20, 24, 4)]),
        dict(slots=[(0, 20, 20), (19, 24, 5)]), dict(slots=[(1, 20, 19), (20, 24, 4)]), dict(slots=[(20, 24, 4), (0, 20, 20)]),
        dict(slots=[(19, 24, 4)]), dict(slots=[(20, 24, 5)]), dict(slots=[(4, 24, 20)]), dict(slots=[(3, 24, 21)]),
        dict(boundary=26, slots=[(17, 24, 7)]), dict(boundary=26, slots=[(16, 24, 8)]), dict(slots=[(21, 24, 3)]),
        dict(slots=[(0, 0, 0), (20, 24, 4)]), dict(slots=[(20, 24, 4), (0, 0, 0), (20, 24, 4)]), dict(slots=[(0, 0, 1)]),
        dict(slots=[(20, 20, 0)]), dict(slots=[(24, 20, 4)]), dict(slots=[(24, 20, 4), (20, 24, 4)]), dict(slots=[(20, 24, 4)] * 5),
        dict(due=True), dict(due=True, supplied=MOST), dict(due=True, node=1, depth=1), dict(due=True, node=1, depth=1) | none,
        dict(due=True, boundary=31) | none, dict(due=True, boundary=30) | none, dict(due=True, node=20, depth=20) | none,
        dict(due=True, boundary=2, node=2, depth=2) | none, dict(due=True, boundary=3, node=2, depth=2) | none,
        dict(due=True, shortest=0), dict(due=True, supplied=MOST + 1),
        dict(image=far), dict(image=far, boundary=far) | none, dict(boundary=far) | none, dict(shortest=far), dict(node=far),
        dict(depth=far), dict(depth=far, boundary=far), dict(supplied=far), dict(count=far), dict(slots=[(0, far, 20)]),
        dict(slots=[(far, far, far)]), dict(slots=[(0, 20, far)]), dict(due=True, boundary=far, slots=[(far - 20, far, 20)]),
    ):
        yield lists, State(**(base | changes)), EACH + [98, CARRY, 97, CARRY, b"ab", CARRY]


# Tokens of as many a, the longest first, so that node v is v deep; and calls that answer hits left, in turn and out of it.
INNER = (40, 1, 20, 2, 5)
LEFT = [97, b"a", CARRY, 98, CARRY, CARRY, 97, CARRY, CARRY, 97, 98, CARRY, b"aaaaab", b"a" * (RUN + 1), CARRY, b"ba"]


def hits_left():
    """Hits left: their ranges at their ends and one further, over tokens inside tokens and an entry behind them that has a number too."""
    inner = tables.build([b"a" * n for n in INNER])
    lists = [l + [x] for l, x in zip(inner, (40, 97, 6, 0, 0, 1))]
    base = dict(image=60, shortest=8, count=41, boundary=45, slots=[(0, 40, 40), (40, 44, 4)], end=44, hit=20)
    none, far = dict(slots=[]), 2**64 - 1
    for changes in (
        dict(), none, dict(hit=40), dict(hit=1), dict(hit=2), dict(hit=3), dict(hit=4), dict(hit=41), dict(hit=42), dict(count=42, hit=41),
        dict(count=42, hit=42), dict(end=0, hit=0), dict(end=1, hit=0), dict(hit=0), dict(end=1, hit=0) | none, dict(end=0) | none,
        dict(end=20, boundary=21) | none, dict(end=19, boundary=20) | none, dict(end=1, boundary=2, hit=20) | none,
        dict(end=1, boundary=2, hit=1) | none, dict(end=20, boundary=21, slots=[(0, 20, 20)]),
        dict(image=44), dict(image=45), dict(image=43) | none, dict(image=40) | none, dict(image=40, boundary=52) | none,
        dict(boundary=44, slots=[(0, 40, 40)]), dict(boundary=43, slots=[(0, 40, 40)]), dict(boundary=44) | none, dict(boundary=20) | none,
        dict(boundary=46) | none, dict(boundary=52) | none, dict(boundary=53) | none, dict(boundary=60) | none, dict(boundary=61) | none,
        dict(boundary=52, slots=[(4, 44, 40)]), dict(boundary=53, slots=[(4, 44, 40)]), dict(boundary=52, slots=[(5, 45, 40)]),
        dict(shortest=1), dict(shortest=1, boundary=46) | none, dict(shortest=0), dict(shortest=1024, boundary=1068) | none,
        dict(shortest=1024, boundary=1069) | none, dict(image=44, shortest=1024, boundary=1068) | none,
        dict(image=44, shortest=1024, boundary=1069) | none, dict(image=44, boundary=52) | none, dict(image=44, boundary=53) | none,
        dict(image=IMAGE, end=IMAGE, boundary=IMAGE + 1024, shortest=1024) | none,
        dict(image=IMAGE, end=IMAGE + 1, boundary=IMAGE + 1024, shortest=1024) | none,
        dict(image=IMAGE, end=IMAGE, boundary=IMAGE + 1025, shortest=1024) | none,
        dict(boundary=46, slots=[(40, 44, 4)]), dict(boundary=46, slots=[(41, 45, 4)]), dict(boundary=47, slots=[(42, 46, 4)]),
        dict(boundary=46, slots=[(0, 40, 40), (41, 45, 4)]), dict(boundary=46, slots=[(1, 41, 40), (41, 45, 4)]),
        dict(boundary=50, slots=[(5, 45, 40), (45, 49, 4)]), dict(end=40, boundary=41, slots=[(0, 40, 40)]),
        dict(end=39, boundary=41, slots=[(0, 40, 40)]), dict(end=43), dict(end=44, slots=[(44, 44, 0)]),
        dict(node=1, depth=1), dict(node=1, depth=1) | none, dict(node=40, depth=40), dict(node=1), dict(depth=1), dict(node=41, depth=41),
        dict(node=20, depth=20, end=0), dict(node=20, depth=20, end=20, boundary=21) | none,
        dict(due=True), dict(due=True) | none, dict(due=True, image=44) | none, dict(due=True, node=1, depth=1) | none,
        dict(due=True, boundary=53) | none, dict(due=True, hit=3), dict(due=True, end=1, hit=0) | none, dict(due=True, end=0, hit=0) | none,
        dict(supplied=MOST), dict(supplied=MOST + 1), dict(spared=SPARED), dict(spared=SPARED + 1),
        dict(hit=far), dict(hit=far) | none, dict(end=far), dict(end=far, hit=far),
        dict(end=far, hit=0), dict(end=far - 3) | none, dict(end=far - 7) | none, dict(end=far, boundary=1) | none,
        dict(end=far - 1, boundary=far) | none, dict(image=far, end=far - 1, boundary=far) | none, dict(shortest=far),
        dict(hit=2**16 + 20), dict(hit=2**32 + 20), dict(end=2**32 + 44), dict(end=2**32, hit=0), dict(due=True, end=far, hit=far),
    ):
        yield lists, State(**(base | changes)), LEFT
    yield inner, State(**(base | dict(hit=41))), EACH
    yield inner, State(**(base | dict(hit=40, image=44))), LEFT


def standing():
    """Rounds that stand where they end, or run there over remembered bytes, with tokens on their way: before done, and when done."""
    lists, _, count = built([b"a" * n for n in INNER] + [b"baaaaaaa"])
    for b, d, slots in (
        (40, 40, []), (41, 40, []), (45, 40, [(0, 40, 40)]), (20, 20, []), (3, 3, []), (1, 1, []), (25, 5, [(0, 20, 20)]),
        (42, 2, [(0, 40, 40)]), (41, 1, [(0, 40, 40)]), (45, 5, [(20, 40, 20)]), (46, 6, [(5, 40, 35)]), (20, 2, [(10, 18, 41)]),
        (19, 1, [(10, 18, 41)]), (8, 8, []), (7, 7, []),
    ):
        for image in (b - 1, b, b + 30):
            yield lists, State(image, 1, count, b, d, d, slots=slots), [CARRY, 98] + LEFT
            yield lists, State(image, 3, count, b, d, d, slots=slots), [CARRY, 97] + LEFT
            yield lists, State(image, 2, count, b, d, d, slots=slots), [CARRY, b"aab", CARRY, b"aaaaaab", CARRY] + LEFT


def remembered():
    """Rounds that stand before remembered bytes, or before a byte that is due and remembered ones below it: one or several, as matches and
    as the closing byte; with each kind of call, in turn and out of it, and the count from nothing to its limit."""
    lists, _, count = built([b"a" * n for n in INNER] + [b"baaaaaaa", b"aaaab", b"cc", b"aaaac"])
    nodes = {ending(lists, v): v for v in range(count)}
    for b, matched, left, there, byte in (
        (25, b"aaaaa", 0, b"a" * 20, None), (45, b"a", 40, b"aaaa", None), (45, b"aaaa", 40, b"aaaa", None),
        (20, b"aa", 10, b"baaaaaaa", None), (19, b"aaaaaaa", 10, b"baaaaaaa", None), (19, b"aaaaaaaa", 10, b"baaaaaaa", None),
        (19, b"", 10, b"baaaaaaa", b"a"), (20, b"", 10, b"baaaaaaa", b"a"), (20, b"a", 10, b"baaaaaaa", b"a"),
        (45, b"", 40, b"aaaa", b"a"), (41, b"", 0, b"a" * 40, b"a"), (15, b"", 9, b"aaaab", b"a"), (15, b"", 9, b"aaaac", b"c"),
    ):
        stretch = (left, left + len(there), nodes[there])
        base = dict(image=b + 30, shortest=2, count=count, boundary=b, node=nodes[matched], depth=len(matched), slots=[stretch])
        for spared in (0, 2**32 - 1, *(SPARED - k for k in (9, 8, 7, 2, 1, 0))):
            state, early = State(**base, due=byte is not None, spared=spared), [b"a" * (RUN + 1), b""]
            if byte is None:
                yield lists, state, [97, b"a", *early, CARRY] + LEFT
            else:
                yield from ((lists, state, [CARRY, *early, what] + LEFT) for what in (byte[0], byte, byte * 2, byte * 20))


def packets():
    """Packets of many lengths over a long token, alone or with others inside it: about its ends, over stretches, at the count's limit."""
    runs = [b"a" * n for n in (0, 1, 2, 5, 6, 36, 37, 63, 64, 65, 66, 200, 1000)]
    runs += [b"b", b"ab", b"ba", b"aaaaab", b"aaaab" + bytes(59), b"a" * 35 + b"ba", b"a" * 63 + b"b", b"b" + b"a" * 64]
    for lengths in ((100,), (100, 20, 64, 36)):
        lists, shortest, count = built([b"a" * n for n in lengths])
        base = dict(image=300, shortest=shortest, count=count, boundary=100, due=True)
        for changes in (
            dict(), dict(node=35, depth=35), dict(node=36, depth=36), dict(node=37, depth=37), dict(node=99, depth=99), dict(boundary=170),
            dict(image=100), dict(image=100, node=36, depth=36), dict(image=100, node=99, depth=99), dict(image=170, boundary=170),
            dict(boundary=36), dict(image=36, boundary=36), dict(boundary=1), dict(image=1, boundary=1),
            dict(boundary=65, slots=[(20, 60, 40)]), dict(boundary=62, slots=[(52, 60, 8)]), dict(boundary=61, slots=[(56, 60, 4)]),
            dict(boundary=61, slots=[(16, 56, 40), (56, 60, 4)]), dict(boundary=66, slots=[(0, 60, 60)]),
            dict(boundary=61, slots=[(0, 60, 60)]), dict(image=61, boundary=61, slots=[(0, 60, 60)]),
            dict(boundary=105, slots=[(0, 100, 100)]), dict(supplied=MOST), dict(supplied=MOST - 1), dict(supplied=MOST - 2),
            dict(supplied=MOST - 63), dict(supplied=MOST - 64),
        ):
            yield from ((lists, State(**(base | changes)), [run, b"aa", CARRY, b"", b"a" * RUN, CARRY]) for run in runs)


def large():
    """The node count at its ends and one further; as many stretches as a state can have, and one more; as many hits as can be left."""
    flat = [[0] * (NODES + 2)] * 5 + [[1] * (NODES + 2)]
    for count in (1, NODES, NODES + 1):
        yield flat, State(3, 1, count), EACH
    four = [(0, 500, 500), (500, 600, 100), (600, 620, 20), (620, 624, 4)]
    long = chain(500)
    yield long, State(700, 500, 501, 625, slots=four), EACH + EACH
    yield long, State(700, 500, 501, 625, slots=four + [(624, 625, 1)]), EACH
    yield long, State(700, 500, 501, 625, slots=four, end=624, hit=500), EACH + EACH
    every = tables.build([b"a" * n for n in tables.LENGTHS.values()])
    yield every, State(1024, 1, 1025, 1025, end=1024, hit=1024), [CARRY, 97] + [CARRY] * 69
    yield every, State(1023, 1, 1025, 1024, end=1023, hit=1024), EACH


def shifted(lists):
    """Five tables, and rule 5's shifts by the words of their nodes with a number."""
    return [*lists, tables.node_shifts(words_of(lists, len(lists[0])), lists[0], lists[1])]


def uneven():
    """Tables that no building made: no child, no token, siblings with one label, a token's bytes in one order alone, a node that no chain
    leads to, a number many times."""
    yield [[0]] * 5 + [[1]], State(3, 1, 1), [CARRY, CARRY]
    for entries in ([1, 1], [1, 2], [2, 1], [1024, 1024]):
        bare = [[0, 0], [0, 97], [0, 0], [1, 0], [0, 0], entries]
        yield bare, State(5, 2, 2), [CARRY, 97, 97, 98, CARRY, 97]
        yield bare, State(9, 2, 2), [CARRY, b"aa", b"a", b"ba", b"", b"a", b"aaa", b"ab"]
        yield [[0]] * 5 + [entries[:1]], State(9, 4, 1), [CARRY, CARRY]
    mute = chain(20)
    mute[2] = [0] * 21
    yield mute, State(60, 5, 21, 25, due=True, slots=[(5, 24, 19)]), [b"aa", b"a" * 9, CARRY, b"a" * RUN]
    twins = shifted([[0, 0, 0], [0, 97, 97], [0, 1, 2], [1, 0, 0], [0, 2, 0]])
    yield twins, State(3, 1, 3), [CARRY, 97, CARRY, 97, CARRY, 98]
    one_way = shifted([[0, 0, 1, 2, 3], [0, *b"dcba"], [0, 0, 0, 0, 1], [1, 2, 3, 4, 0], [0] * 5])
    yield from (swept(one_way, [(1, b"abcd")], image)[:3] for image in (b"dcba", b"dcbaxdcbabcdcba"))
    stray = shifted([[0, 0, 1], [0, 97, 98], [0, 0, 3], [1, 0, 0], [0, 0, 0]])
    yield stray, State(6, 2, 3), [CARRY, 97, CARRY, 98, 97, 97, CARRY]
    yield stray, State(6, 2, 3), [CARRY, b"ab", b"ba", CARRY, b"aaa", b"a"]
    yield twins, State(3, 1, 3, 2, end=1, hit=2), [CARRY, 97, CARRY, 97]
    yield stray, State(6, 2, 3, 4, end=3, hit=2), [CARRY, CARRY, 97]
    for numbers in ([7, 7, 7, 7, 7, 7], [7, 7, 0, 7, 7, 256], [0, 0, 7, 256, 7, 0], [256, 0, 1, 0, 0, 256], [0, 3, 3, 0, 3, 0]):
        repeated = chain(6)
        repeated[2] = [0, *numbers]
        words = [(repeated[2][v], ending(repeated, v)) for v in carriers(repeated, 6)]
        yield from (swept(repeated, words, image)[:3] for image in (b"aaaaaaaaa", b"aabaaaaaabaaaa"))
        yield repeated, State(9, 4, 7, 9, end=6, hit=max(carriers(repeated, 6))), LEFT


def other_entries(shifts, shortest):
    """Entries that no building wrote: the same at each node, about S, with 0 as its low byte and at the ends of the range; one more or
    less than the rule's; and some that fall towards the last node."""
    for x in sorted({1, 2, shortest - 1, shortest, shortest + 1, 256, BODY} - {0}):
        yield [x] * len(shifts)
    yield [x + 1 for x in shifts]
    yield [max(1, x - 1) for x in shifts]
    yield [1 + (len(shifts) - v) % (shortest + 2) for v in range(len(shifts))]


def given():
    """Tables with such entries: whole sweeps, by single bytes and by packets; and states between rounds, within them, where they end, and
    at the image's start, with an S of their own."""
    for bodies, image, _ in SAMPLES:
        lists, shortest, count = built(bodies)
        for entries in other_entries(lists[5], shortest):
            state = State(len(image), shortest, count)
            for reply in (image.__getitem__, lambda place: run_at(image, place, 3)):
                yield [*lists[:5], entries], state, followed([*lists[:5], entries], copy.deepcopy(state), reply)[0]
    for lists, state, calls in standing():
        if state.image == state.boundary:
            for entries in other_entries(lists[5], state.shortest):
                yield [*lists[:5], entries], state, calls
    for bodies, run in (([b"abcabcabc", b"cab"], b"cbacbacbax"), ([b"a" * 9], b"axaaxaaax")):
        lists, shortest, count = built(bodies)
        for entries, s in itertools.product(other_entries(lists[5], shortest), (1, 2, 5, 9, BODY)):
            yield [*lists[:5], entries], State(40, s, count, boundary=0), [CARRY, *run, CARRY, run[:4], run]


SIZES = (0, 1, 1, 2, 2, 5, 5, 63, 64, 65, 100)  # of random packets


def some_bodies(rng):
    """A few bodies of two letters, often with endings of one of them, or of its reverse."""
    sizes = [1, 2, 3, 4, 4, 5, 7, 8, 10, 16]
    bodies = [bytes(rng.choice(b"ab") for _ in range(rng.choice(sizes))) for _ in range(rng.randint(1, 4))]
    if rng.random() < 0.5:
        body = rng.choice(bodies)[:: rng.choice([1, -1])]
        bodies += [body[-rng.randint(1, len(body)) :] for _ in range(rng.randint(1, 5))]
        rng.shuffle(bodies)
    return tables.distinct(bodies)


def some_image(rng):
    return bytes(rng.choice(b"ab") for _ in range(rng.randint(0, 40)))


def some_run(rng, lists, state):
    """A packet: often bytes that lead on from the state's node, and others behind them."""
    v, down, size = rng.randrange(len(lists[0])), [], rng.choice(SIZES)
    while max(state.node, lists[0][v]) < v:
        down.append(lists[1][v])
        v = lists[0][v]
    return bytes(down[::-1] * rng.choice([0, 1, 1]) + rng.choices(b"ab", k=size))[:size]


def walk_in(rng, lists, state, image):
    what = CARRY
    for _ in range(rng.randint(0, 40)):
        word, *values = call(lists, state, what)[0].split()
        if word not in ("fetch", "hit"):
            break
        what = image[int(values[0])] if word == "fetch" else CARRY
        if rng.random() < 0.1:
            what = rng.choice([CARRY, 97, 98, some_run(rng, lists, state)])


def leave_hits(rng, lists, state):
    """Between two rounds, with a hit left and often a stretch that ends where it does; mostly in their ranges."""
    hits, node = [v for v in range(1, state.count) if lists[2][v]], rng.randrange(state.count)
    if not hits:
        return
    state.node, state.depth, state.due, state.hit = 0, 0, False, rng.choice(hits)
    state.end = deep(lists, state.hit) + rng.choice([0, 0, rng.randint(0, 20)])
    state.image = max(state.image, state.end - rng.choice([0, 0, 0, 0, 1]))
    state.boundary = state.end + rng.choice([1, 1, state.shortest, rng.randint(1, state.shortest)])
    right = state.end + rng.choice([0, 0, 0, -1, 1])
    stretch = [right - deep(lists, node), right, node]
    state.slots = [stretch if 0 <= stretch[0] and right < state.boundary and kept(state.boundary, stretch) else [0, 0, 0]]
    state.slots += [[0, 0, 0] for _ in range(4)]


def nudged(rng, x):
    return max(0, rng.choice([x - 1, x + 1, rng.randint(0, 30)]))


def changed(rng, state):
    """The state, now and then with a number changed."""
    if rng.random() < 0.3:
        state.shortest = rng.randint(1, 12)
    if rng.random() < 0.2:
        name = rng.choice(["boundary", "depth", "node", "image"])
        setattr(state, name, nudged(rng, getattr(state, name)))
    if rng.random() < (0.4 if state.hit else 0.05):
        name = rng.choice(["end", "hit"])
        setattr(state, name, nudged(rng, getattr(state, name)))
    if rng.random() < 0.2 and state.stretches():
        slot, k = rng.choice(state.stretches()), rng.randrange(3)
        slot[k] = max(0, slot[k] + rng.choice([-1, 1]))
    if rng.random() < 0.1:
        state.due = not state.due
    if rng.random() < 0.2:
        state.spared = rng.choice([SPARED - rng.randint(0, 9), SPARED + 1, rng.randrange(SPARED)])


def some_tables(rng):
    """A random book's tables, S and the count; sometimes with other shifts, damaged, with one number on several nodes, or with an entry
    behind the nodes."""
    lists, shortest, count = built(some_bodies(rng))
    if rng.random() < 0.5:
        most = rng.choice([2, shortest, shortest + 2, BODY])
        lists[5] = [rng.choice([x, rng.randint(1, most)]) for x in lists[5]]
    for _ in range(rng.choice([0, 0, 0, 1, 2])):
        k, at = rng.randrange(6), rng.randrange(count)
        lists[k][at] = rng.choice([0, 1, at, min(at + 1, count - 1), count - 1, rng.randrange(count)])
    if rng.random() < 0.05:
        lists[5][rng.randrange(count)] = rng.choice([0, BODY, BODY + 1, 65535])
    for _ in range(rng.choice([0, 0, 1, 4])):
        lists[2][rng.randrange(1, count)] = rng.choice([0, 1, 1, 2, 256])
    if rng.random() < 0.3:
        lists = [l + [rng.randrange(count)] for l in lists]
    return lists, shortest, count


def some_calls(rng, lists, state):
    """Random calls from the state on, most of them in turn."""
    calls, probe, idle = [], copy.deepcopy(state), 0
    while len(calls) < 30 and idle < 3:
        run = some_run(rng, lists, probe)
        what = rng.choice([*b"ab", run]) if probe.due else CARRY
        if rng.random() < 0.15:
            what = rng.choice([CARRY, 97, 0, run])
        calls.append(what)
        said, _ = call(lists, probe, what)
        idle = idle + 1 if said.startswith(("done", "refused 9", "refused 10")) else 0
    return calls


def arbitrary(rng):
    """Random tables, a random state, and random calls."""
    lists, shortest, count = some_tables(rng)
    image = some_image(rng)
    state = State(len(image), shortest, count)
    if tables.first_break(lists, count) is None:
        if rng.random() < 0.7:
            walk_in(rng, lists, state, image)
        if rng.random() < 0.4:
            leave_hits(rng, lists, state)
    changed(rng, state)
    return lists, state, some_calls(rng, lists, state)


def some_sweep(rng):
    """A whole sweep, by single bytes or by packets of random sizes; now and then of a long token and one inside it."""
    bodies, image = some_bodies(rng), some_image(rng)
    if rng.random() < 0.1:
        body = b"a" * rng.randint(0, 60) + b"b" + b"a" * rng.randint(0, 40)
        bodies, image = tables.distinct([body, body[rng.randrange(len(body)) :]]), image + body + body[30:]
    elif rng.random() < 0.5:
        image = image[:16] + rng.choice(bodies)[::-1] + rng.choice(bodies)
    return sweep(bodies, image, rng.choice([None, lambda: rng.randint(1, rng.choice([3, RUN]))]))[:3]


def cases():
    yield from samples()
    yield from damaged()
    yield from ranges()
    yield from hits_left()
    yield from standing()
    yield from remembered()
    yield from packets()
    yield from large()
    yield from uneven()
    yield from given()
    rng = random.Random(5)
    for _ in range(300):
        yield arbitrary(rng)
    for _ in range(120):
        yield some_sweep(rng)
