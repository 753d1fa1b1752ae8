"""Books to read and to build tables from, and pairs of books to merge.

A case is a book, the lengths of the six tables, the number of a token to place, the damage done to the tables before they are tested
(which table, 6 for none; the entry; the value put there), and the node count of the test. `causes` names what a case meets, `wanted` all that
the cases must meet.
"""
import random

import tables

KINDS = {size: kind for kind, size in tables.LENGTHS.items()}
SMALL = 200  # the most body bytes of a book whose shifts are also found by trying each one


def record(body):
    return bytes([KINDS[len(body)]]) + body


def book_of(bodies):
    return b"".join(map(record, bodies)) + b"\0"


def numbered(i, size):
    """Bodies that differ in their last bytes, so that they share no ending, or only a short one."""
    return (bytes([7]) * size + bytes([i // 256, i % 256]))[-size:]


def ends_exchanged(body):
    """A body with its first and last byte exchanged."""
    return body[-1:] + body[1:-1] + body[:1]


def letters(size):
    """A body of different letters, and one that reads the same backwards."""
    body = bytes(range(97, 97 + size))
    return body, body[: size - size // 2] + body[: size // 2][::-1]


def filled(left):
    """Bodies, most of them with a reverse, beside whose words a book has room for so many body bytes, at most 20."""
    cards = [numbered(i, size) for size in tables.BOTH_ORDERS for i in range(16)]
    return [numbered(i, 1024) for i in range(15)] + cards + [numbered(0, size) for size in (256, 64, 32 - left)]


def undamaged(bodies, room):
    """The book of these bodies, and tables with room for so many entries, of which all nodes are tested."""
    return book_of(bodies), [room] * 6, len(bodies), (6, 0, 0), len(tables.build(bodies)[0])


def limits():
    """The largest books, and one token more."""
    full = [16385] * 6
    none = (6, 0, 0)
    long = [numbered(i, 1024) for i in range(16)]
    yield book_of(long), full, 16, none, 16385
    yield book_of(long + [b"x"]), full, 1, none, 1
    yield book_of(long), [16384] + full[1:], 1, none, 1
    yield book_of(long), full[1:] + [16384], 1, none, 1
    many = [numbered(i, 64) for i in range(256)]
    yield book_of(many), full, 256, none, 16385
    small = [numbered(i, 2) for i in range(256)]
    yield book_of(small), full, 257, none, 300
    yield book_of(small + [b"abc"]), full, 1, none, 1
    yield book_of([numbered(0, 1024)]), full, 1, none, 1025


def word_limits():
    """Books whose words just have as many bytes as they may, and one more than that, by a last token with a reverse, by one that reads the
    same backwards, and by one that is an earlier one again: 5 comes before 4. Then 256 tokens with reverses, one more, and tables with room
    for one byte too few, and for the tokens' own bytes alone."""
    card, same = numbered(3, 4), letters(4)[1]
    for size in tables.BOTH_ORDERS:
        yield undamaged(filled(2 * size) + [letters(size)[0]], 16385)
        yield undamaged(filled(2 * size - 1) + [letters(size)[0]], 1)
    yield undamaged(filled(4) + [same], 16385)
    for left, last in ((3, same), (8, card), (7, card), (8, card[::-1]), (7, card[::-1]), (0, b"x")):
        yield undamaged(filled(left) + [last], 1)
    sevens = [numbered(i, 7) for i in range(256)]
    for last in (letters(7)[0], sevens[3], sevens[3][::-1]):
        yield undamaged(sevens + [last], 1)
    for bodies in (filled(0), sevens):
        for room in (tables.body_bytes(bodies) + 1, tables.body_bytes(bodies), sum(map(len, bodies)) + 1):
            yield undamaged(bodies, room)


def same_mark(body):
    """Another body with the same mark: reversed or, where that is the same token, with its ends exchanged."""
    return ends_exchanged(body) if tables.has([body], body[::-1]) else body[::-1]


def mirrored(bodies):
    """The bodies, and before them others with the same marks, so that each body is looked for among all before it."""
    return tables.distinct([*map(same_mark, bodies), *bodies])


def one_byte_apart(size, places):
    """A body, and those that differ from it in one byte, at each of these places."""
    body = bytes(i % 251 for i in range(size))
    return [body] + [body[:i] + bytes([body[i] ^ 128]) + body[i + 1 :] for i in places]


def nearly_equal():
    """Bodies of books that share few marks: apart in one byte, at each place, of long ones at some; so apart from the reverse of one; each
    the start of the next, or of the one before; the same at both ends; apart in their last two bytes, with four hashes. Then 256 with marks
    of their own: all of one byte, and some that count up at their end."""
    for size in (2, 3, 4, 5, 7, 8, 9, 10, 15, 16, 17, 18, 33, 64):
        yield mirrored(one_byte_apart(size, range(size)))
    for size in tables.BOTH_ORDERS:
        body, *others = one_byte_apart(size, range(size))
        yield mirrored([body] + [other[::-1] for other in others])
    yield mirrored(one_byte_apart(128, (*range(20), *range(54, 74), *range(108, 128))))
    yield mirrored(one_byte_apart(1024, (0, 7, 8, 511, 1015, 1016, 1023)))
    longer = [bytes(range(1, size + 1)) for size in range(1, 65)]
    yield mirrored(longer)
    yield mirrored(longer[::-1])
    yield [bytes(8) + bytes([i]) + bytes(8) for i in range(256)]
    yield [b"begin" + bytes(40) + bytes([i, 255 - i]) + bytes(12) + b"close" for i in range(256)]
    yield [bytes([7] * 62 + [x, y]) for y in range(256) for x in range(256) if (37 * y + x) % 1024 < 4][:256]
    yield [bytes([i]) for i in range(256)]
    for size in (2, 7, 8, 64):
        yield [numbered(i, size) for i in range(256)]


def repeats():
    """Such bodies, which are no repeats; then with the last a word of the first, of a middle one, and of the one before it."""
    for bodies in nearly_equal():
        need = 1 + tables.body_bytes(bodies)
        yield book_of(bodies), [need] * 6, len(bodies), (6, 0, 0), need
        for k in sorted({0, (len(bodies) - 1) // 2, len(bodies) - 2}):
            for word in tables.words(bodies[k]):
                yield book_of(bodies[:-1] + [word]), [need] * 6, 1, (6, 0, 0), 1


def backwards():
    """Bodies of each short length: one, one and its reverse, which is a repeat at some lengths, and one that reads the same backwards, a
    repeat only where it comes again. Then bodies, in two orders, that are, or of which the reverse is, a part of others or of reverses."""
    for size in range(3, 12):
        body, same = letters(size)
        yield from ([body], [body, body[::-1]], [body[::-1], b"x", body], [same], [same, body], [same, same])
        yield [body, body[:-1] + b"x", b"x" + body[1:], ends_exchanged(body), same]
    for bodies in (
        [b"xdcba", b"abcd"], [b"xdcbay", b"abcd"], [b"xabcd", b"abcd"], [b"dcbaxyz", b"abcd"], [b"abcdxyz", b"abcd"], [b"xyzabcd", b"abcd"],
        [b"abcdxyzuvw", b"abcdxyz", b"abcd"], [b"dcbaxyzuvw", b"zyxabcd", b"abcd", b"xdcba"], [b"abcd", b"dcb", b"cba", b"ba", b"a", b"cd"],
        [b"abcdefg", b"gfe", b"cba", b"edcba", b"fedcba", b"dcba", b"bcdefg"], [b"abcdefghij", b"jihgfedcb", b"ihgfedcba", b"gfedcba"],
        [b"abab", b"ab", b"ba", b"bab", b"babab"], [b"aaab", b"aab", b"baa", b"baaaa", b"aabaaab", b"aaa"], [b"abca", b"acbax", b"xabca"],
        [b"abba", b"abbaabb", b"bbaabba"], [b"aaaa", b"aaaaaaa", b"aaaaaaaaaa", b"aaaaa"], [b"aabb", b"bbaa"], [b"aba", b"abaa", b"aaba"],
    ):
        yield bodies
        yield bodies[::-1]


def both_orders():
    """Such books, with tables that have just room for all words, for one byte less, and for the tokens' own bytes alone."""
    for bodies in backwards():
        need = 1 + tables.body_bytes(bodies)
        for room in sorted({need, need - 1, 1 + sum(map(len, bodies))}):
            yield undamaged(bodies, room)


# Books, and of their nodes in order rule 5's shifts, found by hand: a word that ends as it begins; tokens within others, at the end and in
# the middle; words that repeat a part of themselves; endings that a word moved to the right agrees with only in part; card numbers.
SHIFTS = (
    ([b"a"], [1, 1]),
    ([b"ab", b"b"], [1, 1, 1]),
    ([b"abbbba"], [1, 5, 5, 5, 5, 5, 5]),
    ([b"baab", b"ab"], [1, 2, 2, 2, 2]),
    ([b"xabcy", b"abc"], [1, 3, 3, 3, 3, 3, 1, 1, 1]),
    ([b"abc", b"xabcy"], [1, 1, 1, 1, 3, 3, 3, 3, 3]),
    ([b"aaaaaa"], [1, 1, 1, 1, 1, 1, 1]),
    ([b"abcabcabc"], [1, 3, 3, 3, 3, 3, 3, 3, 3, 3]),
    ([b"babaa"], [1, 1, 5, 5, 5, 5]),
    ([b"abaab"], [1, 3, 3, 3, 3, 3]),
    ([b"abcde"], [1, 5, 5, 5, 5, 5]),
    ([b"bcxxx", b"yyabc"], [1, 1, 1, 5, 5, 5, 3, 3, 3, 3, 3]),
    ([b"mnoab", b"abxyz", b"abpqrs"], [1, 3, 3, 3, 3, 3, 5, 5, 5, 5, 5, 5, 5, 5, 5, 5, 5]),
    ([b"abcd"], [1, 3, 3, 3, 3, 3, 3, 3, 3]),
    ([b"aabb"], [1, 1, 2, 2, 2, 1, 2, 2, 2]),
    ([b"abbaabb"], [1, 1, 1, 1, 1, 1, 1, 1, 2, 3, 3, 3, 3, 3, 3]),
)


def all_but_one(count, size, place):
    """Bodies of one byte over and over, but for the one at a place, which counts up."""
    return [b"\xff" * place + bytes([i]) + b"\xff" * (size - 1 - place) for i in range(count)]


def shifts():
    """Such books, with tables that have just room, and with entries behind the last node; and with an entry too few in each table alone.
    Then books whose tokens without their last bytes are found far down the tree, or behind many siblings."""
    for bodies, by_hand in SHIFTS:
        assert tables.build(bodies)[5] == by_hand
        need = 1 + tables.body_bytes(bodies)
        yield undamaged(bodies, need)
        yield undamaged(bodies, need + 3)
        for k in range(6):
            book, lengths, *rest = undamaged(bodies, need)
            yield book, lengths[:k] + [need - 1] + lengths[k + 1 :], *rest
    for count, size, place in ((16, 512, 0), (256, 64, 62), (64, 16, 8)):
        yield undamaged(all_but_one(count, size, place), 1 + count * size)


def few_bodies(rng):
    """Up to five short bodies of two or three letters, some of them an ending of the reverse of one before."""
    bodies, alphabet = [], rng.choice([b"ab", b"abc"])
    for _ in range(rng.randint(0, 5)):
        if bodies and rng.random() < 0.3:
            back = rng.choice(bodies)[::-1]
            bodies.append(back[rng.choice([0, 0, rng.randrange(len(back))]) :])
        else:
            size = rng.choice([1, 2, 3, 4, 4, 5, 7, 7, 10])
            bodies.append(bytes(rng.choice(alphabet) for _ in range(size)))
    return bodies


def alike_bodies(rng):
    """Bodies that are the same at both ends, some of them the same throughout."""
    size = rng.randint(17, 20)
    return [b"12345678" + bytes(rng.choice(b"ab") for _ in range(size - 16)) + b"87654321" for _ in range(rng.randint(1, 9))]


def damaged(rng, book):
    """The book: whole, cut, with a byte changed, or with one behind it."""
    book, turn = bytearray(book), rng.random()
    if turn < 0.15:
        del book[rng.randint(0, len(book)) :]
    elif turn < 0.3 and book:
        book[rng.randrange(len(book))] = rng.choice([0, 1, 2, 4, 5, 7, 64, 65, 68, 69, 255])
    elif turn < 0.35:
        book += b"\0"
    return bytes(book)


def arbitrary(rng):
    """A small book, sometimes damaged; tables of any length; one entry damaged."""
    bodies = few_bodies(rng) if rng.random() < 0.8 else alike_bodies(rng)
    if rng.random() < 0.6:
        bodies = tables.distinct(bodies)
    book = damaged(rng, book_of(bodies))
    own, need = 1 + sum(map(len, bodies)), 1 + tables.body_bytes(bodies)
    lengths = [max(0, need + rng.choice([0, 0, 0, 1, 3])) for _ in range(6)]
    if rng.random() < 0.2:
        lengths[rng.randrange(6)] = rng.choice([own, need - 1, rng.randint(0, need)])
    reading = tables.read(book)
    nodes = len(tables.build(reading[1])[0]) if reading[0] == "accepted" else 1
    count = nodes + rng.choice([0, 0, 0, 0, 1, -1])
    value = rng.choice([0, 0, 1, 2, nodes - 1, nodes, 256, 257, 1024, 1025, 65535, rng.randint(0, nodes)])
    damage = (rng.randrange(7), rng.randint(0, nodes), value)
    return book, lengths, rng.randint(0, len(bodies) + 1), damage, max(0, count)


def cases():
    yield from limits()
    yield from word_limits()
    yield from repeats()
    yield from both_orders()
    yield from shifts()
    rng = random.Random(11)
    for _ in range(400):
        yield arbitrary(rng)


# What a book meets


def reversed_in(tokens, body):
    """Whether these tokens have a body, but reversed."""
    return body not in tokens and tables.has(tokens, body)


def refused_at(book, place):
    """The bodies before the record at a place, and its own."""
    return tables.whole_bodies(book[:place]), book[place + 1 :][: tables.body_at(book, place)]


def over(before, body):
    """How a body brings those before it over the limits."""
    words, own = tables.body_bytes(before + [body]), tables.body_bytes(before) + len(body)
    yield from ["5 by a token that has a reverse"] * (len(before) == 256 and words > own)
    yield from ["5 by a reverse"] * (len(before) < 256 and own <= 16384)
    yield from ["5 by a reverse, by one byte"] * (len(before) < 256 and own <= 16384 and words == 16385)
    yield from ["5 by a body that reads the same backwards"] * (len(before) < 256 and len(body) in tables.BOTH_ORDERS and words == own)
    yield from ["5 before 4, by a reverse"] * reversed_in(before, body)
    yield from ["5 before 4"] * (body in before)


def built(bodies, room):
    """What is met where a book is accepted, with room for so many entries."""
    own, words = sum(map(len, bodies)), tables.body_bytes(bodies)
    if room <= words:
        yield from ["7 by a reverse"] * (own < room) + ["7 by a reverse, by one entry"] * (own < room == words)
        return
    yield from ["room for the words alone"] * (own < words and room == words + 1)
    yield from ["256 tokens with reverses"] * (len(bodies) == 256 and own < words)
    yield from ["16,384 body bytes with reverses"] * (words == 16384 and own < words)
    yield from (f"{len(body)} bytes and their reverse" for body in bodies if body[::-1] in bodies and body[::-1] != body)
    yield from (f"{len(body)} bytes that read the same backwards" for body in bodies if body[::-1] == body)


# What a word can be that, moved by a node's shift, agrees with its ending: it lies over all of it, or over its last bytes alone, and so on.
MADE = (
    "a word over all", "a word over a part", "a word short of two bytes", "its own token", "another token", "a reverse", "a longer token",
)


def makers(bodies, words, ending, s):
    """What each word is that makes the shift s of an ending."""
    for word in words:
        if tables.agrees(word, s, ending):
            bare, own = len(ending) - (len(word) - s), word.endswith(ending)
            holds = (bare <= 0, bare > 0, bare > 1, own, not own, word not in bodies, len(word) > min(map(len, bodies)))
            yield {name for name, met in zip(MADE, holds) if met}


def shift_causes(bodies):
    """What the shifts of the nodes come from, and what makes one alone."""
    words, shortest = [word for _, word in tables.spelled(bodies)], min(map(len, bodies))
    yield from ["S of 1"] * (shortest == 1)
    for ending in {word[k:] for word in words for k in range(len(word))}:
        s, above = (tables.node_shift(words, x) for x in (ending, ending[1:]))
        yield from ["a shift greater than its parent's"] * (s > above and len(ending) > 1)
        if s < shortest:
            yield from (f"a shift by {name} alone" for name in set.intersection(*makers(bodies, words, ending, s)))
            yield from ["a shift of S - 1"] * (s == shortest - 1)
        else:
            yield from ["a shift of S"] * (shortest > 1)


def short_causes(need, lengths):
    """Which table alone is too short."""
    for name, n in zip(tables.NAMES, lengths):
        if n < need <= sorted(lengths)[1]:
            yield f"7 by {name} alone"
            yield from [f"7 by {name} alone, by one entry"] * (n == need - 1)


def causes(book, lengths, *_):
    """What a case meets, by name, where reverses count or could; by tables that are too short, and in the sixth table of a small book."""
    reading = tables.read(book)
    if reading[0] == "accepted":
        need = 1 + tables.body_bytes(reading[1])
        yield from built(reading[1], min(lengths))
        yield from short_causes(need, lengths)
        if need <= min(lengths) and need <= SMALL:
            yield from shift_causes(reading[1])
            yield from ["entries behind the last node"] * (min(lengths) > need)
    elif reading[1] in (4, 5):
        before, body = refused_at(book, reading[2])
        yield from over(before, body) if reading[1] == 5 else [f"4 by the reverse of {len(body)} bytes"] * reversed_in(before, body)


def wanted():
    yield from ("5 by a token that has a reverse", "5 by a reverse", "5 by a reverse, by one byte", "5 by a body that reads the same backwards")
    yield from ("5 before 4, by a reverse", "5 before 4", "7 by a reverse", "7 by a reverse, by one entry", "room for the words alone")
    yield from ("256 tokens with reverses", "16,384 body bytes with reverses")
    yield from (f"7 by {name} alone{how}" for name in tables.NAMES for how in ("", ", by one entry"))
    yield from (f"a shift by {name} alone" for name in MADE)
    yield from ("a shift of S", "a shift of S - 1", "S of 1", "a shift greater than its parent's", "entries behind the last node")
    for n in range(3, 12):
        yield f"4 by the reverse of {n} bytes" if n in tables.BOTH_ORDERS else f"{n} bytes and their reverse"
        yield f"{n} bytes that read the same backwards"


# Pairs to merge


def in_turns(bodies):
    """The same tokens, each second one in its other order."""
    return [tables.words(body)[-1 if i % 2 else 0] for i, body in enumerate(bodies)]


def merged_limits():
    """Bodies of two books that together are at the limits of a book, and over them: by tokens, by body bytes, and by both."""
    small = [numbered(i, 2) for i in range(300)]
    yield small[:128], small[128:256]
    yield small[:128], small[128:257]
    yield small[:1], small[1:256]
    yield small[:1], small[1:257]
    yield small[:256], small[:256]
    yield small[:256], small[255:256]
    yield small[:256], small[256:257]
    yield small[:256], small[99:101] + small[256:258]
    yield small[:256], small[256:257] + small[:1]
    yield small[:255], small[254:257]
    yield small[:200], small[150:256]
    yield small[:200], small[150:257]
    yield small[:250], small[240:256] + small[:5] + small[256:260] + small[7:9]
    long = [numbered(i, 1024) for i in range(17)]
    yield long[:8], long[8:16]
    yield long[:8], long[8:17]
    yield long[:8], long[8:16] + [b"x"]
    yield long[:16], long[3:4]
    yield long[:16], long[3:4] + [b"x"]
    yield long[:16], [b"x"] + long[3:4]
    yield long[:12], long[6:16]
    yield long[:12], long[6:16] + [b"x"] + long[:1]
    half = [numbered(i, 512) for i in range(2)]
    yield long[:15] + half[:1], half
    yield long[:15] + half[:1], half + [b"x"]
    yield long[:15] + half[:1], [b"x", half[1], b"y"]
    yield long[:15] + half[:1], long[:1] + [b"x", half[0], half[1]]
    most = [numbered(i, 64) for i in range(257)]
    yield most[:128], most[128:256]
    yield most[:128], most[128:257]
    yield most[:256], most[:256]


def merged_word_limits():
    """The same by words, with tokens that both books have, in either order, before and behind those that bring both to the limits."""
    sevens, (new, same), card = [numbered(i, 7) for i in range(257)], letters(4), numbered(3, 4)[::-1]
    for left, second in (
        (8, [new]), (8, [new, b"x"]), (8, [card, new]), (8, [card, new, card[:3]]), (7, [new]), (7, [card, new, b"x"]), (4, [same]),
        (3, [same]), (4, [new, same]), (0, [card]), (0, [card, b"x"]), (0, [b"x", card]), (20, [letters(10)[0], card]),
        (19, [card, letters(10)[0]]), (14, [new, letters(7)[0]]), (14, [letters(7)[0], new]),
    ):
        yield filled(left), second
    half = filled(0)[::2], filled(0)[1::2]
    yield half
    yield half[0] + [b"x"], half[1]
    yield half[0], [body[::-1] for body in half[1]]
    yield filled(0), in_turns(filled(0))
    yield sevens[:256], in_turns(sevens[:256])
    yield sevens[:256], in_turns(sevens[:4]) + sevens[256:]
    yield sevens[:200], in_turns(sevens[150:256])
    yield sevens[:200], in_turns(sevens[150:257])
    yield sevens[:128], in_turns(sevens[128:256])


def alike():
    """Bodies of two books: equal, apart, one within the other; bodies that are almost those of the other book."""
    a, b, c, d, e = (bytes([x]) for x in b"abcde")
    yield [a, b, c], [a, b, c]
    yield [a, b, c], [c, a, b]
    yield [a], [a]
    yield [a], [b]
    yield [a, b], [d, c]
    yield [a, b, c, d], [d, b]
    yield [d, b], [a, b, c, d, e]
    yield [c, a], [b, a, d]
    yield [b"ab"], [b"a", b"b", b"abc", b"xab", b"aa", b"bb", b"ba"]
    yield [b"a", b"b", b"abc", b"xab"], [b"ab"]
    yield [b"xaby", b"\x02ab\x01"], [b"ab", b"\x01", b"y\x04\x02ab"]
    yield [b"\0"], [b"\0\0", b"\0", b"\0\0\0"]
    long = numbered(5, 1024)
    yield [long], [b"x" + long[1:], long[:512] + b"x" + long[513:], long[:-1] + b"x", long, long[:512]]
    ends = [bytes(8) + bytes([i]) + bytes(8) for i in range(192)]
    yield ends[:128], ends[64:]
    sizes = sorted(KINDS)
    yield [numbered(1, n) for n in sizes], [numbered(1 + n % 2, n) for n in sizes]
    for size in range(3, 12):
        body, same = letters(size)
        yield [body], [body[::-1]]
        yield [b"x", same, body], [body[::-1], b"y", same]
        yield [body, same], tables.distinct([body[:-1] + b"x", b"y" + body[-2::-1], body[:0:-1] + b"z", ends_exchanged(body), body[::-1]])
    yield [b"xdcba", b"abcdxyz"], [b"abcd", b"zyxdcba", b"abcdx"]
    yield [b"abcd"], [b"dcbaxyz", b"dcb", b"dcba", b"cba", b"xdcba"]
    yield [b"abcd"], [b"abcd", b"dcba"]
    yield [b"abcd", b"abba"], [b"dcba", b"abba", b"abcd"]


def refused():
    """A book for each refusal: 1 with no kind at all, one missing, a short body, and none; then 2 to 6, 4 by a body and by its reverse."""
    yield from (b"", b"\x01a", b"\x01a\x05axbb", b"\x44", b"\x01a\x45\0", b"\x01a\0\0", b"\x01a\x02bc\x01a\0")
    yield book_of([b"abcd", b"bc", b"dcba"])
    yield book_of([numbered(i, 2) for i in range(257)])
    yield book_of([numbered(i, 1024) for i in range(16)] + [b"x"])
    yield b"\0"


def pairs():
    for first, second in (*merged_limits(), *merged_word_limits(), *alike()):
        yield book_of(first), book_of(second)
    good, full = book_of([b"a", b"bc"]), book_of([numbered(i, 64) for i in range(256)])
    for bad in refused():
        yield bad, good
        yield good, bad
        yield full, record(b"bc") + bad
        for other in refused():
            yield bad, other


SHAPES = ("apart", "equal", "overlapping", "the first refused", "the second refused", "both refused", "near the limits")


def near_limits(rng):
    """Bodies of two books, with about as many tokens or body bytes together as a book may have."""
    size = rng.choice([2, 3, 7, 63, 64, 512, 1024])
    pool = [numbered(i, size) for i in range(min(256, 16384 // size) + rng.randint(-2, 1))]
    if rng.random() < 0.2:
        pool = filled(rng.randint(0, 20))
    pool += [letters(n)[0] for n in rng.sample([1, 2, *tables.BOTH_ORDERS], rng.randint(0, 2))]
    rng.shuffle(pool)
    cut = rng.randint(1, len(pool) - 1)
    return pool[:cut], pool[cut:]


def far_from_limits(rng):
    pool = few_bodies(rng) + few_bodies(rng) + [b"a", b"b"]
    if rng.random() < 0.2:
        pool.append(numbered(rng.randint(0, 3), rng.choice([16, 64, 128, 256, 512, 1024])))
    pool = tables.distinct(pool)
    rng.shuffle(pool)
    cut = rng.randint(1, len(pool) - 1)
    return pool[:cut], pool[cut:]


def some_again(rng, bodies, k):
    """So many of these tokens, each in one of its orders."""
    return [rng.choice(tables.words(body)) for body in rng.sample(bodies, k)]


def spoilt(rng, bodies):
    """A book of these bodies, perhaps with one again, and damaged until it is refused."""
    book = book_of(bodies + some_again(rng, bodies, rng.choice([0, 0, 0, 1])))
    while tables.read(book)[0] == "accepted":
        book = damaged(rng, book)
    return book


def some_pair(rng, shape):
    """Two books, of one of SHAPES."""
    first, second = near_limits(rng) if shape == "near the limits" else far_from_limits(rng)
    if shape == "equal":
        second = rng.choice([first, some_again(rng, first, len(first))])
    elif shape != "apart":
        second = second + some_again(rng, first, rng.randint(1, min(8, len(first))))
        rng.shuffle(second)
    return (
        (spoilt(rng, first) if shape in ("the first refused", "both refused") else book_of(first)),
        (spoilt(rng, second) if shape in ("the second refused", "both refused") else book_of(second)),
    )
