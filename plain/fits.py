"""Where a token stops fitting, plainly, from the papers alone, and what to ask about it.

A case is a book, an image, and what is asked of them: pairs of a token's number and an end. `causes` names what a case meets, `wanted` all
that the fixed cases must meet.
"""
import functools
import itertools
import random

import books
import proved
import tables
from steps import IMAGE

FAR = 2**64 - 1
BITS = (8, 16, 32, 63)  # a number and 2 to these is that number, in fewer bits
AROUND = bytes([proved.AROUND])
SHORT = 24  # bytes of an image of which all ends are asked

read = functools.lru_cache(1)(tables.read)  # a book is asked many times


def fit(book, image, number, end):
    """A token in book order, its right edge at the end: ('refused', number, value), ('differs', place), ('cut off',) or ('fits',)."""
    reading = read(book)
    if reading[0] == "refused":
        return reading
    if len(image) > IMAGE:
        return ("refused", 8, IMAGE)
    if not 1 <= number <= len(reading[1]):
        return ("refused", 16, 0)
    if end > len(image):
        return ("refused", 17, 0)
    body = reading[1][number - 1]
    for k in range(1, min(len(body), end) + 1):
        if image[end - k] != body[-k]:
            return ("differs", end - k)
    return ("cut off",) if len(body) > end else ("fits",)


# What a case meets


def refusals(book, image, number, end):
    """The refusals whose causes hold, the first one first; a refused book's tokens are those of its whole records."""
    reading = read(book)
    tokens = len(reading[1] if reading[0] == "accepted" else tables.whole_bodies(book))
    yield from [reading[1]] * (reading[0] == "refused")
    yield from [8] * (len(image) > IMAGE) + [16] * (not 1 <= number <= tokens) + [17] * (end > len(image))


def beyond(least, x, most):
    """How a number lies outside its range."""
    yield from ["number 0"] * (x == 0) + ["one above"] * (x == most + 1) + ["two above"] * (x == most + 2) + ["2^64 - 1"] * (x == FAR)
    yield from (f"one within and 2^{k}" for k in BITS if least <= x - 2**k <= most)


def met_refused(book, image, number, end):
    """What is met where something is refused."""
    first, *later = refusals(book, image, number, end)
    yield from [f"{first} before {other}" for other in later] or [f"{first} alone"]
    if first == 8:
        yield from ["8 by one byte"] * (len(image) == IMAGE + 1)
    if first == 16:
        tokens = len(read(book)[1])
        yield f"16: {number} of {tokens}"
        yield from (f"16: {how}" for how in beyond(1, number, tokens))
    if first == 17:
        yield from (f"17: {how}" for how in beyond(0, end, len(image)))
        yield from ["17 of an empty image"] * (image == b"") + ["17 of the longest image"] * (len(image) == IMAGE)
        longer, body = image + 2 * AROUND, read(book)[1][number - 1]
        yield from ["17 where what lies behind would fit"] * (end <= len(longer) and longer[:end].endswith(body))


# How a token lies that does not begin left of the image: by whether it begins at the image's start, and ends at its end.
LIES = ("within the image", "at the image's start", "at the image's end", "over the whole image")
CUT = "cut off too"
SIZES = (*range(1, 65), 128, 256, 512, 1024)
ONE_OF = ((1, 1), (1, 2), (2, 2), (1, 256), (255, 256), (256, 256))  # a token's number, and how many there are
ANSWERS = ("fits", "differs", "cut off")


def lies(body, image, end):
    return CUT if end < len(body) else LIES[(end == len(body)) + 2 * (end == len(image))]


def which(body, k):
    """Byte k of a body, in words."""
    return "only" if len(body) == 1 else "first" if k == 0 else "last" if k == len(body) - 1 else "middle"


def differing(body, image, end, place):
    byte = which(body, place + len(body) - end)
    under = image[max(0, end - len(body)) : end]
    several = sum(x != y for x, y in zip(under, body[-len(under) :])) > 1
    yield f"differs at its {byte} byte, {lies(body, image, end)}"
    yield f"differs at its {byte} byte, {'the first of several' if several else 'alone'}"
    yield from ["differs at place 0, cut off too"] * (place == 0 and end < len(body))
    if under == body[::-1][-len(under) :]:
        yield from (f"{len(body)} bytes reversed, differs {how}" for how in (f"at its {byte} byte", lies(body, image, end)))
    yield from ["differs at the longest image's last place"] * (place == IMAGE - 1)


def cut(body, image, end):
    missing = body[: len(body) - end]
    yield from ["cut off by one byte"] * (len(missing) == 1) + ["cut off by all but one byte"] * (end == 1)
    yield from ["cut off at end 0"] * (end == 0) + ["cut off by an empty image"] * (image == b"")
    yield f"cut off where what lies before would {'fit' if missing == AROUND * len(missing) else 'differ'}"


def fitting(body, image, end):
    yield f"fits {lies(body, image, end)}"
    yield from [f"fits, {len(body)} bytes that read the same backwards"] * (body == body[::-1])


def met_answered(book, image, number, end):
    """What is met where nothing is refused."""
    bodies, (answer, *place) = read(book)[1], fit(book, image, number, end)
    body = bodies[number - 1]
    yield f"{answer}, token {number} of {len(bodies)}"
    yield f"{answer}, {len(body)} bytes"
    yield from [f"{answer}, in the longest image"] * (len(image) == IMAGE)
    yield from {"differs": differing, "cut off": cut, "fits": fitting}[answer](body, image, end, *place)
    for other, longer in enumerate(bodies, 1):
        if longer.endswith(body) and longer != body:
            yield f"{answer}, an ending of a token: {fit(book, image, other, end)[0]}"


def causes(book, image, asked):
    """What a case meets, by name."""
    for number, end in asked:
        yield from (met_refused if any(refusals(book, image, number, end)) else met_answered)(book, image, number, end)


def wanted():
    yield from (f"{n} alone" for n in (1, 2, 3, 4, 5, 8, 16, 17))  # where the book has no token, no number is in it
    yield from (f"{n} before {other}" for n, other in itertools.product(range(1, 7), (8, 16, 17)))
    yield from ("8 before 16", "8 before 17", "16 before 17", "8 by one byte", "16: number 0")
    yield from ("17 of an empty image", "17 of the longest image", "17 where what lies behind would fit")
    yield from (f"{n}: {how}" for n in (16, 17) for how in ("one above", "two above", "2^64 - 1", *(f"one within and 2^{k}" for k in BITS)))
    yield from (f"16: {n} of {tokens}" for tokens in (1, 255, 256) for n in (257, 258))
    yield from (f"{answer}, token {number} of {tokens}" for answer in ANSWERS for number, tokens in ONE_OF)
    yield from (f"{answer}, {size} bytes" for answer in ANSWERS for size in SIZES)
    yield from (f"{answer}, in the longest image" for answer in ANSWERS)
    yield from (f"fits {how}" for how in LIES)
    yield from (f"differs at its {byte} byte, {how}" for byte in ("only", "first", "middle", "last") for how in (*LIES, "alone"))
    yield from (f"differs at its {byte} byte, {how}" for byte in ("middle", "last") for how in (CUT, "the first of several"))
    yield from ("differs at place 0, cut off too", "differs at the longest image's last place")
    yield from ("cut off by one byte", "cut off by all but one byte", "cut off at end 0", "cut off by an empty image")
    yield from (f"cut off where what lies before would {what}" for what in ("fit", "differ"))
    for size in tables.BOTH_ORDERS:
        yield from (f"{size} bytes reversed, differs {how}" for how in ("at its middle byte", "at its last byte", *LIES, CUT))
        yield f"fits, {size} bytes that read the same backwards"
    pairs = (("fits", "fits"), ("fits", "differs"), ("fits", "cut off"), ("differs", "differs"), ("cut off", "cut off"))
    yield from (f"{answer}, an ending of a token: {other}" for answer, other in pairs)


# The cases


def numbers_about(most):
    """0 to the greatest that is within, the next two, and others that are one of these in fewer bits."""
    return [*range(most + 3), *(2**k + x for k in BITS for x in (0, 1, most)), FAR]


def every(bodies, image):
    """All numbers and ends, and some beyond them."""
    return books.book_of(bodies), image, list(itertools.product(numbers_about(len(bodies)), numbers_about(len(image))))


def changed(body, places):
    """A body with one bit changed at each of these places."""
    return bytes(x ^ 1 << i % 8 if i in places else x for i, x in enumerate(body))


def laid(body):
    """Images with a body at their end, at their start, between others or alone, or cut off, and the end where it stands."""
    size = len(body)
    for before, behind in itertools.product((b"", b"xyz"), (b"", b"zyx")):
        yield before + body + behind, len(before) + size
    for k in sorted({1, size // 2, size - 1} - {0, size}):
        yield body[k:], size - k
        yield body[k:] + b"zyx", size - k


def changes(size):
    """No place, each place of a short body or some of a long one, and pairs of places."""
    some = sorted({0, 1 % size, size // 2, size - 1})
    return [(), *((i,) for i in (range(size) if size < 12 else some)), *itertools.combinations(some, 2)]


def stops():
    """Tokens of many lengths, of a book that has one of each, as they are there, and changed at one place or two."""
    bodies = [bytes((size + 7 * i) % 251 for i in range(size)) for size in tables.LENGTHS.values()]
    book = books.book_of(bodies)
    for number, body in enumerate(bodies, 1):
        for places in changes(len(body)):
            for image, end in laid(changed(body, places)):
                yield book, image, [(number, at) for at in sorted({0, 1, end - 1, end, end + 1, len(image), len(image) + 1})]


def each_place():
    """Tokens of some lengths over themselves, changed at each place in turn."""
    for size in (64, 128, 256, 512, 1024):
        body = bytes(i % 251 for i in range(size))
        for i in range(size):
            yield books.book_of([body]), changed(body, (i,)), [(1, size)]


def limits():
    """Books at the limits and over them, by tokens, by body bytes and by reverses: their first and last token, and the next number."""
    for book, *_ in (*books.limits(), *books.word_limits()):
        bodies = tables.whole_bodies(book)
        yield book, bodies[-1], [(number, len(bodies[-1])) for number in (1, len(bodies), len(bodies) + 1)]


def backwards():
    """Bodies of each short length reversed: of different letters, with the same at both ends, and one that reads the same backwards."""
    for size in range(2, 12):
        body, same = books.letters(size)
        bodies = tables.distinct([body, same, body[:-1] + body[:1]])
        images = [image for word in bodies for image, _ in laid(word[::-1])]
        for image in (*images, body + body[::-1] + same):
            yield books.book_of(bodies), image, list(itertools.product(range(1, len(bodies) + 1), range(len(image) + 1)))


def within():
    """Tokens that are parts of others, or look like records; bytes at both ends of their range; what lies around a slice."""
    bodies = [b"abc", b"bc", b"xabc", b"c", b"ab", b"bcx", b"b"]
    yield from (every(bodies, image) for image in (b"", b"c", b"bc", b"abc", b"xabc", b"yabc", b"ybc", b"abcx", b"xaabcbcx"))
    bodies = [b"\x01a", b"a", b"\x02", b"\0", b"\0\0", b"\xff\x80\x7f", b"\xff\0"]
    yield from (every(bodies, image) for image in (b"\x02\x01a\x01a\0\0", b"\xff\x80\x7f\xff\0", b"\x7f\x80\xff"))
    bodies = [AROUND, 2 * AROUND, 2 * AROUND + b"ab", b"ab" + AROUND, b"ab", AROUND + b"ab", b"b" + 2 * AROUND, 3 * AROUND + b"ab"]
    yield from (every(bodies, image) for image in (b"", b"ab", b"b", AROUND, AROUND + b"ab"))


def many():
    """Books of 1, 2, 255 and 256 tokens, which stand one behind the other in the image: each number, and some not in the book, where the
    token stands and where those beside it do. Of card numbers each second stands there reversed."""
    for tokens, size in itertools.product((1, 2, 255, 256), (2, 7)):
        bodies, asked = [books.numbered(i, size) for i in range(tokens)], []
        for number in dict.fromkeys((*numbers_about(tokens), 257, 258)):
            at = (number - 1) % 256 + 1
            asked += [(number, end) for end in (0, 1, *(size * (at + by) for by in (-1, 0, 1))) if end <= size * tokens]
        yield books.book_of(bodies), b"".join(books.in_turns(bodies)), asked


def orders():
    """Each refusal of the book alone and before those that come later; these alone and in their order. The longest image, and a longer."""
    over = b"axbbx" + bytes(IMAGE - 9) + b"axbbx"
    good, longest = books.book_of([b"axbbx", b"axbb", b"xaxbb"]), over[:IMAGE]
    bad = [*books.refused(), books.book_of([b"abcdefg", b"gfedcba"])]
    first = {read(book)[1]: book for book in bad}
    for book, image in itertools.product((*bad, good), (b"", b"axbbx")):
        yield book, image, list(itertools.product((0, 1, 2, FAR), (0, len(image), len(image) + 1, FAR)))
    for book in (*first.values(), good):
        yield book, over, [(1, IMAGE + 1), (0, IMAGE + 1), (1, IMAGE + 2), (0, FAR)]
    yield good, over, [(1, 0), (1, 5), (FAR, 5)]
    yield good, longest, [(1, 5), (2, IMAGE), (1, IMAGE), (3, IMAGE), (3, 4), (2, 5), (1, IMAGE + 1), (0, IMAGE), (0, FAR)]


def some_bodies(rng):
    """A few short bodies, some that are alike, or about as many as a book may have; sometimes with repeats."""
    turn = rng.random()
    bodies = books.few_bodies(rng) if turn < 0.8 else books.alike_bodies(rng) if turn < 0.95 else sum(books.near_limits(rng), [])
    return bodies if rng.random() < 0.3 else tables.distinct(bodies)


def some_piece(rng, bodies):
    """A token, or a part of it, sometimes reversed; or other bytes."""
    if not bodies or rng.random() < 0.15:
        return bytes(rng.choices([*b"abc", rng.randrange(256)], k=rng.randint(0, 4)))
    body = rng.choice(bodies)[:: rng.choice([1, 1, 1, -1])]
    return body[rng.choice([0, 0, rng.randrange(len(body))]) :][: rng.choice([len(body), len(body), rng.randint(1, len(body))])]


def some_image(rng, bodies):
    """An image of pieces, sometimes with a byte changed, and where they end."""
    pieces = [some_piece(rng, bodies) for _ in range(rng.randint(0, 5))]
    image = b"".join(pieces)
    if image and rng.random() < 0.4:
        image = changed(image, [rng.randrange(len(image))])
    return image, list(itertools.accumulate(map(len, pieces), initial=0))


def some_ends(rng, image, edges):
    """Of a short image all ends, of others those about its pieces; and some beyond it."""
    most = len(image)
    if most <= SHORT:
        return [*range(most + 3), rng.choice(numbers_about(most))]
    return sorted({max(0, edge + by) for edge in edges for by in (-1, 0, 1)} | {0, rng.randint(0, most), most, most + 1, most + 2})


def some_case(rng):
    """A random book, an image of pieces of some of its tokens, and these with all ends, other numbers with one; of some books all numbers
    up to 258. A refused book is asked a few times."""
    bodies = some_bodies(rng)
    book, tokens = books.damaged(rng, books.book_of(bodies)), len(bodies)
    chosen = rng.sample(range(1, tokens + 1), min(4, tokens))
    image, edges = some_image(rng, [bodies[number - 1] for number in chosen])
    ends = some_ends(rng, image, edges)
    others = [0, 1, tokens, tokens + 1, tokens + 2, rng.choice(numbers_about(tokens))]
    others += range(259) if rng.random() < 0.03 else rng.sample(range(259), 3)
    asked = [*itertools.product(chosen, ends), *((number, rng.choice(ends)) for number in others)]
    return book, image, asked if read(book)[0] == "accepted" else rng.sample(asked, 6)


def cases():
    yield from stops()
    yield from each_place()
    yield from limits()
    yield from backwards()
    yield from within()
    yield from many()
    yield from orders()
    rng = random.Random(6)
    for _ in range(100):
        yield some_case(rng)
