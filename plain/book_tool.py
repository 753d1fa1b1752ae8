#!/usr/bin/env python3
"""Holds tools/book.py to the proved reader: over the books of books.py `show` gives the reader's refusal, or as many tokens of these
lengths, and `make` of what it shows is the same book; over its pairs of books, and random ones, `merge` gives the book or the refusal of
the proved merge. Then lists that no book can hold, books that can't be merged, and wrong uses."""
import pathlib
import random
import subprocess
import sys
import tempfile

ROOT = pathlib.Path(__file__).resolve().parent.parent
TOOL = ROOT / "tools" / "book.py"
sys.path.insert(0, str(TOOL.parent))
import book as tool
import books
import proved
import tables

PAIRS = 700  # random ones


def fail(*words):
    print("book tool:", *words)
    sys.exit(1)


def answer(book):
    """What `show` says, as the proved reader tells it; the tokens come back as the same book."""
    try:
        shown = tool.shown(book)
    except tool.Refused as why:
        _, number, value = str(why).split(":")[0].split()
        return (0, int(number), int(value), 0, 0)
    if tool.made(shown, "shown") != book:
        return "another book is made of what is shown"
    bodies = [bytes.fromhex(line) for line in shown.split("\n") if line and line[0] != "#"]
    sizes = [len(body) for body in bodies]
    return (1, len(sizes), tables.body_bytes(bodies), min(sizes), max(sizes))


def merging(first, second):
    """What `merge` says, as the proved merge tells it, and the book."""
    try:
        book = tool.merged(first, second, ("first", "second"))
    except tool.Refused as why:
        _, number, value = str(why).split(":")[0].split()
        return (0, int(number), int(value), 0, 0), b""
    return (1, len(book), 0, 0, 0), book


def proved_merging(first, second):
    out = proved.Lent(proved.BYTES, bytes(len(first) + len(second)))
    told = proved.call("probe_merge", *(proved.Lent(proved.BYTES, x) for x in (first, second)), out)
    return told, bytes(out.content()[: told[1]]) if told[0] == 1 else b""


def listed(*bodies):
    return "".join(body.hex() + "\n" for body in bodies).encode()


# What is put in, the words, the exit code, and a part of the answer.
NUMBERED = [i.to_bytes(2, "big") for i in range(257)]
USES = (
    (b"\n# none\n\n", "make - -", 1, "no token"),
    (b"61\n6\n", "make - -", 1, "line 2: this is not hex"),
    (b"61\n\xff\n", "make - -", 1, "line 2: this is not hex"),
    (listed(b"a", b"b" * 65), "make - -", 1, "line 2: 65 bytes"),
    (b"# one\n61 62\n62\n\n6162 # again\n", "make - -", 1, "line 5: this token stands in line 2"),
    (listed(*NUMBERED), "make - -", 1, "line 257: with this token the book is over its limits"),
    (listed(*(bytes([i]) * 1024 for i in range(17))), "make - -", 1, "line 17: with this token the book is over its limits"),
    (listed(b"abcd", b"x", b"dcba"), "make - -", 1, "line 3: this token stands in line 1 already, reversed"),
    (listed(*books.filled(7), b"abcd"), "make - -", 1, "line 67: with this token the book is over its limits"),
    (listed(*books.filled(8), b"abcd"), "make - -", 0, "\x04abcd\0"),
    (listed(b"abcde", b"abba", b"edcba"), "make - -", 0, "\x05abcde\x04abba\x05edcba\0"),
    (listed(b"axbbx"), "make - -", 0, "\x05axbbx\0"),
    (listed(*NUMBERED[:256]), "make - -", 0, "\x02\0\xff\0"),
    (b"\x05axbbx\0", "show -", 0, "# token 1, 5 bytes\n6178626278\n"),
    (b"\x05axbbx", "show -", 1, "refused 1 6: "),
    (b"\x04abcd\x04dcba\0", "show -", 1, f"refused 4 5: {tool.WHY[4]}"),
    (b"", "make nowhere.txt -", 2, "nowhere.txt: No such file"),
    (b"61", "make - nowhere/book.bin", 2, "nowhere/book.bin: No such file"),
    (b"", "show .", 2, "Is a directory"),
    (b"", "show", 2, "required"),
    (b"", "take -", 2, "invalid choice"),
    (b"", "--help", 0, "make TOKENS.txt BOOK.bin"),
    (b"", "--help", 0, "merge FIRST.bin SECOND.bin OUT.bin"),
    (b"\x01a\0", "merge - - -", 2, "only one of the two books"),
    (b"\x01a\0", "merge - nowhere.bin -", 2, "nowhere.bin: No such file"),
    (b"\x01a\0", "merge . - -", 2, "Is a directory"),
    (b"", "merge one.bin two.bin", 2, "required"),
)

# The books north.bin and south.bin (None: no file), the words after `merge`, the exit code, the output or a part of the error, and what
# both.bin then holds, where `OLD` stood before.
OLD = b"old"
NORTH, SOUTH, WORDS = books.book_of([b"ab", b"c"]), books.book_of([b"d", b"ab", b"abc"]), "north.bin south.bin both.bin"
BOTH, MOST = books.book_of([b"ab", b"c", b"d", b"abc"]), books.book_of(NUMBERED[:256])
CARDS = books.book_of([b"abcd", b"abc"])
MERGES = (
    (NORTH, SOUTH, WORDS, 0, "", BOTH),
    (NORTH, NORTH, WORDS, 0, "", NORTH),
    (MOST, books.book_of(NUMBERED[7:9]), WORDS, 0, "", MOST),
    (CARDS, books.book_of([b"cba", b"dcba", b"gfedcba"]), WORDS, 0, "", books.book_of([b"abcd", b"abc", b"cba", b"gfedcba"])),
    (NORTH, SOUTH, "north.bin south.bin -", 0, BOTH.decode("latin-1"), OLD),
    (NORTH, SOUTH, "north.bin north.bin both.bin", 0, "", NORTH),
    (NORTH, b"\x01a\0", "both.bin south.bin both.bin", 1, f"refused 2 0: both.bin, the first book: {tool.WHY[2]}\n", OLD),
    (b"\x02ab\x02", b"", WORDS, 1, f"refused 1 3: north.bin, the first book: {tool.WHY[1]}\n", OLD),
    (b"\x01a\x45", SOUTH, WORDS, 1, f"refused 2 2: north.bin, the first book: {tool.WHY[2]}\n", OLD),
    (b"\x01a\0\0", SOUTH, WORDS, 1, f"refused 3 3: north.bin, the first book: {tool.WHY[3]}\n", OLD),
    (b"\x01a\x01a\0", SOUTH, WORDS, 1, f"refused 4 2: north.bin, the first book: {tool.WHY[4]}\n", OLD),
    (books.book_of(NUMBERED), SOUTH, WORDS, 1, f"refused 5 768: north.bin, the first book: {tool.WHY[5]}\n", OLD),
    (b"\0", b"\0", WORDS, 1, f"refused 6 0: north.bin, the first book: {tool.WHY[6]}\n", OLD),
    (NORTH, b"\x01a", WORDS, 1, f"refused 13 1: south.bin, the second book, is refused 1 2: {tool.WHY[1]}\n", OLD),
    (NORTH, b"\x45", WORDS, 1, f"refused 13 2: south.bin, the second book, is refused 2 0: {tool.WHY[2]}\n", OLD),
    (NORTH, b"\x01a\0\0", WORDS, 1, f"refused 13 3: south.bin, the second book, is refused 3 3: {tool.WHY[3]}\n", OLD),
    (NORTH, b"\x01a\x01a\0", WORDS, 1, f"refused 13 4: south.bin, the second book, is refused 4 2: {tool.WHY[4]}\n", OLD),
    (CARDS, b"\x04dcba\x04abcd\0", WORDS, 1, f"refused 13 4: south.bin, the second book, is refused 4 5: {tool.WHY[4]}\n", OLD),
    (MOST, books.book_of(NUMBERED), WORDS, 1, f"refused 13 5: south.bin, the second book, is refused 5 768: {tool.WHY[5]}\n", OLD),
    (NORTH, b"\0", WORDS, 1, f"refused 13 6: south.bin, the second book, is refused 6 0: {tool.WHY[6]}\n", OLD),
    (MOST, books.book_of([NUMBERED[3], b"x", b"y"]), WORDS, 1, "refused 5 3: with the record at this place of south.bin, the second", OLD),
    (books.book_of(books.filled(7)), CARDS, WORDS, 1, "refused 5 0: with the record at this place of south.bin, the second", OLD),
    (None, SOUTH, WORDS, 2, "north.bin: No such file", OLD),
    (NORTH, None, WORDS, 2, "south.bin: No such file", OLD),
    (NORTH, SOUTH, "north.bin south.bin nowhere/both.bin", 2, "nowhere/both.bin: No such file", OLD),
)


def use(folder, given, words, code, part):
    done = subprocess.run([TOOL, *words.split()], cwd=folder, input=given, stdout=subprocess.PIPE, stderr=subprocess.PIPE)
    told = done.stdout.decode("latin-1") + done.stderr.decode("latin-1")
    if done.returncode != code or part not in told or (code and told.count("\n") != 1):
        fail(f"{words!r} ended with {done.returncode}, wanted {code} and {part!r}:", told)
    return done.stdout.decode("latin-1")


def merge_use(folder, north, south, words, code, part, both):
    for name, book in (("north.bin", north), ("south.bin", south), ("both.bin", OLD)):
        if book is not None:
            pathlib.Path(folder, name).write_bytes(book)
    output = use(folder, b"", "merge " + words, code, part)
    if output != ("" if code else part):
        fail(f"'merge {words}' of {north} and {south} puts out", output)
    left = pathlib.Path(folder, "both.bin").read_bytes()
    if left != both:
        fail(f"'merge {words}' of {north} and {south} leaves {left} in both.bin, wanted {both}")


def pairs(rng):
    yield from books.pairs()
    for i in range(PAIRS):
        yield books.some_pair(rng, books.SHAPES[i % len(books.SHAPES)])


def main():
    count = 0
    for case, (book, *_) in enumerate(books.cases()):
        said, wanted = answer(book), proved.call("probe_read", proved.Lent(proved.BYTES, book))
        if said != wanted:
            fail(f"book {case}: {said}, but the proved reader tells {wanted}")
        count += 1
    merged = 0
    for case, (first, second) in enumerate(pairs(random.Random(17))):
        said, wanted = merging(first, second), proved_merging(first, second)
        if said != wanted:
            fail(f"pair {case}: {said}, but the proved merge tells {wanted}")
        merged += 1
    for check, uses in ((use, USES), (merge_use, MERGES)):
        for one in uses:
            with tempfile.TemporaryDirectory() as folder:
                check(folder, *one)
    print(f"book tool: {count} books are shown as the proved reader reads them, and made again;", end=" ")
    print(f"{merged} pairs are merged as the proved merge does it; {len(USES) + len(MERGES)} uses end as they must")


if __name__ == "__main__":
    main()
