#!/usr/bin/env python3
"""Runs the program `sweep` in folders of its own and compares what it prints, line by line, with a plain search, the bytes fetched and
spared with the reading rules, round by round, and refusals with tables.py; also where reads give few bytes at a time, where one fails, and
where there is no memory. On small images the search and the rounds are compared with the steps of steps.py. Fails at the first difference.
Wants crates/sweep/out/sweep (`rt run` in crates/sweep) and gcc."""
import errno
import os
import pathlib
import random
import shutil
import subprocess
import sys
import tempfile

import books
import steps
import tables

PROGRAM = pathlib.Path(__file__).resolve().parent.parent / "crates" / "sweep" / "out" / "sweep"
IMAGE = 65536
HITS = 262144  # the program lists the hits by parts of the image when there are more
PART = 3855  # the most bytes that a part has
SMALL = 400  # an image that is read step by step too
LENGTHS = [*range(1, 65), 128, 256, 512, 1024]
# In a file's place: a folder, a file that may not be opened, and one of which every read fails; None: no file.
FOLDER, LOCKED, MEMORY = object(), object(), object()
NOBODY = 65534  # root may read all files
BOOK = books.book_of([b"axbbx"])

# In the place of the C library's `read`: of the file READ_FILE at most READ_MOST bytes a call, and after READ_GOOD bytes errno READ_ERROR.
READ = r"""
#include <errno.h>
#include <limits.h>
#include <stdio.h>
#include <stdlib.h>
#include <string.h>
#include <sys/syscall.h>
#include <unistd.h>

static size_t number(const char *name) { return strtoul(getenv(name), NULL, 10); }

ssize_t read(int file, void *bytes, size_t n) {
    static size_t good;
    char link[64], path[PATH_MAX] = "";
    snprintf(link, sizeof link, "/proc/self/fd/%d", file);
    char *name = readlink(link, path, sizeof path - 1) < 0 ? NULL : strrchr(path, '/');
    if (name == NULL || strcmp(name + 1, getenv("READ_FILE")) != 0) return syscall(SYS_read, file, bytes, n);
    size_t most = number("READ_MOST"), left = number("READ_GOOD") - good;
    if (left == 0) {
        errno = number("READ_ERROR");
        return -1;
    }
    if (most < n) n = most;
    if (left < n) n = left;
    ssize_t got = syscall(SYS_read, file, bytes, n);
    if (got > 0) good += got;
    return got;
}
"""
ALL = 1 << 40  # more bytes than any file has

# In the place of the C library's calls for memory: there is none.
NO_MEMORY = r"""
#include <stddef.h>

void *malloc(size_t n) { return NULL; }
void *calloc(size_t n, size_t size) { return NULL; }
void *realloc(void *old, size_t n) { return NULL; }
void *aligned_alloc(size_t align, size_t n) { return NULL; }
"""


def search(bodies, image):
    """All hits (end, token), by rising end and, at one end, by falling length."""
    at_end = {}
    for number, word in sorted(tables.spelled(bodies), key=lambda spelled: -len(spelled[1])):
        at = image.find(word)
        while at >= 0:
            at_end.setdefault(at + len(word), []).append(number)
            at = image.find(word, at + 1)
    return [(end, number) for end in sorted(at_end) for number in at_end[end]]


def shift(words, shortest, matched, closing):
    """Rule 5."""
    d, node = len(matched), tables.node_shift(words, matched)
    if closing is None:
        return node

    def agrees(t, s):
        return len(t) <= d + s or t[len(t) - 1 - d - s] == closing

    return max(node, next((s for s in range(1, shortest) if any(agrees(t, s) for t in words)), shortest))


def endings_of(words):
    """The endings of words, and those of them that go on: that are endings of longer ones."""
    endings = {word[k:] for word in words for k in range(len(word) + 1)}
    return endings, {ending[1:] for ending in endings if ending}


def bill(bodies, image):
    """How many bytes the reading rules fetch, and how many they take from stretches instead, round by round."""
    words = [word for _, word in tables.spelled(bodies)]
    endings, inner = endings_of(words)
    shortest, longest = min(map(len, bodies)), max(map(len, bodies))
    b, stretches, fetched, spared, shifts = shortest, [], 0, 0, {}
    while b <= len(image):
        d, most = 0, min(longest, b)
        while d < most:  # an ending of an ending is one too
            k = (d + most + 1) // 2
            d, most = (k, most) if image[b - k : b] in endings else (d, k - 1)
        matched = image[b - d : b]
        closing = image[b - 1 - d] if d < b and matched in inner else None
        looked = b - d if closing is None else b - 1 - d
        known = sum(max(0, right - max(left, looked)) for left, right in stretches)
        fetched, spared = fetched + b - looked - known, spared + known
        left_over = [s for s in stretches if s[0] < b - d]
        new = (max([b - d] + [right for _, right in left_over]), b)
        if (matched, closing) not in shifts:
            shifts[matched, closing] = shift(words, shortest, matched, closing)
        b += shifts[matched, closing]
        stretches = [(left, right) for left, right in [*left_over, new] if 4 * (b - right) <= right - left]
    return fetched, spared


def stepped(bodies, image):
    """The hits, and how many bytes are fetched and spared, by the steps of steps.py."""
    lists, shortest, count = steps.built(bodies)
    state, hits, fetched = steps.State(len(image), shortest, count), [], 0
    while (said := steps.settle(lists, state)) != "done":
        word, *values = said.split()
        if word == "fetch":
            fetched += 1
            steps.take(lists, state, image[int(values[0])])
        else:
            hits.append(tuple(map(int, values)))
    return hits, fetched, state.spared


def expected(book, image):
    reading = tables.read(book)
    if reading[0] == "refused":
        return "refused {} {}\n".format(*reading[1:])
    if len(image) > IMAGE:
        return f"refused 8 {IMAGE}\n"
    hits, (fetched, spared) = search(reading[1], image), bill(reading[1], image)
    if len(image) <= SMALL and (hits, fetched, spared) != stepped(reading[1], image):
        fail("the plain readings", book, image, "tell", (hits, fetched, spared), "and", stepped(reading[1], image))
    lines = [f"image {len(image)} tokens {len(reading[1])}", *(f"hit {end} {number}" for end, number in hits)]
    return "\n".join(lines + [f"end {len(hits)} {fetched} {spared}"]) + "\n"


def place(path, content):
    if content is FOLDER:
        path.mkdir()
    elif content is LOCKED:
        path.write_bytes(BOOK)
        path.chmod(0)
    elif content is MEMORY:
        path.symlink_to("/proc/self/mem")  # place 0 of a process is never there
    elif content is not None:
        path.write_bytes(content)


def before(folder, name, text):
    """A library that stands before the C library and has calls of its own."""
    source, library = pathlib.Path(folder, name + ".c"), pathlib.Path(folder, name + ".so")
    source.write_text(text)
    subprocess.run(["gcc", "-O1", "-Wall", "-Werror", "-shared", "-fPIC", "-o", library, source], check=True)
    return library


def reads(library, file, most, good, error):
    """What tells the library made of `READ` how to read."""
    return {
        "LD_PRELOAD": str(library), "READ_FILE": file, "READ_MOST": str(most), "READ_GOOD": str(good), "READ_ERROR": str(error),
    }


def run(book, image, stdout=subprocess.PIPE, env=None):
    with tempfile.TemporaryDirectory() as folder:
        os.chmod(folder, 0o755)
        program = shutil.copy(PROGRAM, folder)
        place(pathlib.Path(folder, "book.bin"), book)
        place(pathlib.Path(folder, "image.bin"), image)
        user = NOBODY if os.geteuid() == 0 and LOCKED in (book, image) else None
        return subprocess.run([program], cwd=folder, stdin=subprocess.DEVNULL, stdout=stdout, stderr=subprocess.PIPE, user=user, env=env)


def fail(name, *words):
    print("sweep:", name + ":", *words)
    sys.exit(1)


def compare(name, book, image, env=None):
    done = run(book, image, env=env)
    wanted = expected(*(x if isinstance(x, bytes) else b"" for x in (book, image)))
    if done.returncode or done.stderr:
        fail(name, "it ended with", done.returncode, done.stderr)
    if done.stdout == wanted.encode():
        return
    told, wanted = done.stdout.decode("latin-1").split("\n"), wanted.split("\n")
    for i in range(max(len(told), len(wanted))):
        a, b = (lines[i] if i < len(lines) else "nothing" for lines in (told, wanted))
        if a != b:
            fail(name, f"line {i + 1} is {a!r}, wanted {b!r}")


def reason(error, dry):
    """The operating system's words; where there is no memory, with the number behind them."""
    return os.strerror(error) + (f" (os error {error})" if dry else "")


def unread(name, book, image, file, error, env=None, dry=False):
    """A read of `file` fails: there is no line, and the error output names the file and says why."""
    done = run(book, image, env=env)
    if done.returncode or done.stdout or done.stderr.decode() != f"sweep: cannot read {file}: {reason(error, dry)}\n":
        fail(name, "it ended with", done.returncode, done.stdout[:100], done.stderr)


def unwritten(name, book, image, env=None, dry=False):
    """No line can be written: the error output says so once."""
    with open("/dev/full", "w") as full:
        done = run(book, image, full, env)
    if done.returncode or done.stderr.decode() != f"sweep: not all lines could be written: {reason(errno.ENOSPC, dry)}\n":
        fail(name, "it ended with", done.returncode, done.stderr)


def no_room():
    """Output of one line, of one buffer, and of several: all hits in the program's buffer, and by parts."""
    yield "a refusal, no room", BOOK[:-1], b""
    yield "one hit, no room", BOOK, b"cccaxbbx"
    yield "hits of several buffers, no room", books.book_of([b"a"]), b"a" * IMAGE
    yield "hits by parts, no room", books.book_of([b"a" * k for k in range(1, 6)]), b"a" * IMAGE


def failing(library):
    """Reads that fail at once, halfway and where the file would end."""
    image, long = b"cccaxbbx", b"a" * 1000000

    def case(book, image, file, most, good, error=errno.EIO):
        name = f"{file}, at most {most} bytes a read, fails after {good} with errno {error}"
        return name, book, image, file, error, reads(library, file, most, good, error)

    yield "image.bin fails at once", BOOK, MEMORY, "image.bin", errno.EIO
    yield "book.bin fails at once", MEMORY, image, "book.bin", errno.EIO
    for most in (1, 3, ALL):
        yield from (case(BOOK, image, "book.bin", most, good) for good in range(len(BOOK) + 1))
        yield from (case(BOOK, image, "image.bin", most, good) for good in range(len(image) + 1))
        yield from (case(BOOK, long, "image.bin", 999 * most, good) for good in (1, 4096, IMAGE))
        yield from (case(long, image, "book.bin", 999 * most, good) for good in (1, 4096, 17664))
    for error in (errno.EINTR, errno.EAGAIN, errno.EINVAL):
        yield case(BOOK, image, "book.bin", ALL, 0, error)
        yield case(BOOK, image, "image.bin", ALL, 0, error)
    yield case(BOOK, image, "image.bin", ALL, 3, errno.EISDIR)  # a folder's first read fails
    yield case(BOOK[:-1], image, "image.bin", ALL, 3)  # also where the book is refused


def short(library):
    """Reads that give few bytes at a time, and those that would fail past what is wanted of a file."""
    most_tokens = books.book_of([books.numbered(i, 64) for i in range(256)])
    for most in (1, 3, 4097):
        for book, image in ((BOOK, b"cccaxbbx"), (BOOK, bytes(9000) + b"axbbx"), (most_tokens, bytes(IMAGE + 1))):
            for file in ("book.bin", "image.bin"):
                yield f"{file}, at most {most} bytes a read", book, image, reads(library, file, most, ALL, errno.EIO)
    yield "long image.bin", BOOK, bytes(1000000), reads(library, "image.bin", 999, IMAGE + 1, errno.EIO)
    yield "long book.bin", most_tokens + bytes(1000000), b"", reads(library, "book.bin", 999, 17665, errno.EIO)


def missing():
    """Files that are not there, empty, locked, cut, or folders."""
    for i, book in enumerate((BOOK, None, b"", FOLDER, LOCKED, b"\0")):
        for k, image in enumerate((b"cccaxbbx", None, b"", FOLDER, LOCKED)):
            yield f"files {i} {k}", book, image
    for n in range(len(BOOK)):
        yield f"book cut to {n} bytes", BOOK[:n], b"cccaxbbx"
    for n in range(9):
        yield f"image cut to {n} bytes", BOOK, b"cccaxbbx"[:n]


def limits():
    """Books at and over their limits, in files as long as can be and longer; images at and over theirs."""
    most = [books.numbered(i, 64) for i in range(256)]
    whole = b"".join(map(books.record, most))
    next_one = books.record(bytes(1024))
    for name, rest in (
        ("closed", b"\0"), ("not closed", b""), ("a byte behind it", b"\0x"), ("many bytes behind it", b"\0" * 100000),
        ("kind 45h", b"\x45" + bytes(2000)), ("one token more", next_one), ("one token more, closed", next_one + b"\0"),
        ("one token more, cut", next_one[:-1]), ("a kind more", next_one[:1]), ("many tokens more", next_one * 100),
        ("a short token more", b"\x01a\0"), ("a repeat", books.record(most[0])),
    ):
        yield f"largest book, {name}", whole + rest, most[7] + b"x" + most[255]
    long = [books.numbered(i, 1024) for i in range(16)]
    yield "16 long tokens", books.book_of(long), long[3] + long[4]
    yield "17 long tokens", books.book_of(long + [bytes(1024)]), b""
    yield "repeat of a long token", books.book_of(long[:15] + long[:1]), b""
    yield "257 tokens", books.book_of([books.numbered(i, 2) for i in range(257)]), b""
    for byte in range(256):
        yield f"1,000,000 bytes {byte}", bytes([byte]) * 1000000, b"a"
    for n in (IMAGE - 1, IMAGE, IMAGE + 1, 1000000):
        image = bytes(n - 5) + b"axbbx"
        yield f"image of {n} bytes", BOOK, image
        yield f"image of {n} bytes, refused book", BOOK[:-1], image


def many_hits():
    """As many hits as the program's buffer holds, one more, and many more."""
    bodies = [b"a" * k for k in range(1, 6)] + [b"b"]
    fill = (HITS + 10) // 5
    exact = HITS - (5 * fill - 10)
    for more in (exact, exact + 1, IMAGE - fill):
        yield f"{5 * fill - 10 + more} hits", books.book_of(bodies), b"b" * more + b"a" * fill
    yield "all a", books.book_of(bodies), b"a" * IMAGE
    yield "all a, every length", books.book_of([b"a" * k for k in LENGTHS]), b"a" * IMAGE
    yield "tokens of one byte", books.book_of([bytes([k]) for k in range(256)]), bytes(range(256)) * (IMAGE // 256)


def inside():
    """Tokens inside tokens and reverses, in three orders of the book: of one letter, of a few, an ending of one body for each length."""
    body = bytes(i % 251 for i in range(1024))
    every = [body[-n:] for n in LENGTHS]
    cut = b"".join(body[-n:] for n in (*range(1, 70), 127, 128, 129, 300, 512, 1023, 1024, 1))
    for name, bodies, image in (
        ("a, aa", [b"a", b"aa"], b"aaa"),
        ("a to aaaa", [b"a" * n for n in range(1, 5)], b"aaaaabaaaab" * 9),
        ("x to axbbx", [b"x", b"bx", b"bbx", b"xbbx", b"axbbx"], b"axbbxbbxcbx" * 9),
        ("every length", every, cut),
        ("every length, reversed", every, cut[::-1]),
        ("every length, of the reverse", [word[::-1] for word in every], cut),
        ("abcd in others", [b"abcd", b"xdcba", b"dcbaxyz", b"abcdxyzuvw", b"cba", b"dcb"], b"wvuzyxdcbaxyzabcdxdcbabcdxyzuvw" * 9),
    ):
        yield f"{name}, rising", books.book_of(bodies), image
        yield f"{name}, falling", books.book_of(bodies[::-1]), image
        yield f"{name}, in turns", books.book_of(bodies[::2] + bodies[1::2][::-1]), image


def edge(longest, k):
    """Where the k-th part ends, if the image goes on."""
    return PART + (k - 1) * (PART - (longest - 1))


def across(word, off):
    """An image of one letter with a word, the longest there is, that ends so many bytes behind each part."""
    image = bytearray(b"a" * IMAGE)
    for k in range(1, 100):
        end = edge(len(word), k) + off
        if end <= IMAGE:
            image[end - len(word) : end] = word
    return bytes(image)


def at_edges():
    """Images that end at the end of a part, a byte before and a byte behind it; tokens, and reverses, that lie across the parts' ends."""
    for lengths, k in ((range(1, 6), 14), (LENGTHS, 2), (LENGTHS, 3)):
        for n in (-1, 0, 1):
            yield f"image of {k} parts and {n} bytes", books.book_of([b"a" * m for m in lengths]), b"a" * (edge(max(lengths), k) + n)
    many, long, card = [b"a" * m for m in range(1, 9)], books.numbered(1, 1024), b"bcdefghijk"
    parts = [long[-64:], long, long[-2:], long[-512:], long[-1:], long[:1], long[:64]]
    for off in (-1, 0, 1, 2, 511, 1022, 1023, 1024, 1025):
        yield f"long tokens that end {off} behind a part", books.book_of(many + parts), across(long, off)
    for off in (0, 3, 9):
        yield f"reverses that end {off} behind a part", books.book_of(many + [card, card[:7], card[:4]]), across(card[::-1], off)


def planted(rng, bodies):
    """An image of few letters with tokens in it, many of them reversed."""
    image = bytearray(rng.choice(b"abc"[: rng.randint(1, 3)]) for _ in range(rng.choice([40, 400])))
    for body in bodies:
        at = rng.randint(0, len(image))
        image[at : at + len(body)] = body[:: rng.choice([1, -1])]
    return bytes(image)


def some(rng):
    """The books of books.py, damaged ones too, and random ones."""
    for i, book in enumerate(dict.fromkeys(book for book, *_ in books.cases())):
        reading = tables.read(book)
        yield f"book {i}", book, planted(rng, reading[1] if reading[0] == "accepted" else [])
    for i in range(300):
        bodies = steps.some_bodies(rng)
        yield f"random {i}", books.book_of(bodies), planted(rng, bodies) if i % 2 else steps.some_image(rng)


def main():
    if not PROGRAM.is_file():
        fail("no program", PROGRAM, "is not there; `rt run` in crates/sweep makes it")
    count = 0
    for cases in (missing(), limits(), some(random.Random(3)), inside(), many_hits(), at_edges()):
        for case in cases:
            compare(*case)
            count += 1
    with tempfile.TemporaryDirectory() as folder:
        os.chmod(folder, 0o755)
        library = before(folder, "read", READ)
        for case in short(library):
            compare(*case)
            count += 1
        failed = [unread(*case) for case in failing(library)]
        env = {"LD_PRELOAD": str(before(folder, "no_memory", NO_MEMORY))}
        compare("no memory, and none is needed", BOOK, b"cccaxbbx", env)
        count += 1
        for case in no_room():
            unwritten(*case, env, dry=True)
        for book, image, file in (BOOK, MEMORY, "image.bin"), (MEMORY, b"cccaxbbx", "book.bin"):
            unread(f"{file} fails at once, and there is no memory", book, image, file, errno.EIO, env, dry=True)
    full = [unwritten(*case) for case in no_room()]
    print(f"sweep: {count} books and images, {len(failed)} reads that fail, and {len(full)} with no room for output:", end=" ")
    print("all lines are the plain search's")


if __name__ == "__main__":
    main()
