#!/usr/bin/env python3
"""Makes a revocation book from a list of tokens, merges two books, and shows what is in a book.

  tools/book.py make TOKENS.txt BOOK.bin             one token a line, in hex; blank lines are passed over, and so is what follows a '#'
  tools/book.py merge FIRST.bin SECOND.bin OUT.bin   all tokens of the first book, then those of the second that the first lacks
  tools/book.py show BOOK.bin                        the tokens as such a list, or why the book is refused

A token of 4, 7 or 10 bytes counts in both byte orders: its reverse is the same token and, if it differs, adds as many body bytes.
'-' is standard input or output. Exit code 1: the list or a book is refused, and no file is written; 2: a file can't be used, or the words
are wrong.
"""
import argparse
import os
import pathlib
import sys

sys.path.insert(0, str(pathlib.Path(__file__).resolve().parent.parent / "plain"))
import books
import tables

LIMITS = "256 tokens, or 16,384 body bytes with those of reverses"
WHY = {
    1: "the book runs out in the record at this place, or before its closing 00h",
    2: "the kind at this place is above 44h",
    3: "there are bytes after the closing 00h",
    4: "the token of the record at this place is an earlier one again, or an earlier one of 4, 7 or 10 bytes reversed",
    5: f"with the record at this place there are more than {LIMITS}",
    6: "there is no token in the book",
}


class Refused(Exception):
    """What is wrong with a list or a book, in one line."""


def tokens_of(text, name):
    """The tokens of a list, each with the number of its line."""
    found = []
    for number, line in enumerate(text.split("\n"), 1):
        word = line.split("#")[0].strip()
        try:
            body = bytes.fromhex(word)
        except ValueError:
            raise Refused(f"{name}: line {number}: this is not hex, two digits a byte") from None
        if word and len(body) not in books.KINDS:
            raise Refused(f"{name}: line {number}: {len(body)} bytes; a token has 1 to 64, 128, 256, 512 or 1024")
        if word:
            found.append((number, body))
    return found


def made(text, name):
    """The book of a list. What a book can't hold is what a reader refuses."""
    found = tokens_of(text, name)
    bodies = [body for _, body in found]
    book = books.book_of(bodies)
    reading = tables.read(book)
    if reading[0] == "accepted":
        return book
    if reading[1] == 6:
        raise Refused(f"{name}: no token; a book has at least one")
    starts = [sum(1 + len(body) for body in bodies[:i]) for i in range(len(bodies))]
    line, body = found[starts.index(reading[2])]
    if reading[1] == 4:
        earlier, again = next(one for one in found if tables.has([one[1]], body))
        order = "" if again == body else ", reversed"
        raise Refused(f"{name}: line {line}: this token stands in line {earlier} already{order}")
    raise Refused(f"{name}: line {line}: with this token the book is over its limits: it has more than {LIMITS}")


def shown(book):
    """The book as a list."""
    reading = tables.read(book)
    if reading[0] == "refused":
        raise Refused("refused {} {}: {}".format(*reading[1:], WHY[reading[1]]))
    return "".join(f"# token {i}, {len(body)} bytes\n{body.hex()}\n" for i, body in enumerate(reading[1], 1))


def merged(first, second, names):
    """Two books as one; `names` are theirs. The output is as long as needed, so 14 does not come."""
    answer = tables.merge(first, second, len(first) + len(second))
    if answer[0] == "accepted":
        return answer[1]
    number, value = answer[1:]
    own, other = tables.read(first), tables.read(second)
    if own[0] == "refused":
        words = f"{names[0]}, the first book: {WHY[number]}"
    elif number == 13:
        words = "{}, the second book, is refused {} {}: {}".format(names[1], *other[1:], WHY[value])
    else:
        words = f"with the record at this place of {names[1]}, the second book, there are in both more than {LIMITS}"
    raise Refused(f"refused {number} {value}: {words}")


def content(name):
    return sys.stdin.buffer.read() if name == "-" else pathlib.Path(name).read_bytes()


def write(name, data):
    if name != "-":
        pathlib.Path(name).write_bytes(data)
        return
    sys.stdout.buffer.write(data)
    sys.stdout.buffer.flush()


class Parser(argparse.ArgumentParser):
    def error(self, message):
        self.exit(2, f"book.py: {message}; --help says more\n")


def main():
    parser = Parser(prog="tools/book.py", description=__doc__, formatter_class=argparse.RawDescriptionHelpFormatter)
    commands = parser.add_subparsers(dest="command", required=True, metavar="make|merge|show")
    make = commands.add_parser("make", help="make a book from a list of tokens")
    make.add_argument("tokens", metavar="TOKENS.txt")
    make.add_argument("book", metavar="BOOK.bin")
    merge = commands.add_parser("merge", help="merge two books")
    merge.add_argument("first", metavar="FIRST.bin")
    merge.add_argument("second", metavar="SECOND.bin")
    merge.add_argument("out", metavar="OUT.bin")
    show = commands.add_parser("show", help="show the tokens of a book")
    show.add_argument("book", metavar="BOOK.bin")
    asked = parser.parse_args()
    if asked.command == "merge" and asked.first == asked.second == "-":
        parser.error("only one of the two books can be standard input")
    try:
        if asked.command == "make":
            write(asked.book, made(content(asked.tokens).decode("latin-1"), asked.tokens))
        elif asked.command == "merge":
            names = (asked.first, asked.second)
            write(asked.out, merged(*map(content, names), names))
        else:
            write("-", shown(content(asked.book)).encode())
    except Refused as why:
        if asked.command != "show":
            parser.exit(1, f"book.py: {why}\n")
        print(why)
        sys.exit(1)
    except BrokenPipeError:
        os.dup2(os.open(os.devnull, os.O_WRONLY), 1)
        sys.exit(2)
    except (OSError, ValueError) as why:
        parser.exit(2, f"book.py: {getattr(why, 'filename', None) or 'file'}: {getattr(why, 'strerror', None) or why}\n")
    except KeyboardInterrupt:
        sys.exit(2)


if __name__ == "__main__":
    main()
