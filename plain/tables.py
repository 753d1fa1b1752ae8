"""Books and tree tables, plainly, from the papers alone: what the proved calls are compared with."""

NAMES = ("parent", "label", "token", "first child", "next sibling", "shift")  # of the tables, in their order
LENGTHS = {k: k for k in range(1, 65)} | {65: 128, 66: 256, 67: 512, 68: 1024}
LONGEST = 1024  # the most bytes of a body, and so the greatest depth and shift of a node
BOTH_ORDERS = (4, 7, 10)  # tokens of so many bytes stand in an image in either byte order


def words(body):
    """The words of a token: its bytes and, at these lengths, its bytes reversed, if they differ."""
    back = body[::-1]
    return [body, back] if len(body) in BOTH_ORDERS and back != body else [body]


def spelled(bodies):
    """The words of these tokens, each behind its token's number, in the order in which the tree takes them."""
    return [(number, word) for number, body in enumerate(bodies, 1) for word in words(body)]


def body_bytes(bodies):
    """All body bytes: those of all words."""
    return sum(len(word) for _, word in spelled(bodies))


def has(bodies, body):
    """Whether a body is one of these tokens: whether one of its words is among them."""
    return any(word in bodies for word in words(body))


def distinct(bodies):
    """The bodies without repeats."""
    out = []
    for body in bodies:
        if not has(out, body):
            out.append(body)
    return out


def read(book):
    """('accepted', bodies) or ('refused', number, value)."""
    bodies, total, at = [], 0, 0
    while True:
        if at >= len(book):
            return ("refused", 1, len(book))
        kind = book[at]
        if kind > 68:
            return ("refused", 2, at)
        if kind == 0:
            if at + 1 < len(book):
                return ("refused", 3, at + 1)
            return ("accepted", bodies) if bodies else ("refused", 6, 0)
        size = LENGTHS[kind]
        if at + 1 + size > len(book):
            return ("refused", 1, at)
        body = bytes(book[at + 1 : at + 1 + size])
        total += body_bytes([body])
        if len(bodies) == 256 or total > 16384:
            return ("refused", 5, at)
        if has(bodies, body):
            return ("refused", 4, at)
        bodies.append(body)
        at += 1 + size


def token(book, i):
    """('found', place, length) of the body of token i, ('missing',) or ('refused', number, value)."""
    reading = read(book)
    if reading[0] == "refused":
        return reading
    bodies = reading[1]
    if not 1 <= i <= len(bodies):
        return ("missing",)
    return ("found", sum(1 + len(b) for b in bodies[: i - 1]) + 1, len(bodies[i - 1]))


def body_at(book, at):
    """Length of the body of the record at a place, 0 where no whole record stands."""
    size = LENGTHS.get(book[at], 0) if at < len(book) else 0
    return size if at + 1 + size <= len(book) else 0


def whole_bodies(book):
    """The bodies of the records that follow one another from the start, up to where no whole one with a body stands."""
    bodies, at = [], 0
    while body_at(book, at):
        start, at = at + 1, at + 1 + body_at(book, at)
        bodies.append(book[start:at])
    return bodies


def contains(book, body):
    """Whether the body is one of these as a token, be the book accepted or not."""
    return has(whole_bodies(book), body)


def merge(first, second, room):
    """Two books as one in an output of `room` bytes: ('accepted', book) or ('refused', number, value)."""
    reading, other = read(first), read(second)
    if reading[0] == "refused":
        return reading
    if other[0] == "refused":
        return ("refused", 13, other[1])
    tokens, bodies, records, at = len(reading[1]), body_bytes(reading[1]), first[:-1], 0
    for body in other[1]:
        end = at + 1 + len(body)
        if not has(reading[1], body):
            tokens, bodies, records = tokens + 1, bodies + body_bytes([body]), records + second[at:end]
            if tokens > 256 or bodies > 16384:
                return ("refused", 5, at)
        at = end
    book = records + b"\0"
    return ("accepted", book) if len(book) <= room else ("refused", 14, len(book))


def agrees(word, s, ending):
    """Whether a word, moved s to the right, agrees with every byte of an ending that it lies over."""
    over = max(0, min(len(word) - s, len(ending)))
    return word[len(word) - s - over : len(word) - s] == ending[len(ending) - over :]


def node_shift(words, ending):
    """Rule 5's node shift of an ending, by trying each shift with each word."""
    shortest = min(map(len, words))
    return next((s for s in range(1, shortest) if any(agrees(word, s, ending) for word in words)), shortest)


def parted(moved, d):
    """Of words with their shifts, which agree with an ending of d bytes: the shifts of those that lie over no byte left of it, and the
    others by the byte that they have there."""
    at_end, going_on = [], {}
    for one in moved:
        s, word = one
        left = len(word) - s - d
        if left:
            going_on.setdefault(word[left - 1], []).append(one)
        else:
            at_end.append(s)
    return at_end, going_on


def node_shifts(words, parent, label):
    """The node shifts of all nodes of a tree with these words, from each node to its children: a word that agrees with a node's ending also
    agrees with its parent's, and left of that it has the node's label or lies over nothing."""
    shortest = min(map(len, words))
    shifts, depths, least_at_end, going_on = [], [], [], []
    for v, (up, byte) in enumerate(zip(parent, label)):
        if v == 0:
            depth, least, moved = 0, shortest, [(s, word) for s in range(1, shortest) for word in words]
        else:
            depth, least, moved = depths[up] + 1, least_at_end[up], going_on[up].get(byte, [])
        at_end, others = parted(moved, depth)
        shifts.append(min([least, *(s for s, _ in moved)]))
        depths.append(depth)
        least_at_end.append(min([least, *at_end]))
        going_on.append(others)
    return shifts


def build(bodies):
    """The six tables, as lists: nodes are endings of words in order of first occurrence."""
    nodes = {b"": 0}
    for _, word in spelled(bodies):
        for k in range(1, len(word) + 1):
            nodes.setdefault(word[len(word) - k :], len(nodes))
    parent, label, tok, first, following = ([0] * len(nodes) for _ in range(5))
    last = {}
    for ending, v in nodes.items():
        if v == 0:
            continue
        parent[v], label[v] = nodes[ending[1:]], ending[0]
        up = parent[v]
        if up in last:
            following[last[up]] = v
        else:
            first[up] = v
        last[up] = v
    for number, word in spelled(bodies):
        tok[nodes[word]] = number
    return [parent, label, tok, first, following, node_shifts([word for _, word in spelled(bodies)], parent, label)]


def walk(label, following, count, at, byte):
    """The first node of a chain with that label, or None, and the last node before; what a table lacks is 0."""
    last = 0
    while count and at:
        if (label[at] if at < len(label) else 0) == byte:
            return at, last
        last, at, count = at, following[at] if at < len(following) else 0, count - 1
    return None, last


def first_break(tables, count):
    """The first node that breaks the tables, the shortest one's length, or None."""
    shortest = min(map(len, tables))
    if shortest < count:
        return shortest
    parent, label, tok, first, following, shift = tables
    depth = [0] * count
    for v in range(count):
        if not 1 <= shift[v] <= LONGEST:
            return v
        if v == 0:
            if parent[0] or label[0] or tok[0] or following[0]:
                return 0
        else:
            if parent[v] >= v or tok[v] > 256:
                return v
            depth[v] = depth[parent[v]] + 1
            if depth[v] > LONGEST:
                return v
        for link, p in ((first[v], v), (following[v], parent[v])):
            if link and not (v < link < count and parent[link] == p):
                return v
    return None
