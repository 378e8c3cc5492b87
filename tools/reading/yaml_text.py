"""Reads the part of YAML that models are written in: `read` gives a tree of nodes, each with its place, or the first refusal.

A scalar knows of each byte of its text where in the file it came from, through quotes and folded lines."""

from .places import Refused

BLANKS = b" \t"
NOT_FIRST = b",[]{}#&*!|>'\"%@`"
DEEPEST = 64
FEATURES = {
    "&": "anchors are left out", "*": "aliases are left out", "!": "tags are left out", "?": "keys behind `?` are left out",
    "%": "directives are left out", "---": "a file has one document", "pair": "a pair in a list needs braces round it",
    "escape": r"the escapes are \" \\ \/ \n and \t",
}


class Node:
    """A scalar with its bytes, a list with its items, or a map with its pairs. Lines and columns count from 1."""

    __slots__ = ("column", "items", "kind", "line", "long", "pairs", "quoted", "raw", "sources")

    def __init__(self, kind, line, column):
        self.kind, self.line, self.column = kind, line, column
        self.items, self.pairs, self.raw, self.sources = [], [], b"", []
        self.long = False  # a scalar over several lines
        self.quoted = False

    @property
    def text(self):
        return self.raw.decode("utf-8")

    def is_empty(self):
        return self.kind == "scalar" and not self.raw

    def shape(self):
        """What is compared where keys are to differ."""
        if self.kind == "scalar":
            return self.raw
        if self.kind == "list":
            return ("list", tuple(item.shape() for item in self.items))
        return ("map", tuple((key.shape(), value.shape()) for key, value in self.pairs))

    def source(self, offset):
        """The line and column where the byte of the text with this offset stands in the file."""
        if offset < len(self.sources):
            return self.sources[offset]
        if self.sources:
            line, column = self.sources[-1]
            return line, column + 1
        return self.line, self.column


def first_bad_byte(data):
    try:
        data.decode("utf-8")
    except UnicodeDecodeError as error:
        return error.start
    return len(data)


class Reader:
    """A cursor over the lines of a file: `self.row` is the next line to be looked at."""

    def __init__(self, data):
        if data.startswith(b"\xef\xbb\xbf"):
            data = data[3:]
        self.scan(data)
        self.row = 0

    def scan(self, data):
        rows = data.split(b"\n")
        if rows[-1] == b"":
            rows.pop()
            ended = len(rows)
        else:
            ended = len(rows) - 1
        # a carriage return belongs to a line's end only before a line feed
        self.raws = [raw[:-1] if i < ended and raw.endswith(b"\r") else raw for i, raw in enumerate(rows)]
        self.rows = [raw.rstrip(BLANKS) for raw in self.raws]
        self.indents = [len(row) - len(row.lstrip(b" ")) for row in self.rows]
        bad, start = first_bad_byte(data), 0
        for i, raw in enumerate(rows):
            if start > bad:
                break
            row = self.rows[i]
            text = row.lstrip(BLANKS)
            tab = row[: len(row) - len(text)].find(b"\t") if text and not text.startswith(b"#") else -1
            if tab >= 0 and start + tab < bad:
                raise Refused(11, i + 1, tab + 1)
            if start <= bad <= start + len(raw) and bad < len(data):
                raise Refused(10, i + 1, bad - start + 1)
            start += len(raw) + 1

    # ---- lines and characters

    def at(self, i, c):
        row = self.rows[i]
        return row[c : c + 1]

    def refuse(self, number, i, c, why=None):
        raise Refused(number, i + 1, c + 1, None, why)

    def node(self, kind, i, c):
        return Node(kind, i + 1, c + 1)

    def has_content(self, i):
        text = self.rows[i].lstrip(BLANKS)
        return bool(text) and not text.startswith(b"#")

    def test_marker(self, i):
        row = self.rows[i]
        if row.startswith(b"%"):
            self.refuse(17, i, 0, FEATURES["%"])
        if row in (b"---", b"..."):
            self.refuse(17, i, 0, FEATURES["---"])

    def next_line(self, i):
        """The next line with content from this one on; one that marks a document is refused."""
        while i < len(self.rows) and not self.has_content(i):
            i += 1
        if i < len(self.rows):
            self.test_marker(i)
        return i

    def skip_blanks(self, i, c):
        row = self.rows[i]
        while c < len(row) and row[c] in BLANKS:
            c += 1
        return c

    def is_comment(self, i, c):
        return self.at(i, c) == b"#" and (c == 0 or self.rows[i][c - 1] in BLANKS)

    def is_item(self, i, c):
        row = self.rows[i]
        return row[c : c + 1] == b"-" and (c + 1 == len(row) or row[c + 1] in BLANKS)

    def is_colon(self, i, c):
        """A `:` behind a key of block style."""
        row = self.rows[i]
        return row[c : c + 1] == b":" and (c + 1 == len(row) or row[c + 1] in BLANKS)

    def end_line(self, i, c):
        c = self.skip_blanks(i, c)
        if c < len(self.rows[i]) and not self.is_comment(i, c):
            self.refuse(14, i, c)
        self.row = i + 1

    # ---- what begins

    def begins_plain(self, i, c, flow):
        row = self.rows[i]
        first = row[c]
        if first in b"-?:":
            if c + 1 >= len(row) or row[c + 1] in BLANKS:
                return False
            return not (first == ord(":") and flow and row[c + 1] in b",[]{}")
        return first not in NOT_FIRST

    def opening(self, i, c, depth, flow, key):
        """What begins here: 'plain', 'quoted', '[', '{' or 'block'; else a refusal."""
        first = self.at(i, c)
        if first in (b"'", b'"') and self.quote_end(i, c) is None:
            self.refuse(13, i, c)
        kind, feature = None, None
        if first in (b"'", b'"'):
            kind = "quoted"
        elif first == b"[" or (first == b"{" and not key):
            kind = first.decode()
        elif first in (b"&", b"*", b"!"):
            feature = FEATURES[first.decode()]
        elif first == b"?" and self.raws[i][c + 1 : c + 2] in (b" ", b"\t"):
            feature = FEATURES["?"]
        elif first in (b"|", b">"):
            kind, feature = "block", "block scalars stand only as values and items of block style, and have no numbers in their first line"
        elif first and self.begins_plain(i, c, flow):
            kind = "plain"
        if kind is None and feature is None:
            self.refuse(14, i, c)
        self.test_depth(i, c, depth)
        if kind == "block" and (flow or key or depth == 1):
            self.refuse(17, i, c, feature)
        if kind is None:
            self.refuse(17, i, c, feature)
        return kind

    def test_depth(self, i, c, depth):
        if depth > DEEPEST:
            self.refuse(16, i, c)

    # ---- scalars

    def quote_end(self, i, c):
        row, quote = self.raws[i], self.rows[i][c]
        k = c + 1
        while k < len(row):
            if quote == ord('"') and row[k] == ord("\\"):
                k += 2
                continue
            if row[k] == quote:
                if quote == ord("'") and row[k + 1 : k + 2] == b"'":
                    k += 2
                    continue
                return k
            k += 1
        return None

    def quoted(self, i, c):
        row, end = self.raws[i], self.quote_end(i, c)
        node = self.node("scalar", i, c)
        node.quoted = True
        text, k = bytearray(), c + 1
        double = row[c] == ord('"')
        while k < end:
            byte, step = row[k : k + 1], 1
            if double and byte == b"\\":
                known = {b'"': b'"', b"\\": b"\\", b"/": b"/", b"n": b"\n", b"t": b"\t"}
                byte, step = known.get(row[k + 1 : k + 2]), 2
                if byte is None:
                    self.refuse(17, i, k, FEATURES["escape"])
            elif not double and byte == b"'":
                step = 2
            text += byte
            node.sources.append((i + 1, k + 1))
            k += step
        node.raw = bytes(text)
        return node, end + 1

    def plain_end(self, i, c, flow):
        """The end of a plain scalar's piece on this line."""
        row, k = self.rows[i], c
        while k < len(row):
            byte = row[k]
            if byte == ord("#") and k > c and row[k - 1] in BLANKS:
                break
            if byte == ord(":") and (k + 1 == len(row) or row[k + 1] in BLANKS or (flow and row[k + 1] in b",[]{}")):
                break
            if flow and byte in b",[]{}":
                break
            k += 1
        while k > c and row[k - 1] in BLANKS:
            k -= 1
        return k

    def add_piece(self, node, i, c, end):
        node.raw += self.piece(node, i, c, end)

    def piece(self, node, i, c, end):
        """The bytes of a piece on one line, with their places."""
        node.sources += [(i + 1, k + 1) for k in range(c, end)]
        return self.rows[i][c:end]

    def plain(self, i, c, flow, parent):
        """A plain scalar with the lines that it goes on over; where it ends."""
        node, pieces = self.node("scalar", i, c), []
        end = self.plain_end(i, c, flow)
        pieces.append(self.piece(node, i, c, end))
        while end == len(self.rows[i]):
            j, breaks = i + 1, 0
            while j < len(self.rows) and not self.rows[j].strip(BLANKS):
                j, breaks = j + 1, breaks + 1
            if j == len(self.rows) or (not flow and self.indents[j] <= parent) or not self.has_content(j):
                break
            self.test_marker(j)
            start = self.skip_blanks(j, 0)
            stop = self.plain_end(j, start, flow)
            if stop == start:
                if not flow:
                    self.refuse(14, j, start)
                break
            gap = b"\n" * breaks if breaks else b" "
            node.sources += [(i + 1, end + 1)] * len(gap)
            node.long = True
            pieces += [gap, self.piece(node, j, start, stop)]
            i, end = j, stop
        node.raw = b"".join(pieces)
        return node, i, end

    def block_scalar(self, i, c, parent):
        row = self.raws[i]
        node = self.node("scalar", i, c)
        k, sign = c + 1, b""
        if row[k : k + 1] in (b"-", b"+"):
            sign, k = row[k : k + 1], k + 1
        rest = row[k:].rstrip(BLANKS)
        if rest and not (rest[0] in BLANKS and rest.lstrip(BLANKS).startswith(b"#")):
            self.refuse(17, i, c, "the first line of a block scalar has at most one sign, and no number")
        first = i + 1
        while first < len(self.rows) and not self.rows[first].strip(BLANKS):
            first += 1
        inner = self.indents[first] if first < len(self.rows) else 0
        stop = i + 1
        lines = []
        while stop < len(self.rows):
            if self.rows[stop].strip(BLANKS):
                if self.indents[stop] <= parent:
                    break
                if self.indents[stop] < inner:
                    self.refuse(14, stop, self.indents[stop], "this line stands less deep than the first line of the block scalar")
                lines.append((stop, self.rows[stop][inner:]))
            else:
                lines.append((stop, b""))
            stop += 1
        self.row = stop
        self.fold(node, lines, row[c : c + 1] == b">", sign, inner)
        return node

    def fold(self, node, lines, folded, sign, inner):
        last = max([k for k, (_, text) in enumerate(lines) if text], default=-1)
        text, sources = bytearray(), []

        def put(piece, i, c):
            text.extend(piece)
            sources.extend([(i + 1, c + 1 + k) for k in range(len(piece))])

        k = 0
        while k <= last:
            i, line = lines[k]
            put(line, i, inner)
            following = k + 1
            while following <= last and not lines[following][1]:
                following += 1
            blank = following - k - 1
            if following <= last:
                deeper = not line or line.startswith(b" ") or lines[following][1].startswith(b" ")
                gap = b"\n" * (blank + 1) if not folded or deeper else (b"\n" * blank if blank else b" ")
                for one in gap:
                    text.append(one)
                    sources.append((i + 1, inner + len(line) + 1))
            k = following
        if sign == b"+":
            ends = len(lines) - last - 1 + (1 if last >= 0 else 0)
        else:
            ends = 1 if sign == b"" and last >= 0 else 0
        for _ in range(ends):
            text.append(10)
            sources.append((lines[max(last, 0)][0] + 1, inner + len(lines[max(last, 0)][1]) + 1))
        node.raw, node.sources, node.long = bytes(text), sources, True

    # ---- flow style

    def flow_point(self, i, c):
        """The next point inside a flow form."""
        while i < len(self.rows):
            c = self.skip_blanks(i, c)
            if c < len(self.rows[i]) and not self.is_comment(i, c):
                return i, c
            i, c = i + 1, 0
            if i < len(self.rows) and self.has_content(i):
                self.test_marker(i)
        last = max(k for k, row in enumerate(self.rows) if row.strip(BLANKS))
        self.refuse(14, last, len(self.rows[last]), "a bracket or brace is not closed")

    def flow_node(self, i, c, depth, key=False):
        kind = self.opening(i, c, depth, True, key)
        if kind == "plain":
            return self.plain(i, c, True, None)
        if kind == "quoted":
            node, end = self.quoted(i, c)
            return node, i, end
        return self.flow_list(i, c, depth) if kind == "[" else self.flow_map(i, c, depth)

    def flow_list(self, i, c, depth):
        node = self.node("list", i, c)
        i, c = self.flow_point(i, c + 1)
        while self.at(i, c) != b"]":
            item, i, c = self.flow_node(i, c, depth + 1)
            node.items.append(item)
            i, c = self.flow_point(i, c)
            if self.at(i, c) == b",":
                i, c = self.flow_point(i, c + 1)
            elif self.at(i, c) == b":" and item.kind != "map" and not (item.kind == "scalar" and item.long):
                raise Refused(17, item.line, item.column, None, FEATURES["pair"])
            elif self.at(i, c) != b"]":
                self.refuse(14, i, c)
        return node, i, c + 1

    def flow_map(self, i, c, depth):
        node, seen = self.node("map", i, c), set()
        i, c = self.flow_point(i, c + 1)
        while self.at(i, c) != b"}":
            start = (i, c)
            key, i, c = self.flow_node(i, c, depth + 1, key=True)
            self.test_twice(key, seen, start)
            after = (i, c)
            i, c = self.flow_point(i, c)
            if self.at(i, c) == b":" and not (key.kind == "scalar" and key.long):
                colon = (i, c)
                i, c = self.flow_point(i, c + 1)
                if self.at(i, c) in (b",", b"}"):
                    value = self.node("scalar", colon[0], colon[1] + 1)
                    self.test_depth(colon[0], colon[1] + 1, depth + 1)
                else:
                    value, i, c = self.flow_node(i, c, depth + 1)
                    i, c = self.flow_point(i, c)
            else:
                value = self.node("scalar", *after)
                self.test_depth(*after, depth + 1)
            node.pairs.append((key, value))
            if self.at(i, c) == b",":
                i, c = self.flow_point(i, c + 1)
            elif self.at(i, c) != b"}":
                self.refuse(14, i, c)
        return node, i, c + 1

    def test_twice(self, key, seen, place):
        shape = key.shape()
        if shape in seen:
            self.refuse(15, *place)
        seen.add(shape)

    # ---- block style

    def empty(self, i, c, depth):
        self.test_depth(i, c, depth)
        return self.node("scalar", i, c)

    def block_value(self, i, c, parent, depth, inline=False):
        """A node that begins here. Inline only a scalar or a flow form may."""
        if not inline and self.is_item(i, c):
            return self.block_list(i, c, depth)
        kind = self.opening(i, c, depth, False, False)
        if kind == "block":
            return self.block_scalar(i, c, parent)
        if kind == "plain":
            colon = self.skip_blanks(i, self.plain_end(i, c, False))
            if not inline and self.is_colon(i, colon):
                key = self.node("scalar", i, c)
                self.add_piece(key, i, c, self.plain_end(i, c, False))
                return self.block_map(key, i, c, colon, depth)
            node, i, c = self.plain(i, c, False, parent)
        elif kind == "quoted":
            start = c
            node, c = self.quoted(i, c)
            colon = self.skip_blanks(i, c)
            if not inline and self.is_colon(i, colon):
                return self.block_map(node, i, start, colon, depth)
        else:
            start = (i, c)
            node, i, c = self.flow_list(i, c, depth) if kind == "[" else self.flow_map(i, c, depth)
            colon = self.skip_blanks(i, c)
            if not inline and kind == "[" and i == start[0] and self.is_colon(i, colon):
                return self.block_map(node, *start, colon, depth)
        self.end_line(i, c)
        return node

    def block_list(self, i, c, depth):
        node = self.node("list", i, c)
        self.test_depth(i, c, depth)
        while True:
            inner = self.skip_blanks(i, c + 1)
            if inner < len(self.rows[i]) and not self.is_comment(i, inner):
                node.items.append(self.block_value(i, inner, c, depth + 1))
            else:
                j = self.next_line(i + 1)
                if j < len(self.rows) and self.indents[j] > c:
                    node.items.append(self.block_value(j, self.indents[j], c, depth + 1))
                else:
                    self.row = i + 1
                    node.items.append(self.empty(i, c + 1, depth + 1))
            i = self.next_line(self.row)
            if i == len(self.rows) or self.indents[i] < c:
                return node
            if self.indents[i] > c:
                self.refuse(14, i, self.indents[i])
            if not self.is_item(i, c):
                self.row = i
                return node

    def first_deep(self, node, depth):
        """The first node of a key that is too deep."""
        if depth > DEEPEST:
            return node
        parts = node.items if node.kind == "list" else [part for pair in node.pairs for part in pair]
        return next((deep for deep in (self.first_deep(part, depth + 1) for part in parts) if deep), None)

    def block_map(self, key, i, c, colon, depth):
        node, seen = Node("map", key.line, key.column), {key.shape()}
        deep = self.first_deep(key, depth + 1)
        if deep:
            raise Refused(16, deep.line, deep.column)
        while True:
            node.pairs.append((key, self.block_entry(i, c, colon, depth)))
            i = self.next_line(self.row)
            if i == len(self.rows) or self.indents[i] < c:
                return node
            if self.indents[i] > c:
                self.refuse(14, i, self.indents[i])
            key, i, colon = self.block_key(i, c, depth + 1, seen)

    def block_key(self, i, c, depth, seen):
        kind = self.opening(i, c, depth, False, True)
        start = i
        if kind == "plain":
            key = self.node("scalar", i, c)
            end = self.plain_end(i, c, False)
            self.add_piece(key, i, c, end)
        elif kind == "quoted":
            key, end = self.quoted(i, c)
        else:
            key, i, end = self.flow_list(i, c, depth)
        self.test_twice(key, seen, (start, c))
        colon = self.skip_blanks(i, end)
        if i != start or not self.is_colon(i, colon):
            self.refuse(14, i, colon, "a `:` and a blank must stand behind the key")
        return key, i, colon

    def block_entry(self, i, c, colon, depth):
        inner = self.skip_blanks(i, colon + 1)
        if inner < len(self.rows[i]) and not self.is_comment(i, inner):
            return self.block_value(i, inner, c, depth + 1, inline=True)
        j = self.next_line(i + 1)
        if j < len(self.rows) and self.indents[j] > c:
            return self.block_value(j, self.indents[j], c, depth + 1)
        if j < len(self.rows) and self.indents[j] == c and self.is_item(j, c):
            return self.block_list(j, c, depth + 1)
        self.row = i + 1
        return self.empty(i, colon + 1, depth + 1)

    def document(self):
        i = 0
        while i < len(self.rows) and not self.has_content(i):
            i += 1
        if i < len(self.rows) and self.rows[i] == b"---":
            i += 1
        i = self.next_line(i)
        if i == len(self.rows):
            return Node("scalar", 1, 1)
        node = self.block_value(i, self.indents[i], -1, 1)
        i = self.next_line(self.row)
        if i < len(self.rows):
            self.refuse(14, i, self.indents[i])
        return node


def read(data):
    """The tree of a file's bytes, or its first refusal."""
    return Reader(data).document()
