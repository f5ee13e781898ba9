"""Reading a document of TOML with the places of its keys and values: its lines, arrays and inline tables, and the rules by which keys and headers make
tables. It is installed too, so it knows nothing of this repository."""
from shared.mistakes import reading, toml_values
from shared.mistakes.nodes import LIST, TABLE, Node, Unread
from shared.mistakes.reading import MARK, shown
from shared.mistakes.toml_values import BLANK, GAP, MOST_DEEP

# What made a table: a header that passed through it, a dotted key, its own header, or braces. An array of tables is made by headers too.
IMPLICIT, DOTTED, HEADER, BRACES, TABLES = "implicit", "dotted", "header", "braces", "tables"


class Reader(reading.Reader):
    """A text of TOML that is read."""

    gaps, quotes, most_deep, nested = GAP, (b'"', b"'"), MOST_DEEP, "arrays and tables"

    def quoted(self, at):
        """The text that is quoted at a byte, and where it ends."""
        return toml_values.quoted(self.text, at)

    def bare(self, at):
        """A value without quotes or brackets, and where it ends."""
        return toml_values.bare_value(self.text, at)

    def parted(self, place, closing, what, begun):
        """Where the next item or the closing bracket is. A comma may stand behind the last item."""
        if self.sign(place) != b",":
            raise Unread(place, f"in {what}: a comma or `{closing.decode()}` has to stand here")
        return self.gap(place + 1)

    def braces(self, at, depth):
        """The table in braces at a byte, and where it ends."""
        table, place = Node(TABLE, {}, at, DOTTED), self.gap(at + 1)
        while self.sign(place) != b"}":
            self.goes_on(place, b"}", "a table in braces", at)
            parts, value, end = self.pair(place, depth)
            self.dotted(table, parts, value)
            place = self.behind(end, b"}", "a table in braces", at)
        close(table)
        return table, place + 1

    def pair(self, at, depth):
        """A key and its value, and where that ends."""
        parts, end = toml_values.key(self.text, at)
        if self.sign(end) != b"=":
            raise Unread(end, f"`=` has to stand behind the key `{shown(parts[-1][0].encode())}`")
        value, end = self.value(BLANK.match(self.text, end + 1).end(), depth)
        return parts, value, end

    def twice(self, part, first, at):
        """Why a key can't stand at a byte: it stands before."""
        raise Unread(at, f"the key `{shown(part.encode())}` stands here for the second time; the first is on line {self.line(first)}")

    def dotted(self, table, parts, value):
        """Puts a value at the parts of a key into a table."""
        for part, at in parts[:-1]:
            found = table.value.setdefault(part, (at, Node(TABLE, {}, at, DOTTED)))
            table = found[1]
            if table.origin not in (IMPLICIT, DOTTED):
                self.twice(part, found[0], at)
            table.origin = DOTTED
        part, at = parts[-1]
        if part in table.value:
            self.twice(part, table.value[part][0], at)
        table.value[part] = (at, value)

    def header(self, root, parts, at, is_array):
        """The table that a header at a byte begins."""
        table = self.along(root, parts[:-1])
        part, place = parts[-1]
        if part not in table.value:
            made = Node(TABLE, {}, at, HEADER)
            table.value[part] = (place, Node(LIST, [made], at, TABLES) if is_array else made)
            return made
        first, found = table.value[part]
        if is_array and found.origin == TABLES:
            found.value.append(Node(TABLE, {}, at, HEADER))
            return found.value[-1]
        if is_array or found.origin != IMPLICIT:
            self.twice(part, first, place)
        found.origin, found.at = HEADER, at
        return found

    def along(self, root, parts):
        """The table that the parts of a header lead to."""
        table = root
        for part, at in parts:
            found = table.value.setdefault(part, (at, Node(TABLE, {}, at, IMPLICIT)))
            table = found[1].value[-1] if found[1].origin == TABLES else found[1]
            if table.origin not in (IMPLICIT, DOTTED, HEADER):
                self.twice(part, found[0], at)
        return table

    def heading(self, at):
        """The parts of the header at a byte, whether it is of an array of tables, and where it ends."""
        is_array = self.text[at : at + 2] == b"[["
        parts, end = toml_values.key(self.text, BLANK.match(self.text, at + (2 if is_array else 1)).end())
        closing = b"]]" if is_array else b"]"
        if self.text[end : end + len(closing)] != closing:
            raise Unread(end, f"`{closing.decode()}` has to stand at the end of the head of a table")
        return parts, is_array, end + len(closing)

    def ended(self, at):
        """Sees that nothing stands between a byte and the end of its line."""
        end = BLANK.match(self.text, at).end()
        if self.sign(end) not in (b"", b"#", b"\n", b"\r"):
            raise Unread(end, "the line has to end here, or a remark has to begin")
        return end

    def document(self):
        """The whole text."""
        place = self.gap(len(MARK) if self.text.startswith(MARK) else 0)
        root = table = Node(TABLE, {}, place, HEADER)
        while place < len(self.text):
            if self.sign(place) == b"[":
                parts, is_array, end = self.heading(place)
                table = self.header(root, parts, place, is_array)
            else:
                parts, value, end = self.pair(place, MOST_DEEP)
                self.dotted(table, parts, value)
            place = self.gap(self.ended(end))
        return root


def close(table):
    """Closes a table in braces, and those that dotted keys made in it: no key goes into them from elsewhere."""
    left = [table]
    while left:
        node = left.pop()
        if node.kind == TABLE and node.origin == DOTTED:
            node.origin = BRACES
            left += [inner for _, inner in node.value.values()]


def read(text):
    """The table that a document is; `Unread` where it is no TOML."""
    return Reader(reading.decodable(text)).document()
