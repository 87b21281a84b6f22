"""Reads a query's text, or tells its first fault, as a part of the plain program (plain_plans.py).

The text is cut into tokens up to where none begins, and these are read by the grammar up to where it doesn't go on. The
fault is the one with the least place; at one place a byte that isn't ASCII comes first, then a token, the grammar, and
an element too many.
"""

import collections
import re

LONGEST_QUERY = 65536
MOST_INTEGER = 2**63 - 1
RESERVED = """SELECT FROM WHERE AND GROUP BY ORDER ASC DESC AS DISTINCT HAVING LIMIT JOIN ON OR NOT UNION IN IS LIKE
BETWEEN NULL INNER LEFT RIGHT FULL CROSS""".split()
FUNCTIONS = ["COUNT", "SUM", "MIN", "MAX"]
COMPARISONS = ["=", "<>", "!=", "<", "<=", ">", ">="]
LIMITS = {"items": 60, "tables": 10, "predicates": 40, "group columns": 8, "order keys": 8}

SPACE = re.compile(rb"(?:[ \t\n\r]|--[\t\r -~]*)*")
NAME = re.compile(rb"[A-Za-z_][A-Za-z0-9_]*")
INTEGER = re.compile(rb"-?[0-9]+(?![A-Za-z0-9_])")
STRING = re.compile(rb"'(?:[^']|'')*'(?!')")
SIGN = re.compile(rb"<=|>=|<>|!=|[,.;()*=<>]")
NOT_ASCII, CONTROL = re.compile(rb"[\x80-\xff]"), re.compile(rb"[\x00-\x08\x0b\x0c\x0e-\x1f\x7f]")

# a token: its kind ("name", "word", "function", "integer", "string" or "sign"), its value, and its place
Token = collections.namedtuple("Token", "kind value at")

# a column as it is written: its place, its alias or None, and its name
Column = collections.namedtuple("Column", "at alias name")
Aggregate = collections.namedtuple("Aggregate", "function column")
# what is put out, a Column or an Aggregate; its output name or None, and where that stands
Item = collections.namedtuple("Item", "what name name_at")
# a table's name and its place; its alias or None, and where that stands
From = collections.namedtuple("From", "name at alias alias_at")
# a comparison; right is a Column, a number or a text
Predicate = collections.namedtuple("Predicate", "left op right")
Key = collections.namedtuple("Key", "column descends")
Select = collections.namedtuple("Select", "items tables predicates group_by order_by")


class SqlFault(Exception):
    """A query that can't be read; the message is the cause that the program tells."""


class Stop(Exception):
    """A token at which the grammar doesn't go on, or an element too many: its rank, its cause and its place."""

    def __init__(self, rank, cause, at):
        super().__init__(cause)
        self.rank, self.cause, self.at = rank, cause, at


def read_sql(text):
    """The query of the text, which is bytes."""
    if len(text) > LONGEST_QUERY:
        raise SqlFault("too long")
    tokens, end = tokens_of(text)
    faults = []
    for rank, cause, byte in [(0, "not ASCII", NOT_ASCII), (1, "token", CONTROL)]:
        found = byte.search(text)
        if found:
            faults.append((found.start(), rank, cause))
    if end < len(text):
        faults.append((end, 1, "token"))
    select = None
    try:
        select = Reader(tokens, end).query()
    except Stop as stop:
        # (where the tokens end before the text does, no more is known than that none begins there)
        if stop.at < end or end == len(text):
            faults.append((stop.at, stop.rank, stop.cause))
    if faults:
        at, _, cause = min(faults)
        raise SqlFault(f"{cause} at {at}")
    return select


# ---- tokens


def tokens_of(text):
    """The tokens of a text up to where none begins, and that place."""
    tokens, at = [], SPACE.match(text).end()
    while at < len(text):
        token, behind = token_at(text, at)
        if token is None:
            break
        tokens.append(token)
        at = SPACE.match(text, behind).end()
    for number, token in enumerate(tokens[:-1]):
        behind = tokens[number + 1]
        if token.kind == "name" and token.value.upper() in FUNCTIONS and behind[:2] == ("sign", "("):
            tokens[number] = token._replace(kind="function", value=token.value.upper())
    return tokens, at


def token_at(text, at):
    """The token that begins at the place, and the place behind it; None where none does."""
    for kind, form in [("name", NAME), ("integer", INTEGER), ("string", STRING), ("sign", SIGN)]:
        found = form.match(text, at)
        if not found:
            continue
        value = found[0].decode("latin-1")
        if kind == "name" and value.upper() in RESERVED:
            kind, value = "word", value.upper()
        elif kind == "integer":
            value = int(value) if len(value.lstrip("-0")) < 20 else MOST_INTEGER + 1
            if abs(value) > MOST_INTEGER:
                return None, at
        elif kind == "string":
            value = value[1:-1].replace("''", "'")
        return Token(kind, value, at), found.end()
    return None, at


# ---- the grammar


class Reader:
    """Reads tokens from the front, by a function for each part of the grammar."""

    def __init__(self, tokens, end):
        self.tokens = tokens + [Token("end", None, end)]

    def next(self):
        return self.tokens[0]

    def is_next(self, *wanted):
        """Whether the next token is of this kind, or of this kind and value."""
        return self.next()[: len(wanted)] == wanted

    def take(self, *wanted):
        if not self.is_next(*wanted):
            raise Stop(2, "grammar", self.next().at)
        return self.tokens.pop(0)

    def take_if(self, *wanted):
        return self.tokens.pop(0) if self.is_next(*wanted) else None

    def elements(self, what, element, begins, *separator):
        """One or more elements, at most as many as the limit; begins says whether a token begins one."""
        found = [element()]
        while self.take_if(*separator):
            if len(found) == LIMITS[what] and begins(self.next()):
                raise Stop(3, f"too many {what}", self.next().at)
            found.append(element())
        return found

    def query(self):
        is_name = lambda token: token.kind == "name"
        self.take("word", "SELECT")
        items = self.elements("items", self.item, lambda token: token.kind in ("name", "function"), "sign", ",")
        self.take("word", "FROM")
        tables = self.elements("tables", self.table, is_name, "sign", ",")
        predicates, group_by, order_by = [], [], []
        if self.take_if("word", "WHERE"):
            predicates = self.elements("predicates", self.predicate, is_name, "word", "AND")
        if self.take_if("word", "GROUP"):
            self.take("word", "BY")
            group_by = self.elements("group columns", self.column, is_name, "sign", ",")
        if self.take_if("word", "ORDER"):
            self.take("word", "BY")
            order_by = self.elements("order keys", self.key, is_name, "sign", ",")
        self.take_if("sign", ";")
        self.take("end")
        return Select(items, tables, predicates, group_by, order_by)

    def item(self):
        what = self.aggregate() if self.is_next("function") else self.column()
        named = self.take("name") if self.take_if("word", "AS") else None
        return Item(what, named and named.value, named and named.at)

    def aggregate(self):
        function = self.take("function").value
        self.take("sign", "(")
        column = None if function == "COUNT" and self.take_if("sign", "*") else self.column()
        self.take("sign", ")")
        return Aggregate(function, column)

    def column(self):
        first = self.take("name")
        if self.take_if("sign", "."):
            return Column(first.at, first.value, self.take("name").value)
        return Column(first.at, None, first.value)

    def table(self):
        name = self.take("name")
        alias = self.take("name") if self.take_if("word", "AS") else self.take_if("name")
        return From(name.value, name.at, alias and alias.value, alias and alias.at)

    def predicate(self):
        left, op = self.column(), self.take("sign")
        if op.value not in COMPARISONS:
            raise Stop(2, "grammar", op.at)
        literal = self.take_if("integer") or self.take_if("string")
        right = literal.value if literal else self.column()
        return Predicate(left, "<>" if op.value == "!=" else op.value, right)

    def key(self):
        column = self.column()
        if self.take_if("word", "DESC"):
            return Key(column, True)
        self.take_if("word", "ASC")
        return Key(column, False)
