"""Binds a query that was read to a catalogue, or tells its first fault, as a part of the plain program."""

from plain_plans import ONE, Query
from plain_sql import Aggregate, Column

MOST_ITEMS = MOST_LISTS = MOST_ORDERS = 60


class BindFault(Exception):
    """A query that doesn't go with its catalogue; the message is the cause that the program tells."""


def bind(select, catalog, root=ONE, off=()):
    """The query that a select means over a catalogue (plain_catalog.Catalog)."""
    tables = tables_of(select, catalog)
    output, names = [], set()
    for item in select.items:
        what = Binding(tables).what(item.what)
        if item.name is not None and item.name in names:
            raise BindFault(f"name twice at {item.name_at}")
        output.append((what, item.name))
        names.add(item.name)
    column = Binding(tables).column
    preds = [
        (column(left), op, column(right) if isinstance(right, Column) else right)
        for left, op, right in select.predicates
    ]
    group_by = list(map(column, select.group_by))
    order = [(key_of(key, names, column), descends) for key, descends in select.order_by]
    if group_by or any(isinstance(item.what, Aggregate) for item in select.items):
        check_grouped(select, output, order, group_by)
    query = Query(catalog.segments, tables, preds, output, order, group_by, root, off, catalog.version)
    count = len(query.items) + len(query.aggs)
    if count > MOST_ITEMS:
        raise BindFault(f"too many columns: {count}")
    return query


def check_numbered(query):
    """That the query has no more hashed lists and orders than there are numbers."""
    if len(query.lists) > MOST_LISTS:
        raise BindFault(f"too many hashed lists: {len(query.lists)}")
    orders = len(query.orders) - 1
    if orders > MOST_ORDERS:
        raise BindFault(f"too many orders: {orders}")


def tables_of(select, catalog):
    """The tables of FROM, each under its alias."""
    tables = []
    for entry in select.tables:
        if entry.name not in catalog.tables:
            raise BindFault(f"unknown table at {entry.at}")
        table = catalog.tables[entry.name]
        alias, at = (entry.name, entry.at) if entry.alias is None else (entry.alias, entry.alias_at)
        if alias in [other["name"] for other in tables]:
            raise BindFault(f"name twice at {at}")
        tables.append(table if alias == entry.name else {**table, "name": alias, "of": entry.name})
    return tables


class Binding:
    """Looks columns up in the tables of a query."""

    def __init__(self, tables):
        self.tables = tables

    def column(self, written):
        """The column's table and name."""
        found = [
            t
            for t, table in enumerate(self.tables)
            if written.alias in (None, table["name"]) and written.name in dict(table["columns"])
        ]
        if len(found) != 1:
            raise BindFault(f"{'ambiguous' if found else 'unknown'} column at {written.at}")
        return found[0], written.name

    def what(self, written):
        """A column, or a function with its column or None."""
        if isinstance(written, Aggregate):
            return written.function, None if written.column is None else self.column(written.column)
        return self.column(written)


def key_of(key, names, column):
    """A key of ORDER BY: an output name, or else a column."""
    return key.name if key.alias is None and key.name in names else column(key)


def check_grouped(select, output, order, group_by):
    """That each plain column that is put out, and each column of ORDER BY, is one of GROUP BY."""
    written = [item.what.at for item in select.items if isinstance(item.what, Column)]
    plain = [what for what, _ in output if not isinstance(what[0], str)]
    keys = [(key.column.at, found) for key, (found, _) in zip(select.order_by, order) if not isinstance(found, str)]
    for at, column in [*zip(written, plain), *keys]:
        if column not in group_by:
            raise BindFault(f"not grouped at {at}")
