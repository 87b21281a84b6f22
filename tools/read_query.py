"""Reads the texts of a catalogue and a query for tools, as the plain program does (plain_plans.py)."""

from plain_binding import BindFault, bind
from plain_catalog import CatalogFault, read_catalog
from plain_plans import ONE
from plain_sql import SqlFault, read_sql


class NotAQuery(Exception):
    """A catalogue or a query that can't be read; the message says why."""


def read_query(catalog_text, sql_text, root=ONE, off=()):
    """The query of the texts (plain_plans.Query)."""
    try:
        catalog = read_catalog(catalog_text.encode())
    except CatalogFault as fault:
        raise NotAQuery(f"the catalogue can't be read: {fault}") from fault
    try:
        return bind(read_sql(sql_text.encode()), catalog, root, off)
    except (SqlFault, BindFault) as fault:
        raise NotAQuery(f"the query can't be read: {fault}") from fault
