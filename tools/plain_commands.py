"""What the program answers to a command line: its status and its text, as a part of the plain program (plain_plans.py).

It knows the definitions of docs/ and nothing of the program's code, and is made to be read, and not to be fast. Of
`plan` it leaves the lines by worker out, and `gen` whole.
"""

from plain_binding import BindFault, bind, check_numbered
from plain_catalog import CatalogFault, read_catalog
from plain_check import PlanFault, check_text
from plain_dump import DumpFault, dump_text, read_dump
from plain_goals import count_entries, trace_text
from plain_plans import Plan, least_by_requests, memo_text, text_of
from plain_sql import SqlFault, read_sql
from plain_words import NoCommand, read_words, usage_line

PLANNED, NO_PLAN, USAGE, QUERY_REFUSED, CATALOG_REFUSED, TOO_MANY_ENTRIES, READ_FAULT = range(7)
PLAN_REFUSED, DUMP_REFUSED, BATCH_REFUSED = 9, 10, 11
LONGEST_LIST, MOST_LINES, MOST_LIST_ENTRIES = 1048576, 1000, 67108864


class Ending(Exception):
    """A run that ends before its work is done, with its status and its line."""

    def __init__(self, status, line):
        super().__init__(line)
        self.status, self.line = status, line


def answer(words, files):
    """The status and the text of a run; files are the bytes by their names, and another name can't be read."""
    try:
        command = read_words(words)
    except NoCommand:
        return USAGE, usage_line()
    try:
        return COMMANDS[command.name](command, files)
    except Ending as ending:
        return ending.status, f"{ending.line}\n"


# ---- what commands have in common


def content(files, name):
    if name not in files:
        raise Ending(READ_FAULT, f"read fault: {name}")
    return files[name]


def catalog_of(text):
    try:
        return read_catalog(text)
    except CatalogFault as fault:
        raise Ending(CATALOG_REFUSED, f"catalog refused: {fault}") from fault


def query_of(catalog, text, root, off=()):
    """The query of the bytes, with the rules that are off."""
    try:
        query = bind(read_sql(text), catalog, root, off)
        check_numbered(query)
    except (SqlFault, BindFault) as fault:
        raise Ending(QUERY_REFUSED, f"query refused: {fault}") from fault
    return query


def least_within(query, capacity):
    """The least plan, or None; a query with more entries than the capacity ends the run."""
    if count_entries(query) > capacity:
        raise Ending(TOO_MANY_ENTRIES, f"too many entries: capacity {capacity}")
    return least_by_requests(query)


def status_of(plan):
    return NO_PLAN if plan is None else PLANNED


def planned(catalog, text, options):
    """The status and the text of a query over a catalogue."""
    query = query_of(catalog, text, options["root"], options["off"])
    plan = least_within(query, options["capacity"])
    memo = memo_text(query) if options["memo"] else ""
    trace = trace_text(query) if options["trace"] else ""
    return status_of(plan), text_of(query, plan) + memo + trace


# ---- the commands


def plan(command, files):
    catalog = catalog_of(content(files, command.words["CATALOG"]))
    return planned(catalog, content(files, command.words["QUERY"]), command.options)


def stages(command, files):
    """Plans with other rules off in each stage, up to one whose plan costs less than its threshold."""
    catalog = catalog_of(content(files, command.words["CATALOG"]))
    text = content(files, command.words["QUERY"])
    query = query_of(catalog, text, command.options["root"])
    ran, lines = [], []
    for number, stage in enumerate(command.words["STAGES"]):
        least = least_within(query_of(catalog, text, query.root, stage.off), command.options["capacity"])
        ran.append(least)
        lines.append(f"stage {number} no plan\n" if least is None else f"stage {number} cost {least.cost}\n")
        if least is not None and stage.threshold is not None and least.cost < stage.threshold:
            break
    else:
        least = min((plan for plan in ran if plan is not None), key=Plan.rank, default=None)
    return status_of(least), f"stages ran={len(ran)}\n" + "".join(lines) + text_of(query, least)


def check(command, files):
    """Reads a plan's text back."""
    catalog = catalog_of(content(files, command.words["CATALOG"]))
    text = content(files, command.words["QUERY"])
    query = query_of(catalog, text, command.options["root"], command.options["off"])
    try:
        return PLANNED, f"valid cost {check_text(query, content(files, command.words['PLAN']))}\n"
    except PlanFault as fault:
        raise Ending(PLAN_REFUSED, f"plan refused: {fault}") from fault


def dump(command, files):
    """Writes what planning a query needs, and nothing else of the catalogue."""
    catalog = catalog_of(content(files, command.words["CATALOG"]))
    text = content(files, command.words["QUERY"])
    query_of(catalog, text, command.options["root"], command.options["off"])
    try:
        return PLANNED, dump_text(read_sql(text), catalog, text, command.options)
    except DumpFault as fault:
        raise Ending(DUMP_REFUSED, f"dump refused: {fault}") from fault


def replay(command, files):
    """Plans what a dump says."""
    try:
        found = read_dump(content(files, command.words["DUMP"]))
    except DumpFault as fault:
        raise Ending(DUMP_REFUSED, f"dump refused: {fault}") from fault
    return planned(catalog_of(found.catalog), found.query, found.options)


def batch(command, files):
    """Plans each line of a list as a query of its own."""
    catalog = catalog_of(content(files, command.words["CATALOG"]))
    text = content(files, command.words["LIST"])
    if len(text) > LONGEST_LIST:
        raise Ending(BATCH_REFUSED, "batch refused: too long")
    lines = text.split(b"\n")
    if not lines[-1]:
        lines.pop()
    if len(lines) > MOST_LINES or len(lines) * command.options["capacity"] > MOST_LIST_ENTRIES:
        raise Ending(BATCH_REFUSED, "batch refused: too many queries")
    texts = [f"batch queries={len(lines)}\n"]
    for number, line in enumerate(lines):
        try:
            status, of_line = planned(catalog, line, command.options)
        except Ending as ending:
            status, of_line = ending.status, f"{ending.line}\n"
        texts.append(f"query {number} status {status}\n{of_line}")
    return PLANNED, "".join(texts)


COMMANDS = {"plan": plan, "stages": stages, "check": check, "dump": dump, "replay": replay, "batch": batch}
