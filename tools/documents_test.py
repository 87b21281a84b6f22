#!/usr/bin/env python3
"""Tests tools/documents.py over small texts, and then what it tells of the documents of the repository.

Usage: tools/documents_test.py
"""
from documents import CRATES, LONGEST, TOP, Repository, faults_of, long_sentences, told, unnamed
from run_tests import run_tests

# How many sentences of more than 35 words the documents but README.md may have.
MOST_LONG = 10

REPOSITORY = Repository()
PAGE = TOP / "docs" / "PROOFS.md"
PROVED = TOP / "docs" / "PROVED.md"
README = CRATES / "job_engine" / "README.md"
FOUR = "## Proved\n\n## Required\n\n## Assumed\n\n## Tested only\n\n"

# a document, its text, and what is told of it
FAULTS = [
    (PAGE, "`orca_run` of `orca_cli`", []),
    (PAGE, "`no_such_call`", ["1: no no_such_call (`no_such_call`)"]),
    (PAGE, "One.\n\n`Query::no_such_call`", ["3: no no_such_call (`Query::no_such_call`)"]),
    (PAGE, "`crates/orca_cli`, `tools/*_test.*`, `docs/`, `README.md`, `specs/`, `crates/orca/out/orca`", []),
    (PAGE, "`docs/no_such_page.md`", ["1: no docs/no_such_page.md (`docs/no_such_page.md`)"]),
    (PAGE, "`NoSuchFile.antt`", ["1: no NoSuchFile.antt (`NoSuchFile.antt`)"]),
    (PAGE, "`specs/Least.antt` of `plan_space`", []),
    (PAGE, "`specs/Least.antt` of `query_core`", ["1: no specs/Least.antt (`specs/Least.antt`)"]),
    (PAGE, "| Crate | File |\n|---|---|\n| `plan_space` | `specs/Modes.antt` |\n| | `specs/Least.antt` |", []),
    (PAGE, "`./orca plan examples/t.json examples/q.sql --workers 4`", []),
    (PAGE, "`./orca plan examples/t.json --no-such-option`", ["1: no --no-such-option (`./orca plan examples/t.json "
                                                               "--no-such-option`)"]),
    (PAGE, "`SELECT a FROM t ORDER BY a`, `2^56`, `→`, `i0`", []),
    (PAGE, "`IsMember` of `xform_rules`, `IsMember` of `sql_print`", ["1: no IsMember in sql_print"]),
    (PAGE, "[a](../README.md), [b](../README.md#two-commands), [c](#a-contract), [d](https://example.org/none)", []),
    (PAGE, "[a](none.md)", ["1: no none.md"]),
    (PAGE, "[a](../README.md#none)", ["1: no heading none in ../README.md"]),
    (PAGE, "```text\n$ ./orca plan examples/none.json examples/q.sql\n`none`\n```", ["2: no examples/none.json"]),
    (PAGE, "```text\n./orca plan examples/t.json examples/q.sql > none/none\n```", []),
    (PAGE, "```rust\npub fn finished(status: Status, ..\n    ensures ok { OnOk written (result ≡ status) }\n```", []),
    (PAGE, "```rust\npub fn finished(nothing)\n```", ["1: no such code: pub fn finished(nothing)"]),
    (PROVED, "- **plan_check**: A plan. Call: `check_plan`.", []),
    (PROVED, "- **plan_check**: A plan. Calls: `check_plan`, `read_sql`.", ["1: no read_sql let out by plan_check"]),
    (README, FOUR, []),
    (README, FOUR.replace("Proved", "Proved\n\n- `Engine::step` (`RunEnds`), by `goal_board`"), []),
    (README, FOUR.replace("Proved", "Proved\n\n- `read_sql`"), ["3: no read_sql below job_engine"]),
    (README, FOUR.replace("Proved", "Proved\n\n- `read_sql` of `sql_reader`"), []),
    (README, FOUR + "It is told (clause `full`).", []),
    (README, FOUR + "It is told (clauses `full` and `value`).", ["9: no clause value"]),
    (README, "## Proved\n\n## Required\n\n## Assumed\n", ["1: no heading Tested only"]),
]

WORDS = "word " * (LONGEST - 1)

# a text, and the numbers of words of what is too long in it
LONG = [
    (f"The {WORDS}.", []),
    (f"The {WORDS} end.", [LONGEST + 1]),
    (f"The {WORDS}. Another one.", []),
    (f"The `word of code` {WORDS}.", [LONGEST + 1]),
    (f"The {WORDS}\nend.", [LONGEST + 1]),
    (f"- {WORDS} `one`\n- two three", []),
    (f"| {WORDS} `one` | two three |", []),
    (f"# {WORDS} no sentence\n\n```text\n{WORDS} no sentence\n```", []),
    (f"The {WORDS} [end](of/a_link.md).", [LONGEST + 1]),
]


def tells_what_is_not_there():
    for document, text, expected in FAULTS:
        found = [f"{line}: {what}" for line, what in faults_of(REPOSITORY, document, text)]
        assert found == expected, f"{text}\n{found}"


def counts_the_words_of_sentences():
    for text, expected in LONG:
        found = [count for _, count, _ in long_sentences(text)]
        assert found == expected, f"{text}\n{found}"


def tells_calls_that_are_not_named():
    assert unnamed("cost_units", "`share` and `local`") == ["bits_are_digits"]
    assert unnamed("cost_units", "`share`, `local(shape)`, `bits_are_digits`") == []


def documents_name_what_is_there():
    faults, long = told()
    assert not faults, "\n".join(faults)
    assert len(long) <= MOST_LONG, "\n".join(long)


if __name__ == "__main__":
    run_tests([tells_what_is_not_there, counts_the_words_of_sentences, tells_calls_that_are_not_named,
               documents_name_what_is_there], [])
