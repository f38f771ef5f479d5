#!/usr/bin/env python3
"""Audits calls of nvcc, without making anything: `audit.py JSON HTML < CALLS`, where each line of CALLS is a call's words, as a shell reads them,
in the working directory. It writes what each call runs, what each command reads, writes and waits for, and what nobody can know of it, as JSON and as
a page for people. The status is 1 if a call isn't planned."""

import html
import json
import os
import sys
import tempfile
from pathlib import Path
from typing import Any, Dict, List

import zigrunk

STYLE = "body{font:14px sans-serif} td,th{border:1px solid #ccc;padding:3px;vertical-align:top} table{border-collapse:collapse} .no{background:#fdd}"


def name_of(number: Any) -> str:
    """A member of an enum, or a number of a later library, for people."""
    return str(getattr(number, "name", number)).lower().replace("_", " ")


def of_command(number: int, command: zigrunk.Command, tmp: str) -> Dict[str, Any]:
    def files(paths: Any) -> List[str]:
        return [path.replace(tmp, "TMP") for path in paths]

    return {
        "number": number,
        "tool": Path(command.words[0]).name,
        "targets": list(command.targets),
        "needs": list(command.needs),
        "cacheable": command.cacheable,
        "unknown": name_of(command.missing) if command.missing is not None else None,
        "reads": files(command.reads),
        "writes": files(command.writes),
        "may_write": files(command.may_write),
        "words": files(command.words),
    }


def audited(words: List[str], tmp: str) -> Dict[str, Any]:
    """What is to be said of a call."""
    made: Dict[str, Any] = {"call": words, "commands": [], "dropped": []}
    try:
        call = zigrunk.Call("nvcc", words, os.environ, os.getcwd(), tmp)
        plan = call.plan()
    except zigrunk.ZigrunkError as error:
        return {**made, "error": str(error)}
    made.update(source=call.input, makes=list(call.outputs))
    made["commands"] = [of_command(number, command, tmp) for number, command in enumerate(plan.commands)]
    made["dropped"] = [{"words": list(command.words), "reason": name_of(command.reason)} for command in plan.dropped]
    return made


def cell(value: Any) -> str:
    text = "\n".join(map(str, value)) if isinstance(value, list) else "" if value is None else str(value)
    return f"<td>{html.escape(text).replace(chr(10), '<br>')}</td>"


COLUMNS = ("number", "tool", "targets", "needs", "cacheable", "unknown", "reads", "writes", "may_write")


def table_of(call: Dict[str, Any]) -> str:
    title = f"<h2>nvcc {html.escape(zigrunk.quote(call['call']))}</h2>"
    if "error" in call:
        return f"{title}<p class=no>{html.escape(call['error'])}</p>"
    head = "".join(f"<th>{name.replace('_', ' ')}</th>" for name in COLUMNS)
    rows = [f"<tr{'' if it['unknown'] is None else ' class=no'}>{''.join(cell(it[name]) for name in COLUMNS)}</tr>" for it in call["commands"]]
    dropped = "".join(f"<p class=no>dropped, {it['reason']}: {html.escape(zigrunk.quote(it['words']))}</p>" for it in call["dropped"])
    return f"{title}<p>makes {html.escape(', '.join(call['makes']))}</p><table><tr>{head}</tr>{''.join(rows)}</table>{dropped}"


def main(arguments: List[str]) -> int:
    if len(arguments) != 2:
        print(__doc__, file=sys.stderr)
        return 2
    with tempfile.TemporaryDirectory() as tmp:
        calls = [audited(zigrunk.split(line), tmp) for line in sys.stdin if line.strip()]
    Path(arguments[0]).write_text(json.dumps({"zigrunk": zigrunk.version(), "calls": calls}, indent=1) + "\n", encoding="utf-8")
    page = f"<!doctype html><meta charset=utf-8><title>Audit</title><style>{STYLE}</style>{''.join(map(table_of, calls))}\n"
    Path(arguments[1]).write_text(page, encoding="utf-8")
    return 1 if any("error" in call for call in calls) else 0


if __name__ == "__main__":
    sys.exit(main(sys.argv[1:]))
