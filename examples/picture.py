#!/usr/bin/env python3
"""Prints the JSON of a plan as a graph for Graphviz: a box for each command, with its program and the files that it writes, an arrow from each
command that another needs, a frame around each group, and a dashed box for each dropped command.

    zigrunk plan json nvcc -c k.cu -o k.o | picture.py | tred | dot -Tsvg > plan.svg
"""
import fileinput
import json
import os
from typing import Any


def quoted(*lines: str) -> str:
    """Lines as a label."""
    return '"' + "\\n".join(line.replace("\\", "\\\\").replace('"', '\\"').replace("&", "&amp;") for line in lines) + '"'


def title(group: int, groups: int) -> str:
    return "front group" if group == 0 else "final group" if group == groups - 1 else f"device group {group}"


def lines(plan: Any) -> list[str]:
    """The lines of a plan's graph."""
    said = []
    for command in plan["commands"]:
        names = [os.path.basename(path) or path for path in (command["exe"], *command["writes"], *command["may_write"])]
        frame = f"subgraph cluster_{command['group']} {{ label={quoted(title(command['group'], plan['groups']))}"
        said.append(f"{frame} {command['id']} [label={quoted(*names)}] }}")
    said += [f"{need} -> {command['id']}" for command in plan["commands"] for need in command["needs"]]
    for place, dropped in enumerate(plan["dropped"]):
        said.append(f"d{place} [label={quoted(os.path.basename(dropped['exe']), dropped['reason'])} style=dashed]")
    return said


print("digraph plan {", "  node [shape=box]", *(f"  {line}" for line in lines(json.loads("".join(fileinput.input())))), "}", sep="\n")
