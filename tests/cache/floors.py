"""What no order of the commands that a build ran goes below: the longest chain of them, and their sum by processors."""
import json
from collections import Counter
from collections.abc import Iterator
from dataclasses import dataclass, field
from pathlib import Path
from typing import Any

Seconds = float
NO_TIME = 0.0005  # of a process


@dataclass
class Ran:
    """A command that ran: when it began and ended, and the commands of its call that it needed, all of them earlier ones."""

    kind: str
    begin: Seconds
    end: Seconds
    needs: list[int]

    def after(self, moment: Seconds) -> Seconds:
        """How long it ran after a moment: all of it, unless it began early."""
        return self.end - min(max(self.begin, moment), self.end)


@dataclass
class Work:
    """What a build ran: commands by their names, and for zigrunk-nvcc each call's."""

    counts: Counter[str] = field(default_factory=Counter)
    calls: list[list[Ran]] = field(default_factory=list)

    def text(self) -> str:
        """The names with their counts."""
        return ", ".join(f"{count} {name}" for name, count in sorted(self.counts.items())) or "nothing"

    def total(self) -> Seconds:
        """The sum of all commands. What one did that began early isn't known until all that it needed had ended: it may have waited."""
        return sum(command.after(max((call[need].end for need in command.needs), default=0.0)) for call in self.calls for command in call)

    def chain(self) -> Seconds:
        """The longest chain of commands of one call that wait for each other. Of one that began early only the rest waits."""
        longest = 0.0
        for call in self.calls:
            chains: list[Seconds] = []
            for command in call:
                behind = [chains[need] + command.after(call[need].end) for need in command.needs]
                chains.append(max([command.end - command.begin, *behind]))
            longest = max([longest, *chains])
        return longest


def short(kind: str) -> str:
    """The name of a command of zigrunk-nvcc's log."""
    words = kind.split()
    is_host = words[0] not in ("cudafe++", "cicc", "ptxas", "fatbinary", "nvcc")
    return " ".join(words[:2]) if is_host and len(words) > 1 else words[0]


def ran(command: dict[str, Any]) -> Ran:
    """A command of zigrunk-nvcc's log. Of a hit at most a preprocessor ran, by which it was looked up, and of a whole call nothing."""
    kind, is_hit = short(command["kind"]), command.get("hit", False)
    begin = command["end"] if is_hit and kind == "nvcc" else command["begin"]
    return Ran("gcc -E" if is_hit else kind, begin, command["end"], command["needs"])


def from_lines(lines: list[str]) -> Work:
    """What the lines of zigrunk-nvcc's log say."""
    work = Work()
    for call in map(json.loads, lines):
        if "reason" in call:
            work.counts[f"nvcc ({call['reason']})"] += 1
        commands = [ran(command) for command in call.get("commands", [])]
        work.counts.update(command.kind for command in commands if command.end - command.begin > NO_TIME)
        work.calls.append(commands)
    return work


def from_log(log: Path) -> Work:
    """What zigrunk-nvcc's log says."""
    return from_lines(log.read_text(encoding="utf-8").splitlines() if log.exists() else [])


# Commands of one call by kind, begin, end, needs and whether the cache had what they make; their sum, and their longest chain.
EXAMPLES: list[tuple[list[tuple[str, Seconds, Seconds, list[int], bool]], Seconds, Seconds]] = [
    ([], 0, 0),
    ([("gcc -E x", 1, 3, [], False), ("cicc", 4, 7, [0], False), ("ptxas", 7, 8, [1], False), ("gcc -E y", 3, 4, [], False)], 7, 6),
    ([("cudafe++", 1, 4, [], False), ("gcc -E", 1, 2, [], False), ("cicc", 2, 6, [0, 1], False)], 6, 5),  # it began early
    ([("cudafe++", 1, 5, [], False), ("cicc", 2, 4, [0], False), ("ptxas", 5, 6, [1], False)], 5, 5),  # it ended early
    ([("cudafe++", 1, 1, [], True), ("gcc -c", 1, 3, [0], True), ("fatbinary", 3, 4, [1], False)], 3, 3),
    ([("nvcc", 1, 2, [], True)], 0, 0),
]


def wrong_examples() -> Iterator[str]:
    """The examples for which sum or chain aren't as they should be."""
    for commands, total, chain in EXAMPLES:
        logged = [{"kind": kind, "begin": begin, "end": end, "needs": needs, "hit": hit} for kind, begin, end, needs, hit in commands]
        work = from_lines([json.dumps({"commands": logged})])
        if (work.total(), work.chain()) != (total, chain):
            yield f"{commands}: sum {work.total()}, chain {work.chain()}"
