"""Tables of what `make rebuilds` has measured, and how far its goals are reached."""
import statistics
from collections.abc import Callable
from dataclasses import dataclass

from project import CHECKOUT, COLD, CONSTANT, FOLDER, TARGET
from tools import CCACHE, CCACHE_THREADS, NVCC, NVCC_THREADS, OURS, OURS_CACHE, OURS_ROOT


@dataclass
class Figure:
    """A build: seconds, seconds of processor, which commands ran, their sum by processors, and the longest chain of them."""

    seconds: float
    processor: float
    ran: str
    share: float
    chain: float

    def floor(self) -> float:
        """What no order of the commands that ran goes below."""
        return max(self.share, self.chain)


Figures = dict[tuple[str, str], list[Figure]]


@dataclass(frozen=True)
class Goal:
    """The most that a build by one tool may take of what another takes."""

    part: str
    edit: str
    tool: str
    other: str
    most: float


GOALS = [
    Goal("alone", "one call, two targets", OURS, NVCC, 0.55),
    Goal("alone", "one call, six targets", OURS, NVCC_THREADS, 0.75),
    Goal("jobs", "empty cache, -j4", OURS, NVCC, 1.0),
    Goal("jobs", "empty cache, -j4", OURS_CACHE, NVCC, 1.05),
    Goal("jobs", "empty cache, -j16", OURS, NVCC, 1.0),
    *(Goal("edits", edit, OURS_CACHE, CCACHE, most) for edit, most in [
        ("unchanged", 0.8), ("text of a comment", 0.8), ("comment line in a header", 0.2), ("kernel", 0.4), ("host function", 0.5),
        (TARGET, 0.35), (FOLDER, 0.7), (CHECKOUT, 1.0)]),
    Goal("edits", CONSTANT, OURS_CACHE, NVCC, 1.0),
    Goal("edits", CHECKOUT, OURS_ROOT, NVCC, 0.1),
    *(Goal("edits", edit, OURS_CACHE, CCACHE_THREADS, most) for edit, most in [
        (COLD, 0.9), ("unchanged", 0.9), ("text of a comment", 0.9), ("line of a comment", 0.9), ("blanks", 0.9), ("host function", 0.9),
        ("kernel", 0.6), ("branch of a target", 0.9), (CONSTANT, 0.9), ("comment line in a header", 0.9), (TARGET, 0.5), (FOLDER, 0.9),
        (CHECKOUT, 0.9), ("-O3 for the host", 0.9)]),
]


def seconds(figures: list[Figure]) -> float:
    """The median of the seconds of builds."""
    return statistics.median(figure.seconds for figure in figures)


def print_table(title: str, figures: Figures, cell: Callable[[str, str], str]) -> None:
    """A row for each edit, and a column for each tool."""
    tools = list(dict.fromkeys(tool for tool, _ in figures))
    print(f"| {title} | " + " | ".join(tools) + " |\n|---" + "|---" * len(tools) + "|")
    for edit in dict.fromkeys(edit for _, edit in figures):
        cells = [cell(tool, edit) if (tool, edit) in figures else "" for tool in tools]
        print(f"| {edit} | " + " | ".join(cells) + " |")
    print()


def ratios_of(figures: Figures, other: str) -> Callable[[str, str], str]:
    """What a build takes of one by another tool."""
    return lambda tool, edit: f"{seconds(figures[tool, edit]) / seconds(figures[other, edit]):.2f}"


def print_tables(figures: Figures) -> None:
    """Medians, ratios, and of the first run what ran."""
    print_table("seconds (of processor)", figures, lambda tool, edit: f"{seconds(figures[tool, edit]):.2f} ("
                f"{statistics.median(figure.processor for figure in figures[tool, edit]):.1f})")
    for other in (NVCC, CCACHE, CCACHE_THREADS):
        if any(tool == other for tool, _ in figures):
            print_table(f"of {other}", figures, ratios_of(figures, other))
    print_table("what ran", figures, lambda tool, edit: figures[tool, edit][0].ran)


def said_of(ratio: float, most: float, floor: float) -> str:
    """Whether a goal is reached, and if not whether the commands that ran can reach it."""
    if ratio <= most:
        return "reached"
    return "missed" if floor <= most else "missed, as is its floor"


def print_goals(parts: dict[str, Figures]) -> None:
    """How far each goal is reached, and the floor of the build."""
    print("| goal | build | of | most | here | floor: chain; sum by processors |\n|---|---|---|---|---|---|")
    for goal in GOALS:
        own, other = (parts.get(goal.part, {}).get((tool, goal.edit)) for tool in (goal.tool, goal.other))
        if not own or not other:
            continue
        here = seconds(own) / seconds(other)
        floor, chain, share = (statistics.median(values) / seconds(other) for values in
                               ([figure.floor() for figure in own], [figure.chain for figure in own], [figure.share for figure in own]))
        print(f"| {said_of(here, goal.most, floor)} | {goal.edit}, {goal.tool} | {goal.other} | {goal.most} | {here:.2f} | "
              f"{floor:.2f}: {chain:.2f}; {share:.2f} |")
    print()
