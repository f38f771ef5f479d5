"""What the Python tests share: counting cases, and the last line."""

import os
from collections.abc import Iterable
from pathlib import Path

# zigrunk-nvcc and its like, as `make rust` leaves them
TOOLS = Path(os.environ.get("DRIVER_BIN") or Path(__file__).resolve().parent.parent / "out/rust/target/release")


class Counts:
    """How many cases passed and failed."""

    def __init__(self) -> None:
        self.passed = self.failed = 0

    def case(self, name: str, findings: Iterable[str]) -> None:
        """Counts a case, which has passed if there are no findings, and prints each behind the name, if it has one."""
        found = list(findings)
        for finding in found:
            print(f"{name}: {finding}" if name else finding, flush=True)
        self.passed += not found
        self.failed += bool(found)

    def summary(self) -> int:
        """Prints the last line. Returns the exit status: 1 if a case failed, or if there was none."""
        if self.passed + self.failed == 0:
            self.case("", ["no case ran"])
        print(f"{self.passed} passed, {self.failed} failed")
        return 1 if self.failed else 0


def skip_all(what: str, why: str) -> int:
    """Prints why nothing can be tried here, and the last line. Returns the exit status."""
    print(f"{what}: skipped, {why}\n0 passed, 0 failed, 1 skipped")
    return 0
