#!/usr/bin/env python3
"""Has another user try to get a user's folder for temporary files, while that user makes calls of the driver in a TMPDIR that both share.

    tests/faults/race.py [--trials N] DRIVER

Before each call the folder is away, so that both want to make it. In half of the trials the driver is held up a moment after it makes a folder, and
after it opens one (by strace). Nothing of the call may get into a folder of the other user, and the product has to be right. It takes root.
The last line is 'N passed, M failed'.
"""
import argparse
import os
import shutil
import subprocess
import sys
import tempfile
from pathlib import Path

HERE = Path(__file__).resolve().parent
DRY_RUNS = HERE.parent / "drivers/test_plans/data/dry_runs"
WORDS = "-c k.cu -o k.o -arch=sm_75".split()
VICTIM, RIVAL = 65534, 12345
DELAYS = ["strace", "-o", "/dev/null", "-e", "trace=mkdirat,openat", "-e", "inject=mkdirat,openat:delay_exit=500"]


def toolkit(folder: Path) -> dict[str, str]:
    """A toolkit of stand-ins, and the environment of a call."""
    cuda = folder / "cuda"
    for name in ("bin", "nvvm/bin"):
        (cuda / name).mkdir(parents=True)
    programs = {folder / "tool": HERE / "tool.c", cuda / "bin/nvcc": HERE.parent / "driver/dry_run.c", folder / "rival": HERE / "rival.c"}
    for to, source in programs.items():
        subprocess.run(["cc", "-O2", "-w", "-o", to, source], check=True)
    for name in ("bin/gcc", "bin/cudafe++", "bin/ptxas", "bin/fatbinary", "nvvm/bin/cicc"):
        (cuda / name).symlink_to(folder / "tool")
    data = shutil.copytree(DRY_RUNS, folder / "dry_runs")
    return {"PATH": f"{cuda}/bin:/usr/bin:/bin", "CUDA": str(cuda), "DATA": str(data), "TMPDIR": str(folder / "shared"),
            "XDG_RUNTIME_DIR": str(folder / "run"), "PAUSE": "0"}


def taken(shared: Path) -> list[str]:
    """What is in folders of the other user."""
    return [str(path) for folder in shared.iterdir() if not folder.is_symlink() and folder.stat().st_uid == RIVAL for path in folder.rglob("*")]


class Calls:
    """The calls of a user, in a folder."""

    def __init__(self, folder: Path, driver: Path) -> None:
        self.folder, self.shared, self.environment = folder, folder / "shared", toolkit(folder)
        self.driver = folder / "zigrunk-nvcc"
        shutil.copy(driver, self.driver)
        for name in ("work", "run"):
            (folder / name).mkdir(mode=0o700)
            os.chown(folder / name, VICTIM, VICTIM)
        (folder / "work/k.cu").write_text("a source\n")

    def make(self, before: list[str]) -> bytes:
        """Makes a call. Its product, or nothing if it fails."""
        product = self.folder / "work/k.o"
        product.unlink(missing_ok=True)
        call = [*before, str(self.driver), *WORDS]
        ended = subprocess.run(
            call, cwd=self.folder / "work", env=self.environment, user=VICTIM, group=VICTIM, extra_groups=[], timeout=60, check=False
        )
        return product.read_bytes() if ended.returncode == 0 and product.exists() else b""

    def renew(self) -> None:
        """Takes the folders of both users away."""
        shutil.rmtree(self.shared, ignore_errors=True)
        self.shared.mkdir()
        self.shared.chmod(0o1777)


def main() -> int:
    parser = argparse.ArgumentParser(usage=__doc__)
    parser.add_argument("driver", type=Path)
    parser.add_argument("--trials", type=int, default=200)
    args = parser.parse_args()
    if os.geteuid() != 0 or not shutil.which("cc") or not shutil.which("strace"):
        print("race: skipped, it takes root, a C compiler and strace\n0 passed, 0 failed, 1 skipped")
        return 0
    failed = 0
    with tempfile.TemporaryDirectory(prefix="race.") as name:
        folder = Path(name)
        folder.chmod(0o755)
        calls = Calls(folder, args.driver.resolve())
        calls.renew()
        wanted = calls.make([])
        for trial in range(args.trials):
            calls.renew()
            rival = subprocess.Popen([folder / "rival", calls.shared, f"zigrunk-{VICTIM}"], user=RIVAL, group=RIVAL, extra_groups=[])
            product = calls.make(DELAYS if trial % 2 else [])
            ended = rival.poll()
            rival.kill()
            rival.wait()
            problems = ["another product, or none"] if product != wanted else []
            problems += (["something is in the rival's folder"] if ended is not None else []) + taken(calls.shared)
            failed += bool(problems)
            for problem in problems:
                print(f"trial {trial}: {problem}")
    print(f"{args.trials - failed} passed, {failed} failed")
    return int(failed > 0)


if __name__ == "__main__":
    sys.exit(main())
