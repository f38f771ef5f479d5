"""The tools that `make rebuilds` compares: how each compiles, where its cache is, and which commands it ran."""
import json
import os
import random
import shutil
import subprocess
import time
from collections import Counter
from dataclasses import dataclass, field
from pathlib import Path

from floors import Seconds, Work, from_log

NVCC, NVCC_THREADS = "nvcc", "nvcc -t4"
CCACHE, CCACHE_THREADS, SCCACHE = "ccache nvcc", "ccache nvcc -t4", "sccache nvcc"
CCACHE_OURS, OURS, OURS_CACHE = "ccache zigrunk-nvcc", "zigrunk-nvcc", "zigrunk-nvcc, its cache"
OURS_ROOT = "zigrunk-nvcc, its cache, under a root"
TOOLS = [NVCC, NVCC_THREADS, CCACHE, CCACHE_THREADS, SCCACHE, CCACHE_OURS, OURS, OURS_CACHE, OURS_ROOT]
UNCACHED = [NVCC, NVCC_THREADS, OURS]
CACHES = ("CCACHE_", "SCCACHE_", "ZIGRUNK_", "NVCC_", "CUDA", "CMAKE_", "MAKE", "MFLAGS")


def from_ccache(log: Path, compiler: str) -> Work:
    """What ccache's log of results says."""
    said = log.read_text(encoding="utf-8").split() if log.exists() else []
    counts = Counter({compiler: said.count("cache_miss"), "-E alone": said.count("preprocessed_cache_hit")})
    return Work(counts=+counts)


class Server:
    """A server of sccache, with an empty cache."""

    def __init__(self, sccache: str, environment: dict[str, str], folder: Path) -> None:
        self.sccache = sccache
        self.environment = {**environment, "SCCACHE_DIR": str(folder), "SCCACHE_SERVER_PORT": str(random.randrange(20000, 30000)),
                            "SCCACHE_IDLE_TIMEOUT": "0", "SCCACHE_CONF": "/dev/null"}
        settings = {**self.environment, "SCCACHE_NO_DAEMON": "1", "SCCACHE_START_SERVER": "1"}
        self.process = subprocess.Popen([sccache], env=settings, stdout=subprocess.DEVNULL, stderr=subprocess.DEVNULL)
        for _ in range(200):
            if self.ask("--show-stats").returncode == 0:
                return
            time.sleep(0.05)
        raise OSError("sccache's server doesn't start")

    def ask(self, *words: str) -> "subprocess.CompletedProcess[str]":
        """Asks the server."""
        return subprocess.run([self.sccache, *words], env=self.environment, capture_output=True, text=True, check=False)

    def work(self) -> Work:
        """What it has run since its numbers were set to zero."""
        stats = json.loads(self.ask("--show-stats", "--stats-format=json").stdout)["stats"]
        return Work(counts=Counter(stats["cache_misses"]["counts"]))

    def processor(self) -> Seconds:
        """The processor's time of the server and of what it has run."""
        fields = Path(f"/proc/{self.process.pid}/stat").read_text(encoding="utf-8").rpartition(")")[2].split()
        return sum(int(number) for number in fields[11:15]) / float(os.sysconf("SC_CLK_TCK"))

    def end(self) -> None:
        """Ends the server."""
        self.process.terminate()
        self.process.wait()


@dataclass(frozen=True)
class Programs:
    """Where the programs are."""

    nvcc: str
    zigrunk: str
    sccache: str
    ccache: str = field(default_factory=lambda: shutil.which("ccache") or "")


class Tool:
    """A way to compile, with a cache of its own below a folder."""

    def __init__(self, name: str, programs: Programs, room: Path) -> None:
        self.name, self.programs, self.room = name, programs, room
        self.cache, self.log = room / f"cache.{name}", room / f"log.{name}"
        self.server: Server | None = None
        self.environment = self.settings()

    def settings(self) -> dict[str, str]:
        """The variables of a build."""
        own = {name: value for name, value in os.environ.items() if not name.startswith(CACHES)}
        own |= {"TMPDIR": str(self.room / "tmp"), "XDG_RUNTIME_DIR": str(self.room / "run"), "XDG_CACHE_HOME": str(self.room / "users")}
        if "ccache" in self.name.split():
            own |= {"CCACHE_DIR": str(self.cache), "CCACHE_STATSLOG": str(self.log), "CCACHE_BASEDIR": str(self.room)}
        elif "zigrunk" in self.name:
            own |= {"ZIGRUNK_LOG": str(self.log)}
        own |= {"CCACHE_DEPEND": "1"} if self.name == CCACHE_THREADS else {}
        own |= {"CCACHE_COMPILERCHECK": "%compiler% --version"} if self.name == CCACHE_OURS else {}
        return own | ({"ZIGRUNK_CACHE": str(self.cache)} if self.name in (OURS_CACHE, OURS_ROOT) else {})

    def environment_in(self, checkout: Path) -> dict[str, str]:
        """The variables of a build in a checkout."""
        return self.environment | ({"ZIGRUNK_ROOT": str(checkout)} if self.name == OURS_ROOT else {})

    def compiler(self) -> list[str]:
        """The first words of a line."""
        own = [self.programs.zigrunk if "zigrunk" in self.name else self.programs.nvcc]
        first = self.name.split()[0]
        launcher = {"ccache": [self.programs.ccache], "sccache": [self.programs.sccache]}.get(first, [])
        return [*launcher, *own, *(["-t4"] if self.name.endswith("-t4") else [])]

    def empty(self) -> None:
        """Empties its cache."""
        self.end()
        shutil.rmtree(self.cache, ignore_errors=True)
        if self.name == SCCACHE:
            self.server = Server(self.programs.sccache, self.settings(), self.cache)
            self.environment = self.server.environment

    def begin(self) -> None:
        """Forgets what it has run."""
        self.log.unlink(missing_ok=True)
        if self.server:
            self.server.ask("--zero-stats")

    def processor(self) -> Seconds:
        """The processor's time of its server."""
        return self.server.processor() if self.server else 0.0

    def work(self, sources: int) -> Work:
        """What it has run."""
        if self.server:
            return self.server.work()
        if "ccache" in self.name.split():
            return from_ccache(self.log, "zigrunk-nvcc" if "zigrunk" in self.name else "nvcc")
        return from_log(self.log) if "zigrunk" in self.name else Work(counts=Counter({"nvcc": sources}))

    def end(self) -> None:
        """Ends its server."""
        if self.server:
            self.server.end()
            self.server = None
