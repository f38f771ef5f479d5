"""What `make rebuilds` builds: sources, the edits of them, and the makefile of a build."""
import shlex
import subprocess
from dataclasses import dataclass, field
from pathlib import Path

TESTS = Path(__file__).resolve().parent.parent
NAMES = ["1", "2", "3", "4", "5", "6", "7", "8", "9", "10", "11", "main"]
EDITED = "5.cu"
BRANCHES = """#if __CUDA_ARCH__ >= 800
    const float scale = 2;
#else
    const float scale = 3;
#endif
    if (threadIdx.x == 0) sums[blockIdx.x] = scale * tile[0];
"""
LIBRARIES = """#include <cub/block/block_reduce.cuh>
#include <thrust/device_vector.h>
#include <thrust/reduce.h>
#include <thrust/sort.h>
"""
LIBRARY_CALLS = """
static __global__ void reduced(const float* values, float* sum) {
    __shared__ cub::BlockReduce<float, SIZE>::TempStorage room;
    float total = cub::BlockReduce<float, SIZE>(room).Sum(values[threadIdx.x]);
    if (threadIdx.x == 0) *sum = total;
}
float sorted(thrust::device_vector<float>& values, float* sum) {
    thrust::sort(values.begin(), values.end());
    reduced<<<1, SIZE>>>(thrust::raw_pointer_cast(values.data()), sum);
    return thrust::reduce(values.begin(), values.end());
}
"""


@dataclass(frozen=True)
class Call:
    """What a build's lines say beside the source."""

    targets: tuple[str, ...] = ("75", "80")
    flags: tuple[str, ...] = ()
    build: str = "build"
    checkout: str = "one"


@dataclass(frozen=True)
class Edit:
    """A change before a build: of a text in a file, or of the lines."""

    name: str
    file: str = ""
    old: str = ""
    new: str = ""
    call: Call = field(default_factory=Call)

    def apply(self, folder: Path) -> None:
        """Changes the file, if there is one."""
        if not self.file:
            return
        path = folder / self.file
        text = path.read_text(encoding="utf-8")
        if self.old not in text:
            raise ValueError(f"{self.name}: {self.file} lacks {self.old!r}")
        path.write_text(text.replace(self.old, self.new), encoding="utf-8")


COLD, CONSTANT, TARGET = "empty cache", "constant in a header", "third target"
FOLDER, CHECKOUT = "another build folder", "another checkout"
# Each edit comes on top of those before it.
EDITS = [
    Edit(COLD),
    Edit("unchanged"),
    Edit("text of a comment", EDITED, "// Adds up each block", "// The sum of each block"),
    Edit("line of a comment", EDITED, "template <typename T>", "// The next function is a kernel.\ntemplate <typename T>"),
    Edit("blanks", EDITED, "\n    ", "\n      "),
    Edit("host function", EDITED, "(count + SIZE - 1) / SIZE;", "count / SIZE + 1;"),
    Edit("kernel", EDITED, "scaled(values[at], 5)", "scaled(values[at], 50)"),
    Edit("branch of a target", EDITED, "scale = 2;", "scale = 4;"),
    Edit(CONSTANT, "more headers/size.h", "128", "64"),
    Edit("comment line in a header", "include/device.h", "__device__", "// Scales a value.\n__device__"),
    Edit(TARGET, call=Call(targets=("75", "80", "86"))),
    Edit(FOLDER, call=Call(build="other")),
    Edit(CHECKOUT, call=Call(checkout="two")),
    Edit("-O3 for the host", call=Call(flags=("-O3",))),
]


@dataclass(frozen=True)
class Project:
    """So many sources, with or without thrust and cub."""

    count: int = len(NAMES)
    has_libraries: bool = False

    @property
    def sources(self) -> list[str]:
        """The files, of which one is edited."""
        others = [f"{name}.cu" for name in NAMES if f"{name}.cu" != EDITED]
        return [EDITED, *others[:self.count - 1]]

    def write(self, folder: Path) -> None:
        """Writes the sources, of which each has a branch for one target."""
        subprocess.run([TESTS / "project.sh", folder], check=True)
        for name in self.sources:
            path = folder / name
            text = path.read_text(encoding="utf-8")
            text = text.replace("    if (threadIdx.x == 0) sums[blockIdx.x] = tile[0];\n", BRANCHES)
            # nvcc finds no external name behind thrust's headers, takes the number of its process, and makes another object each time
            named = f"int begins_{path.stem}() {{ return 1; }}\n"
            path.write_text(named + LIBRARIES + text + LIBRARY_CALLS if self.has_libraries else text, encoding="utf-8")

    def line(self, compiler: list[str], folder: Path, source: str, call: Call) -> list[str]:
        """The words that compile a source, as CMake writes them."""
        targets = [f"--generate-code=arch=compute_{target},code=[compute_{target},sm_{target}]" for target in call.targets]
        includes = [f"-I{folder}/include", f"-I{folder}/more headers"]
        product = f"{source}.o"
        return [*compiler, "-forward-unknown-to-host-compiler", '-DNAME="a name"', *includes, *call.flags, "-std=c++17", *targets,
                "-MD", "-MT", product, "-MF", f"{product}.d", "-x", "cu", "-rdc=true", "-c", str(folder / source), "-o", product]

    def makefile(self, compiler: list[str], folder: Path, call: Call) -> str:
        """Compiles each source."""
        rules = [f"{source}.o:\n\t@{shlex.join(self.line(compiler, folder, source, call))}\n" for source in self.sources]
        return "\n".join([f"all: {' '.join(f'{source}.o' for source in self.sources)}\n", *rules])
