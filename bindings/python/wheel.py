#!/usr/bin/env python3
"""Makes a wheel of the package with libzigrunk in it: wheel.py LIBRARY FOLDER. It needs no other package, and prints the wheel's path.

LIBRARY is the shared object. The wheel is for its processor, and for glibc of the newest version that it names, at least 2.17."""

import base64
import hashlib
import re
import struct
import sys
import zipfile
from pathlib import Path

HERE = Path(__file__).resolve().parent
# The processors, by their numbers in ELF.
PROCESSORS = {62: "x86_64", 183: "aarch64"}


def platform_of(library: bytes) -> str:
    """The tag of the platform that a shared object is for."""
    if library[:5] != b"\x7fELF\x02":
        sys.exit("wheel.py: the library is no shared object of a 64-bit Linux")
    machine = struct.unpack_from("<H", library, 18)[0]
    if machine not in PROCESSORS:
        sys.exit(f"wheel.py: no tag for the processor {machine}")
    minor = max([17, *(int(it) for it in re.findall(rb"\0GLIBC_2\.(\d+)(?:\.\d+)?(?=\0)", library))])
    return f"manylinux_2_{minor}_{PROCESSORS[machine]}"


def setting(name: str) -> str:
    """A text of the project's settings."""
    found = re.search(rf'^{name} = "(.*)"$', (HERE / "pyproject.toml").read_text(encoding="utf-8"), re.MULTILINE)
    if not found:
        sys.exit(f"wheel.py: pyproject.toml has no {name}")
    return found[1]


def files(library: bytes, info: str, tag: str) -> dict[str, bytes]:
    """The wheel's files but RECORD, by their paths."""
    package = {f"zigrunk/{name}": (HERE / "zigrunk" / name).read_bytes() for name in ("__init__.py", "py.typed")}
    metadata = [f"Metadata-Version: 2.1\nName: zigrunk\nVersion: {setting('version')}", f"Summary: {setting('description')}",
                "License: Apache-2.0", f"Requires-Python: {setting('requires-python')}\n"]
    wheel = f"Wheel-Version: 1.0\nGenerator: zigrunk\nRoot-Is-Purelib: false\nTag: {tag}\n"
    return {**package, "zigrunk/libzigrunk.so.2": library, f"{info}/METADATA": "\n".join(metadata).encode(), f"{info}/WHEEL": wheel.encode()}


def record_of(made: dict[str, bytes], info: str) -> bytes:
    """The list of the files, each with its digest."""
    rows = []
    for path, content in made.items():
        digest = base64.urlsafe_b64encode(hashlib.sha256(content).digest()).rstrip(b"=").decode()
        rows.append(f"{path},sha256={digest},{len(content)}\n")
    return "".join([*rows, f"{info}/RECORD,,\n"]).encode()


def main() -> int:
    if len(sys.argv) != 3:
        print(__doc__, file=sys.stderr)
        return 2
    library = Path(sys.argv[1]).read_bytes()
    name, tag = f"zigrunk-{setting('version')}", f"py3-none-{platform_of(library)}"
    info, path = f"{name}.dist-info", Path(sys.argv[2]) / f"{name}-{tag}.whl"
    made = files(library, info, tag)
    made[f"{info}/RECORD"] = record_of(made, info)
    with zipfile.ZipFile(path, "w", zipfile.ZIP_DEFLATED) as wheel:
        for file, content in made.items():
            # (the date of the oldest file that a zip can have, so that the same library makes the same wheel)
            wheel.writestr(zipfile.ZipInfo(file, (1980, 1, 1, 0, 0, 0)), content, zipfile.ZIP_DEFLATED)
    print(path)
    return 0


if __name__ == "__main__":
    sys.exit(main())
