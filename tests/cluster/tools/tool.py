#!/usr/bin/env python3
"""Stands in for gcc, g++, cicc, cudafe++, ptxas and fatbinary, by the name under which it runs.

A product is a digest of the tool's words and of all that it reads, so a missing, old or wrong input shows in the object. It has a last
line, and it is written in two halves, so a reader notices half a file. TOOL_LOG, if set, names a file that gets a line for each start,
end and bad input, with the node's name. TOOL_SECONDS is how long each tool takes.
"""
import hashlib
import os
import re
import sys
import tempfile
import time
from typing import NoReturn

PRODUCTS = {"cicc": ["-o", "--gen_c_file_name", "--gen_device_file_name", "--stub_file_name"], "cudafe++": ["--gen_c_file_name"],
            "ptxas": ["-o", "--output-file"], "fatbinary": ["--create", "--embedded-fatbin"]}
NAMES = ["--orig_src_file_name", "--orig_src_path_name", "--include_file_name", "--stub_file_name"]
SOURCE = re.compile(r"[^-].*\.(ii|cu|cpp|c|ptx|cubin)$")
IMAGE = re.compile(r"--image\d?=.*file=([^,]*)")
END = b"END\n"

tool = os.path.basename(sys.argv[0])
words = sys.argv[1:]
products = PRODUCTS.get(tool, ["-o"])
makes: list[str] = []
reads: list[str] = []
others = [tool]
node = os.uname().nodename


def note(kind: str, name: str = "") -> None:
    if log := os.environ.get("TOOL_LOG"):
        with open(log, "a", encoding="utf-8") as file:
            file.write(f"{kind} {node} {tool} {name}\n")


def fail(kind: str, name: str) -> NoReturn:
    note(kind, name)
    sys.exit(f"{tool}: {kind}: {name}")


def sort_words() -> None:
    """Tells the words that name products and inputs from the others, of which only the last part of a path counts."""
    rest = iter(words)
    for word in rest:
        key, _, value = word.partition("=")
        if word in products:
            makes.append(next(rest))
        elif value and key in products:
            makes.append(value)
        elif word == "--module_id_file_name":
            (makes if "--gen_module_id_file" in words else reads).append(next(rest))
        elif word in NAMES:
            others.append(os.path.basename(next(rest)))
        elif image := IMAGE.match(word):
            reads.append(image.group(1))
        elif SOURCE.match(word):
            reads.append(word)
        else:
            others.append(re.sub(r"/[^ ]*/", "", word))
    if tool in ("gcc", "g++") and "-E" not in words:
        for name in [name for name in reads if name.endswith(".cudafe1.cpp")]:
            folder = os.path.dirname(name) or "."
            reads.extend(sorted(os.path.join(folder, other) for other in os.listdir(folder) if other.endswith((".stub.c", ".fatbin.c"))))


def digest() -> str:
    result = hashlib.sha256(repr(others).encode())
    for name in reads:
        try:
            with open(name, "rb") as file:
                text = file.read()
        except OSError:
            fail("missing", name)
        if not name.endswith(".cu") and not text.endswith(END):
            fail("half", name)
        result.update(hashlib.sha256(text).digest())
    return result.hexdigest()


sort_words()
text = digest()
seconds = float(os.environ.get("TOOL_SECONDS", "0"))
note("start", " ".join(makes[:1]))
# as a compiler does, on the disk of its node
try:
    with tempfile.TemporaryFile("w", dir="/tmp") as scratch:
        scratch.write(text * 100)
except OSError as error:
    note("full", "/tmp")
    sys.exit(f"{tool}: /tmp: {error.strerror}")
time.sleep(seconds)
# By this a batch knows what a call has read.
marker = b'# 0 "<built-in>"\n' if "-E" in words else b""
for number, name in enumerate(makes):
    with open(name, "wb", buffering=0) as product:
        product.write(marker)
        product.write(f"{text} {number}\n".encode() * 50)
        time.sleep(seconds / 6)
        product.write(END)
note("end", " ".join(makes[:1]))
