#!/usr/bin/env python3
"""Has buildbox's own programs read what ours wrote to a server: casdownload each result, and trexe run each action anew by its input root, with its
words, variables and outputs. Prints how many results there were, how many trexe made alike, and how many files equal the one that is given.

    others.py FOLDER-OF-PROGRAMS ADDRESS ACTIONS STORAGE FILE    the program ACTIONS is the crate's example
"""
import ast
import subprocess
import sys
import tempfile
from pathlib import Path


def tree(folder: Path) -> "dict[str, bytes]":
    """The outputs in a folder, without the one where casdownload says more of them."""
    return {path.name: path.read_bytes() for path in folder.iterdir() if path.is_file()}


programs, address, wanted = Path(sys.argv[1]), sys.argv[2].replace("grpc://", "http://"), Path(sys.argv[5]).read_bytes()
results, alike, files = 0, 0, 0
for line in subprocess.run([sys.argv[3], sys.argv[4]], check=True, capture_output=True, text=True).stdout.splitlines():
    digest, root, arguments, variables, outputs = ast.literal_eval(line)
    results += 1
    with tempfile.TemporaryDirectory() as scratch:
        there, anew = Path(scratch) / "there", Path(scratch) / "anew"
        asked = [f"--remote={address}", f"--destination-dir={there}", f"--action-digest={digest}"]
        subprocess.run([programs / "casdownload", *asked], check=True, stdout=subprocess.DEVNULL, stderr=subprocess.DEVNULL)
        words = [f"--remote={address}", f"--d={anew}", "--skip-cache-lookup", "--do-not-cache", f"--input-root-digest={root}"]
        words += [*[f"--output-path={output}" for output in outputs], *[f"--env={variable}" for variable in variables]]
        subprocess.run([programs / "trexe", *words, "--", *arguments], check=True, stdout=subprocess.DEVNULL)
        alike += tree(there) == tree(anew) != {}
        files += wanted in tree(there).values()
print(f"{results} results, {alike} made alike, {files} with the file")
