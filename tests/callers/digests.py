"""Prints the name of each row and a digest of what a program of this folder says of it, with other names in place of folders:
digests.py FOLDER.. < ANSWERS. Rows by lot are left out."""
import hashlib
import sys


def main() -> None:
    answers = sys.stdin.buffer.read()
    for number, folder in enumerate(sys.argv[1:]):
        answers = answers.replace(folder.encode(), b"FOLDER%d" % number)
    for row in answers.split(b"\n== "):
        name, _, said = row.removeprefix(b"== ").partition(b"\n")
        if not name.startswith(b"lot"):
            print(name.decode(), hashlib.sha256(said.rstrip(b"\n")).hexdigest()[:16])


if __name__ == "__main__":
    main()
