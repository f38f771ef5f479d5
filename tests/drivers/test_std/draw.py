#!/usr/bin/env python3
"""Draws lines for test_std by a seed.

    draw.py SEED COUNT FOLDER    prints COUNT lines and those that are always there; FOLDER: that of the files that lines name
"""
import random
import sys
from typing import Callable, Dict

LETTERS = list("abcxyzKJ019_-./!") + ['"', "'", "\\", " ", "\t", "\n", "\r", "%", "#", "\x00", "\x07", "\x08", "\x0b", "\x0c", "\x1b",
                                      "\x1f", "\x7f"]
WIDE = ["\x80", "\x85", "\xa0", "\xad", "é", "ß", "\u07ff", "\u0800", "€", "\u200b", "\u0301", "\u2028", "\ud7ff", "\ue000", "\ufeff", "\ufffd",
        "\uffff", "\U00010000", "😀", "\U000e0001", "\U0010ffff"]
# Bytes at the edges of UTF-8.
BYTES = [0x00, 0x41, 0x7f, 0x80, 0x8f, 0x90, 0x9f, 0xa0, 0xbf, 0xc0, 0xc1, 0xc2, 0xdf, 0xe0, 0xe1, 0xec, 0xed, 0xee, 0xef, 0xf0, 0xf1, 0xf4,
         0xf5, 0xff]
ESCAPES = {" ": "%s", "\n": "%n", "\t": "%t", "\r": "%r", "\xa0": "%_", "%": "%%"}
NUMBERS = [0, 1, 2, 7, 9, 10, 15, 16, 99, 100, 127, 128, 255, 256, 257, 999, 1000, 4095, 65535, 2**31 - 1, 2**31, 2**32 - 1, 2**32,
           2**63 - 1, 2**63, 2**64 - 1]


class Draw:
    """The lines of one seed."""

    def __init__(self, seed: str, folder: str) -> None:
        self.lot = random.Random(seed)
        self.folder = folder

    def text(self, most: int = 8) -> str:
        letters = LETTERS + WIDE if self.lot.random() < 0.5 else list("abc")
        return "".join(self.lot.choice(letters) for _ in range(self.lot.randint(0, most)))

    def word(self, most: int = 8) -> str:
        return escaped(self.text(most))

    def hex(self, most: int = 24, values: list[int] | None = None) -> str:
        count = self.lot.randint(0, most)
        return "".join(f"{self.lot.choice(values) if values else self.lot.randrange(256):02x}" for _ in range(count))

    def number(self, most: int = 20) -> int:
        return self.lot.choice(NUMBERS) if self.lot.random() < 0.1 else self.lot.randint(0, most)

    def operations(self, forms: list[str], most: int = 12) -> str:
        count = self.lot.randint(60, 250) if self.lot.random() < 0.01 else self.lot.randint(1, most)
        return " ".join(self.filled(self.lot.choice(forms)) for _ in range(count))

    def filled(self, form: str) -> str:
        """A form whose capital letters are drawn: N a small number, B a byte, X bytes, U bytes at the edges of UTF-8, T a text, L texts,
        K a key, G any number, C a character's code."""
        name, mark, arguments = form.partition("=")
        makers: Dict[str, Callable[[], str]] = {
            "N": lambda: str(self.lot.randint(0, 12)),
            "B": lambda: str(self.lot.choice([0, 1, 1, 2, 7, 255])),
            "X": self.hex,
            "U": lambda: self.hex(8, BYTES),
            "T": lambda: escaped(self.text().replace(",", "")),
            "L": lambda: ",".join(escaped(self.text(3).replace(",", "")) for _ in range(self.lot.randint(1, 4))),
            "K": self.key,
            "G": lambda: str(self.lot.choice(NUMBERS)),
            "C": lambda: f"{ord(self.lot.choice(LETTERS + WIDE)):x}",
        }
        return name + mark + "".join(makers[letter]() if letter in makers else letter for letter in arguments)

    def key(self) -> str:
        few = ["a", "b", "c", "ab", "", "é", "A", "a\x00"]
        return escaped(self.lot.choice(few) if self.lot.random() < 0.7 else f"key{self.lot.randint(0, 400)}")

    def bytes(self) -> str:
        return "bytes : " + self.operations(
            ["new", "with=N", "from=X", "elem=B,N", "array", "resize=B,N", "push=B", "push=B", "push=B", "extend=X", "extend=X", "append=X",
             "insert=N,B", "remove=N", "pop", "truncate=N", "clear", "reserve=N", "reserved=B", "dedup", "sort", "get=N", "first", "same=X", "utf8",
             "debug", "with=G", "reserve=G", "elem=B,0"])

    def words(self) -> str:
        return "words : " + self.operations(
            ["push=T", "push=T", "push=T", "front=T", "extend=L", "extend=L", "append=L", "with=N", "reserve=N", "truncate=N", "clear",
             "sort", "dedup", "mark", "halve", "lengths", "long", "pop", "last", "same=L", "with=G", "reserve=G"])

    def string(self) -> str:
        return "string : " + self.operations(
            ["new", "with=N", "from=T", "print=T", "push=C", "push=C", "push_str=T", "push_str=T", "pop", "truncate=N", "clear", "reserve=N",
             "write=T,N", "writeln=T", "fail=T", "decode=U", "decode=X", "same=T", "bytes", "with=G", "reserve=G"])

    def tree(self) -> str:
        return "tree : " + self.operations(
            ["insert=K,N", "insert=K,N", "insert=K,N", "get=K", "set=K,N", "same=a-1,b-2", "same=a-1,b-1", "count", "take"], 20)

    def hash(self) -> str:
        return "hash : " + self.operations(["push=K,N", "push=K,N", "sum=K,N", "get=K", "with=N"], 20)

    def index(self) -> str:
        return "index : " + self.operations(
            ["insert=K,N", "insert=K,N", "insert_full=K,N", "get=K", "has=K", "full=K", "place=K", "at=N", "set=K,N", "count"], 20)

    def set(self) -> str:
        return "set : " + " ".join(self.key() or "%e" for _ in range(self.lot.randint(1, 60)))

    def shared(self) -> str:
        return "shared : " + self.operations(["new=T", "share=N", "share=0", "push=N,T", "push=0,T", "unwrap", "drop"])

    def sorted(self) -> str:
        count = self.lot.choice([0, 1, 2, 3, 5, 19, 20, 21, 22, 40, 70, 200])
        most = self.lot.choice([1, 2, 4])
        return "sorted : " + " ".join("abcdefg"[self.lot.randrange(7)] * self.lot.randint(1, most) + str(n % 10) for n in range(count))

    def json(self) -> str:
        return "json : " + self.operations(
            ["null", "bool=true", "bool=false", "size=G", "u64=G", "u32=G", "text=T", "text=T", "array=N", "object=L", "empty"])

    def texts(self) -> str:
        name = self.lot.choice(["text", "ends", "splits", "chars", "part", "replace", "utf8"])
        if name == "text":
            form = self.lot.choice(["plain", "right", "left", "middle", "cut", "filled", "debug", "string", "chars"])
            return f"text : {form} {self.word()}"
        if name == "ends":
            text = self.text(12)
            at = sorted((self.lot.randint(0, len(text)), self.lot.randint(0, len(text))))
            part = text[at[0]:at[1]] if self.lot.random() < 0.8 else self.text(2)
            return f"ends : {escaped(text)} {escaped(part)}"
        if name == "splits":
            text = self.text(12)
            return f"splits : {escaped(text)} {escaped(self.lot.choice(text or 'a'))}"
        if name == "chars":
            return f"chars : {self.word(12)}"
        if name == "part":
            return f"part : {self.word(6)} {self.lot.randint(0, 9)} {self.lot.randint(0, 14)}"
        if name == "replace":
            part = self.lot.choice(["a", "ab", "aa", "aba", "é", "", "abc"])
            text = "".join(self.lot.choice(["a", "b", "é", "ab"]) for _ in range(self.lot.randint(0, 12)))
            return f"replace : {escaped(text)} {escaped(part)} {self.word(3)}"
        return f"utf8 : {self.hex(8, BYTES) or '%e'}"

    def formats(self) -> str:
        name = self.lot.choice(["number", "debug", "pieces", "parse", "sums"])
        if name == "number":
            return f"number : {self.lot.choice(['number', 'signed', 'hex', 'wide', 'owned', 'option'])} {self.number()}"
        if name in ("debug", "pieces"):
            return f"{name} : {self.lot.randint(0, 40)} {self.word()}"
        if name == "parse":
            text = self.lot.choice(["", "+", "-"]) + self.lot.choice(["", "0", "00"]) + str(self.number(300)) + self.lot.choice(["", "", "a", "0"])
            return f"parse : {text if self.lot.random() < 0.8 else self.word(3)}"
        return f"sums : {self.number()} {self.number()}"

    def searches(self) -> str:
        few = [self.lot.randrange(256) for _ in range(4)] + [0, 128]
        name = self.lot.choice(["memchr", "memchr", "lanes"])
        return f"{name} : {self.hex(70, few) or '%e'} {self.hex(3, few) or '%e'}"

    def digests(self) -> str:
        name = self.lot.choice(["sha256", "sha256_of", "hex"])
        if name == "sha256":
            return f"sha256 : {self.lot.randint(0, 700)} {self.lot.randrange(256)}"
        return f"{name} : {self.word(12) if name == 'sha256_of' else self.hex() or '%e'}"

    def streams(self) -> str:
        name = self.lot.choice(["read", "read", "write", "print", "slice"])
        if name == "slice":
            return f"slice : {','.join(str(self.lot.randint(0, 9)) for _ in range(self.lot.randint(1, 5)))} {self.hex() or '%e'}"
        steps = ",".join(self.lot.choice(["1", "2", "3", "9", "i", "0", "x"][:self.lot.choice([5, 6, 7])]) for _ in range(self.lot.randint(0, 6)))
        return f"{name} : {steps or '%e'} {self.word() if name == 'print' else self.hex() or '%e'}"

    def file(self) -> str:
        return "file : " + escaped(self.lot.choice(paths(self.folder)))

    def line(self) -> str:
        common = [self.bytes, self.words, self.string, self.tree, self.hash, self.index, self.shared, self.json, self.texts, self.formats]
        rare = [self.set, self.sorted, self.searches, self.digests, self.streams]
        if self.lot.random() < 0.01:
            return self.file()
        return self.lot.choice(common * 2 + rare)()


def escaped(text: str) -> str:
    """A text as a word of a case. The words `=>` and `:` and the beginnings of repetitions mean something else there."""
    text = text.replace("%*", "%").replace("%+", "%")
    return "".join(ESCAPES.get(letter, letter) for letter in text) or "%e"


def paths(folder: str) -> list[str]:
    names = ["empty", "small", "large", "latin", "folder", "folder/", "folder/inner", "loop", "loop/x", "dangling", "link", "small/x", "none",
             "none/x", "closed", "n" * 255, "n" * 256, "./" * 300 + "small", "a\x00b", "run", "é"]
    return [f"{folder}/{name}" for name in names] + ["", ".", "/", "/dev/null"]


def fixed(folder: str) -> list[str]:
    """The lines that are always there."""
    lines = [f"class : {first} 512" for first in range(0, 0x110200, 512)]
    lines += [f"kind : {number}" for number in range(140)]
    lines += [f"sha256 : {length} {length % 7}" for length in list(range(0, 200)) + [511, 512, 513, 1 << 14]]
    lines += [f"file : {escaped(path)}" for path in paths(folder)]
    lines += [f"var : {name}" for name in
              ["HOME", "HOM", "HOMEX", "UNSET", "EMPTY", "LATIN", "EQUALS", "EQUALS=a", "LONG", "%e", "=", "A=B", "EMPTY=", "a\x00b"]]
    return lines + ["args"]


def main() -> None:
    seed, count, folder = sys.argv[1], int(sys.argv[2]), sys.argv[3]
    draw = Draw(seed, folder)
    lines = fixed(folder) + [draw.line() for _ in range(count)]
    sys.stdout.buffer.write(("".join(f"{line}\n" for line in lines) + "status 7\n").encode())


main()
