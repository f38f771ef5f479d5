"""Writes pairs of dry runs by lot into a room of tests/callers/room.sh, made of its own ones by an edit of one run or of both, and prints a row as in
misuses.txt for each: mutated.py ROOM SEED COUNT."""

import random
import sys
from pathlib import Path


def mutated(text: bytes, others: list[bytes], lot: random.Random) -> bytes:
    """A text with a line or a word left out, twice, elsewhere or another one, with another byte, or cut off; or another text."""
    mark = lot.choice([b"\n", b"\n", b" "])
    parts = text.split(mark)
    one, other = lot.randrange(len(parts)), lot.randrange(len(parts))
    what = lot.randrange(7)
    if what == 0:
        del parts[one]
    elif what == 1:
        parts.insert(other, parts[one])
    elif what == 2:
        parts[one], parts[other] = parts[other], parts[one]
    elif what == 3:
        parts[one] = parts[one].replace(b"kernel", b"other")
    elif what == 4:
        parts[one] = bytes([lot.randrange(256)]) + parts[one][1:]
    elif what == 5:
        return text[: lot.randrange(len(text))]
    else:
        return lot.choice(others)
    return mark.join(parts)


def main() -> None:
    room, seed, count = Path(sys.argv[1]), sys.argv[2], int(sys.argv[3])
    right = [(room / f"one.dry{run}").read_bytes() for run in (1, 2)]
    others = [(room / f"{name}.dry{run}").read_bytes() for name in ("two", "ptx") for run in (1, 2)]
    for number in range(count):
        changed = random.Random(f"{seed} {number}").choice([(0,), (1,), (0, 1)])
        for run in changed:
            # (the same edit of both, where both are changed)
            text = mutated(right[run], others, random.Random(f"{seed} {number} edit"))
            (room / f"lot{number}.dry{run + 1}").write_bytes(text)
        print(f"lot{number} t", *(f"{f'lot{number}' if run in changed else 'one'}.dry{run + 1}" for run in (0, 1)), "- - - one.own usual.words")


if __name__ == "__main__":
    main()
