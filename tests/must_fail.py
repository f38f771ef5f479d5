#!/usr/bin/env python3
"""Tries the wrong bodies, crates/NAME/must-fail/*.edit and crates/NAME/wrong-bodies/*.edit: the prover has to reject each.

Usage: tests/must_fail.py [CRATE..]                   all crates, or those named; proves first the libraries below that aren't kept
       tests/must_fail.py CRATE/NAME..                these wrong bodies alone
       tests/must_fail.py --right [CRATE..]           the control: the same functions with their right bodies, none of which may count as
                                                      rejected
       tests/must_fail.py --gate FOLDER LOG           beside an `rt ci` that runs in FOLDER and writes to LOG; there is a file
                                                      LOG.status once it has ended

The kit's own gate, `rt ci`, tries those in must-fail one after the other, each in a check of the whole crate. So that folder has one
wrong body for a public function, and wrong-bodies has the others. This script tries all of a crate in one check. The result is the same: a
function is proved against the contracts of what it calls, never against their bodies, so a wrong body can't make another function's proof
fail.

- So that nothing of the other functions is read or proved again, these have no bodies there, and a hole for a proof. A wrong body that
  isn't rejected so is tried again with all of the crate.
- The check names functions that call a wrong one, and that doesn't count as a rejection.
- If a wrong body doesn't compile, the check tries none of its crate. Then each half is tried alone, down to that one, which is a BAD EDIT.
- A second edit of a function is tried as a function of its own beside it, with another name. If it's a method, or if it has written
  answers, it takes another check. An edit of a definition is tried alone.

An edit has lines 'file:', 'old:' and 'new:', and a line 'refused:' with the function whose goals have to stay open, by its path
in the crate. An edit fails if another function rejects it, if it can't be read, or if it is rejected only because a proof names
something that it removed.

tests/must_fail.tried has a digest of each crate whose wrong bodies were all rejected: of its sources and wrong bodies, and of the
sources below. The gate tries the wrong bodies of every crate with another digest, and twenty of the others, drawn by the commit's hash,
so that a false record is found out. With BODIES=all in the environment, and without --gate, it tries all. A run that tried all of a
crate's, all rejected, writes the record anew: in this folder, or in the file that RECORD names.

RT_JOBS is the number of checks at a time, by default the number of processors. Beside `rt ci`, about half as many run until it has
ended, for the memory of both. The last line is 'N passed, M failed'.
"""

import glob
import hashlib
import os
import random
import re
import resource
import subprocess
import sys
import tempfile
import threading
import time
from concurrent.futures import ThreadPoolExecutor
from typing import Any, Callable, Dict, List, Optional, Tuple

import kept
from kept import PARTS, rtlib

TOP = os.path.realpath(f"{os.path.dirname(os.path.realpath(__file__))}/..")
RECORD = f"{TOP}/tests/must_fail.tried"
# Where a crate's wrong bodies are. `rt ci` tries the first folder's.
FOLDERS = ("must-fail", "wrong-bodies")
# How many wrong bodies the gate draws from the crates that haven't changed.
DRAWN = 20
# The check's message for a proof that names something that an edit removed.
NAMES_WHAT_WENT = re.compile(r"has no field|is not in scope|has no `|was not admitted|is not admitted")


# A crate's files, by their paths below it; a function in one, as a file, a first and a last line; whether a wrong body is rejected, and the
# message to print.
Texts = Dict[str, str]
Place = Tuple[str, int, int]
Verdict = Tuple[bool, str]


class WrongBody:
    """An edit: the function that the prover has to reject, and the texts to replace, each with its file."""

    is_right = False

    def __init__(self, crate: str, file: str):
        self.name, self.function = f"{crate}/{os.path.basename(file)}", ""
        self.pairs: List[Tuple[str, str, str]] = []
        path = old = ""
        with open(file, encoding="utf-8") as lines:
            for line in lines.read().split("\n"):
                if line.startswith("refused: "):
                    self.function = line.removeprefix("refused: ")
                elif line.startswith("file: "):
                    path = line.removeprefix("file: ")
                elif line.startswith("old: "):
                    old = line.removeprefix("old: ")
                elif line.startswith("new:"):
                    self.pairs.append((path, old, line.removeprefix("new:").removeprefix(" ")))

    def edited(self, texts: Texts) -> Optional[Texts]:
        """Returns the files' texts with this edit, or None if an 'old:' text isn't in its file exactly once."""
        texts = dict(texts)
        for path, old, new in self.pairs:
            if not old or texts.get(path, "").count(old) != 1:
                return None
            texts[path] = texts[path].replace(old, new)
        return texts

    def bodies(self, texts: Texts) -> Optional[List[Place]]:
        """Returns where the edited functions are, each as a file, a first and a last line, or None if it edits anything but a
        function with the rejected one's name. (An edit keeps line numbers: both of its texts are one line.)"""
        head = rf"^( *)(?:pub(?:\(\w+\))? )?fn {re.escape(self.function.split('::')[-1])}\b"
        found: List[Place] = []
        for path, old, _ in self.pairs:
            text = texts.get(path, "")
            at = text.find(old)
            ends = [(it.start(), text.find(f"\n{it[1]}}}\n", it.start()) + 1) for it in re.finditer(head, text, re.M)]
            around = [it for it in ends if it[0] <= at < it[1]]
            if not around:
                return None
            found.append((path, text.count("\n", 0, around[0][0]) + 1, text.count("\n", 0, around[0][1]) + 1))
        return found

    def is_of_table(self) -> bool:
        """Returns whether it edits the entries of an option table. Only the function that answers the table sees them: other functions
        know them by its contract."""
        return self.function.endswith("::table") and all(path.startswith("src/") for path, _, _ in self.pairs)


class Beside(WrongBody):
    """A wrong body of a function outside `impl` blocks that has no written answers, as a function beside the right one."""

    def __init__(self, body: WrongBody, texts: Texts, number: int):
        self.name, self.pairs, self.body, self.is_right = body.name, body.pairs, body, body.is_right
        name = body.function.split("::")[-1]
        self.function = f"{body.function}_{number}"
        (self.path, first, last), *_ = body.bodies(texts) or []
        lines = (body.edited(texts) or texts)[self.path].split("\n")
        self.text = "\n".join(lines[first - 1:last]).replace(f"fn {name}", f"fn {name}_{number}", 1)

    def edited(self, texts: Texts) -> Optional[Texts]:
        return {**texts, self.path: f"{texts[self.path]}\n{self.text}\n"}

    def bodies(self, texts: Texts) -> Optional[List[Place]]:
        return self.body.bodies(texts)

    @staticmethod
    def fits(body: WrongBody, texts: Texts) -> bool:
        """Returns whether a wrong body can be tried so."""
        places, folder = body.bodies(texts), f"proofs/{body.function.replace('::', '/')}/"
        name = body.function.split("::")[-1]
        return bool(places) and len(set(places or [])) == 1 and not any(it.startswith(folder) for it in texts) and all(
            body.function == f"{module_of(path)}{name}" and re.match(r"(pub(\(\w+\))? )?fn ", texts[path].split("\n")[first - 1])
            for path, first, _ in places or []
        )


class RightBody(WrongBody):
    """The function of a wrong body with the body that it has."""

    is_right = True

    def edited(self, texts: Texts) -> Optional[Texts]:
        return texts


def texts_of(folder: str) -> Texts:
    """Returns the texts of a crate's sources, definitions and proofs, by their paths below the crate."""
    texts: Texts = {}
    for part in PARTS:
        for at, _, names in os.walk(f"{folder}/{part}"):
            for name in names:
                with open(f"{at}/{name}", encoding="utf-8") as it:
                    texts[os.path.relpath(f"{at}/{name}", folder)] = it.read()
    return texts


def wrong_bodies(crate: str, kind: Callable[[str, str], WrongBody] = WrongBody) -> List[WrongBody]:
    return [kind(crate, it) for folder in FOLDERS for it in sorted(glob.glob(f"{TOP}/crates/{crate}/{folder}/*.edit"))]


def module_of(path: str) -> str:
    """Returns the path in the crate of the module in a source file."""
    inside = path.removeprefix("src/").removesuffix(".rt")
    return "" if inside in ("lib", "main") else f"{inside.replace('/', '::')}::"


def modules_of_types(texts: Texts) -> Dict[str, str]:
    """Returns the modules of a crate's structs and enums, by their names."""
    declared = re.compile(r"^(?:pub(?:\(\w+\))? )?(?:struct|enum) (\w+)", re.M)
    return {it: module_of(path) for path, text in texts.items() if path.startswith("src/") for it in declared.findall(text)}


def body_of(lines: List[str], at: int, indent: str) -> Optional[Tuple[int, int]]:
    """Returns the lines of the braces around the body of the function whose head is at a line, as `rt fmt` lays it out, or None if the
    function has no body, or one without lines."""
    for first in range(at, len(lines)):
        line = lines[first]
        if line == f"{indent}{{" or line.endswith(" {") and (first == at or line.startswith(f"{indent})")):
            return first, lines.index(f"{indent}}}", first)
        if line in ("", f"{indent}{{}}") or line.endswith(";"):
            return None
    return None


def functions_of(path: str, lines: List[str], types: Dict[str, str]) -> List[Tuple[str, int, Tuple[int, int]]]:
    """Returns the functions with a body in a source file, in their order: the path in the crate, the line of the head, and the lines of the
    braces around the body. Functions of traits, and those that another crate's type has, aren't among them."""
    found: List[Tuple[str, int, Tuple[int, int]]] = []
    owner: Optional[str] = module_of(path)
    for at, line in enumerate(lines):
        inherent = re.match(r"impl(?:<.*>)? (\w+)(?:<.*>)? \{$", line)
        if inherent and inherent[1] in types:
            owner = f"{types[inherent[1]]}{inherent[1]}::"
        elif re.match(r"(pub(\(\w+\))? )?(impl|trait)\b", line):
            owner = None
        elif line == "}":
            owner = module_of(path)
        head = re.match(r"( *)(?:pub(?:\(\w+\))? )?fn (\w+)\b", line)
        body = body_of(lines, at, head[1]) if head and owner is not None else None
        if head and body:
            found.append((f"{owner}{head[2]}", at, body))
    return found


def without_bodies(path: str, text: str, types: Dict[str, str], tested: List[str]) -> Tuple[str, List[str]]:
    """Returns a source file's text without the bodies of its functions, but for the tested ones, and these functions' paths in the crate.
    Functions of traits, and those that another crate's type has, keep theirs."""
    lines, left, behind = text.split("\n"), [], 0  # type: List[str], List[str], int
    found = [it for it in functions_of(path, lines, types) if it[0] not in tested]
    for _, _, (first, last) in found:
        indent = lines[last].removesuffix("}")
        left += [*lines[behind:first + 1], f"{indent}    loop {{}}"]
        behind = last
    return "\n".join([*left, *lines[behind:]]), [function for function, _, _ in found]


def with_holes(crate: str, texts: Texts, tested: List[str]) -> Texts:
    """Returns a crate's texts in which functions other than these have no bodies, and holes for proofs: their contracts are all that
    others need of them."""
    types, holed = modules_of_types(texts), dict(texts)
    for path in [it for it in texts if it.startswith("src/")]:
        holed[path], found = without_bodies(path, texts[path], types, tested)
        for function in found:
            folder, name = f"proofs/{function.replace('::', '/')}", function.split("::")[-1]
            for file in ("Answers", "Invariants"):
                holed.pop(f"{folder}/{file}.antt", None)
            stated = f"use Rattle.{crate}.proofs.{function.replace('::', '.')}.Statement as stated\n"
            holed[f"{folder}/Proof.antt"] = f"{stated}\npub {name}_spec : {{M : Type 1}} → stated.statement M\n{name}_spec = ?\n"
    return holed


def tried_together(left: List[WrongBody], texts: Texts) -> Tuple[List[WrongBody], Optional[Texts]]:
    """Returns those of these wrong bodies that one check can try, and the crate's texts with them. If the first can't be tried, returns
    it alone, and None."""
    if left[0].edited(texts) is None:
        return [left[0]], None
    together: List[WrongBody] = []
    edited = texts
    for it in left:
        same = [other.function for other in together].count(it.function)
        same += sum(isinstance(other, Beside) and other.body.function == it.function for other in together)
        if same and Beside.fits(it, texts):
            it = Beside(it, texts, same + 1)
        with_it = it.edited(edited)
        if with_it is None or it.function in [other.function for other in together]:
            continue
        if it.bodies(texts) or it.is_of_table():
            together, edited = [*together, it], with_it
        elif not together:
            return [it], with_it
    return together, edited


def said_of(room: str, crate: Any, words: List[str], functions: List[str]) -> List[str]:
    """Runs `rattle check` with these words on the crate's texts in this folder. Returns what it prints, up to its suggestions for open
    goals if it says of each of these functions whether it is proved."""
    lines: List[str] = []
    waited = {f"fn {crate.name}::{it}" for it in functions}
    with kept.started("check", [*crate.words(["--jobs", "1"], keeps=False), *words], room) as check:
        for line in check.stdout or []:
            lines.append(line.rstrip("\n"))
            waited.discard(line.partition(": ")[0])
            if functions and not waited:
                check.kill()
                break
    return lines


def judged(crate: str, body: WrongBody, texts: Texts, lines: List[str]) -> Verdict:
    """Returns whether a goal of its own function rejects a wrong body, and the message to print."""
    named = f"fn {crate}::{body.function}: "
    status = next((it.removeprefix(named) for it in lines if it.startswith(named)), "")
    if re.search(r"`search` did not prove `", status):
        return True, f"refused by {body.function}: {status.partition('`search` did not prove ')[2].partition(';')[0]}"
    # a new goal from the edit, in a function with a written proof
    for path, first, last in body.bodies(texts) or []:
        for it in lines:
            open_goal = re.match(rf"note: {re.escape(path)}:(\d+):\d+: it is not proved that .*\((`[^`]*`)\)", it)
            if status.startswith("not proved") and open_goal and first <= int(open_goal[1]) <= last:
                return True, f"refused by {body.function}: {open_goal[2]}"
    # a written proof that doesn't prove the new goal; of a definition, an example that it doesn't meet
    places = [f"proofs/{body.function.replace('::', '/')}/"] + ["specs/"] * any(path.startswith("specs/") for path, _, _ in body.pairs)
    errors = [it for it in lines if re.match(rf"(\./)?({'|'.join(map(re.escape, places))})\S+: error", it)]
    if status.startswith("not proved") and any(not NAMES_WHAT_WENT.search(it) for it in errors):
        return True, f"refused by {body.function}: {errors[0][:160]}"
    if not status:
        return False, f"BAD EDIT: no proof of {body.function} was tried: {' / '.join(lines[:3])[:400]}"
    return False, f"NOT REFUSED by {body.function}: {status[:200]} {' '.join(errors)[:200]}"


class Attempt:
    """Wrong bodies of a crate that one run tries together, and the crate's texts without and with them. Without the latter, they
    can't be tried."""

    def __init__(self, crate: Any, bodies: List[WrongBody], texts: Texts, edited: Optional[Texts]):
        self.crate, self.bodies, self.texts, self.edited = crate, bodies, texts, edited

    @staticmethod
    def write(room: str, texts: Texts) -> None:
        for path, text in texts.items():
            os.makedirs(os.path.dirname(f"{room}/{path}"), exist_ok=True)
            with open(f"{room}/{path}", "w", encoding="utf-8") as it:
                it.write(text)

    @staticmethod
    def with_all(bodies: List[WrongBody], texts: Texts) -> Optional[Texts]:
        """Returns these texts with these wrong bodies, or None if they lack what one replaces."""
        edited: Optional[Texts] = texts
        for it in bodies:
            edited = it.edited(edited) if edited else None
        return edited

    def checked(self, bodies: List[WrongBody], texts: Texts, words: List[str]) -> List[Verdict]:
        """Checks the functions of these wrong bodies, with all of these in a crate of these texts."""
        functions, edited = [it.function for it in bodies], self.with_all(bodies, texts)
        if edited is None:
            return [(False, "BAD EDIT: it edits more than its function") for _ in bodies]
        with tempfile.TemporaryDirectory(prefix="must-fail-") as room:
            self.write(room, edited)
            lines = said_of(room, self.crate, [*words, *[word for it in functions for word in ("--only", it)]], functions)
        if len(bodies) > 1 and not any(it.startswith(f"fn {self.crate.name}::") for it in lines):
            # (one doesn't compile, so none was tried: find it by halves)
            middle = len(bodies) // 2
            return [*self.checked(bodies[:middle], texts, words), *self.checked(bodies[middle:], texts, words)]
        return [judged(self.crate.name, it, texts, lines) for it in bodies]

    def holed(self, bodies: List[WrongBody]) -> Texts:
        """Returns the crate's texts without what other functions than these wrong bodies' have."""
        return with_holes(self.crate.name, self.texts, [it.function for it in bodies])

    def checked_twice(self, bodies: List[WrongBody]) -> List[Verdict]:
        """Checks the functions of these wrong bodies without the others, and then with these if that doesn't reject one."""
        found = self.checked(bodies, self.holed(bodies), ["--allow-holes"])
        left = [it for it, (is_refused, _) in zip(bodies, found) if not is_refused]
        again = iter(self.checked(left, self.texts, []) if left else [])
        return [verdict if verdict[0] else next(again) for verdict in found]

    def verdicts(self) -> List[Verdict]:
        """Tries them. Returns for each whether it is rejected, and the message to print."""
        if not self.edited:
            return [(False, "BAD EDIT: an 'old:' text isn't in its file exactly once") for _ in self.bodies]
        if self.bodies[0].is_right:
            found = self.checked(self.bodies, self.holed(self.bodies), ["--allow-holes"])
            return [(why.startswith("NOT REFUSED"), f"with its right body: {why}") for _, why in found]
        return self.checked_twice(self.bodies)

    def judge(self, say: Callable[[str], None]) -> Tuple[int, int]:
        """Tries them. Returns how many are rejected and how many aren't."""
        verdicts = self.verdicts()
        for body, (_, why) in zip(self.bodies, verdicts):
            say(f"must-fail {body.name}: {why}")
        refused = sum(is_refused for is_refused, _ in verdicts)
        return refused, len(verdicts) - refused


def attempts_of(crate: Any, left: List[WrongBody]) -> List[Attempt]:
    """Returns these wrong bodies of a crate as attempts."""
    texts, attempts = texts_of(crate.folder), []
    while left:
        together, edited = tried_together(left, texts)
        attempts.append(Attempt(crate, together, texts, edited))
        tried = [it.body if isinstance(it, Beside) else it for it in together]
        left = [it for it in left if it not in tried]
    return attempts


class Record:
    """The digests of the crates whose wrong bodies were all rejected, as a file keeps them."""

    def __init__(self, file: str):
        self.file, self.digests = file, {}  # type: str, Dict[str, str]
        if os.path.isfile(file):
            with open(file, encoding="utf-8") as lines:
                self.digests = {name: digest for name, digest in (it.split() for it in lines)}

    def holds(self, crate: Any) -> bool:
        return self.digests.get(crate.name) == digest_of(crate)

    def write(self, crates: List[Any]) -> None:
        """Writes the file anew, with these crates' digests of today."""
        self.digests.update((it.name, digest_of(it)) for it in crates)
        there = [it for it in sorted(self.digests) if wrong_bodies(it)]
        with open(self.file, "w", encoding="utf-8") as it:
            it.writelines(f"{name} {self.digests[name]}\n" for name in there)


def digest_of(crate: Any) -> str:
    """Returns the digest of a crate's sources and wrong bodies, and of the sources below. A copy has no wrong bodies, so these are read
    here."""
    with_bodies = "".join(f"{it.name}{it.function}{it.pairs}" for it in wrong_bodies(crate.name))
    return hashlib.sha256((kept.digest_of(crate) + with_bodies).encode()).hexdigest()


def commit() -> str:
    return subprocess.run(["git", "rev-parse", "HEAD"], cwd=TOP, stdout=subprocess.PIPE, text=True, check=True).stdout.strip()


def chosen(crates: List[Any], record: Record) -> Dict[str, List[WrongBody]]:
    """Returns the wrong bodies that the gate tries, by crate: all of the crates that changed since the record, and some of the others,
    drawn by the commit's hash."""
    changed = [it for it in crates if os.environ.get("BODIES") == "all" or not record.holds(it)]
    bodies = {it.name: wrong_bodies(it.name) for it in crates if it in changed}
    others = [(it.name, body) for it in crates if it not in changed for body in wrong_bodies(it.name)]
    hashed = commit()
    for name, body in random.Random(hashed).sample(others, min(DRAWN, len(others))):
        bodies.setdefault(name, []).append(body)
    count, drawn = sum(len(wrong_bodies(it.name)) for it in changed), min(DRAWN, len(others))
    print(f"all {count} wrong bodies of {len(changed)} changed crates, {drawn} of the other {len(others)}, drawn by {hashed[:12]}", flush=True)
    return bodies


def is_proved(crate: str, logged: str) -> bool:
    """Returns whether `rt ci` has logged that a crate is proved, or that it took the proof of an earlier run."""
    return bool(re.search(rf"^rt: {crate} (proved$|is kept: )", logged, re.M))


class Queue:
    """The attempts that are left. Those with most libraries below come first: they take longest, and would else be left alone at the
    end. With the log of `rt ci`, an attempt waits until its crate is proved."""

    def __init__(self, attempts: List[Attempt], log: str, say: Callable[[str], None]):
        self.attempts, self.log, self.say, self.lock = attempts, log, say, threading.Lock()
        self.refused = self.failed = 0
        self.doubtful: set[str] = set()

    def logged(self) -> str:
        if not self.log:
            return ""
        with open(self.log, encoding="utf-8", errors="replace") as it:
            return it.read()

    def next(self, logged: str) -> Optional[Attempt]:
        """Takes the first attempt whose crate is proved, by what was logged. Returns None if there is none."""
        with self.lock:
            found = next((it for it in self.attempts if not self.log or is_proved(it.crate.name, logged)), None)
            if found:
                self.attempts.remove(found)
            return found

    def count(self, crate: str, refused: int, failed: int) -> None:
        with self.lock:
            self.refused, self.failed = self.refused + refused, self.failed + failed
            self.doubtful |= {crate} if failed else set()

    def give_up(self) -> None:
        """Counts what is left when `rt ci` has ended: its crates aren't proved."""
        with self.lock:
            left, self.attempts = self.attempts, []
        for it in left:
            self.say(f"must-fail {it.crate.name}: not tried, the crate isn't proved")
            self.count(it.crate.name, 0, len(it.bodies))

    def work(self, waits: bool) -> None:
        """Tries one attempt after the other. A worker that waits begins when `rt ci` has ended."""
        while self.attempts:
            # (it ends first, and then what it logged last is read)
            has_ended = not self.log or os.path.exists(f"{self.log}.status")
            logged = self.logged()
            attempt = None if waits and not has_ended else self.next(logged)
            if attempt:
                self.count(attempt.crate.name, *attempt.judge(self.say))
            elif has_ended:
                self.give_up()
            else:
                time.sleep(1)


def main(words: List[str]) -> int:
    folder, log = (words[1], words[2]) if words[:1] == ["--gate"] and len(words) == 3 else (TOP, "")
    right = words[:1] == ["--right"]
    asked = [] if log else [it.removesuffix(".edit") for it in words[right:]]
    all_bodies = {it: wrong_bodies(it, RightBody if right else WrongBody) for it in os.listdir(f"{TOP}/crates")}
    # a crate that is asked for has all of its own
    wanted = {crate: [it for it in found if not asked or {crate, it.name.removesuffix(".edit")} & {*asked}] for crate, found in all_bodies.items()}
    crates = [it for it in rtlib.crates_below(os.path.realpath(folder)) if wanted.get(it.name)]
    names = {name for crate, found in all_bodies.items() for it in found for name in (crate, it.name.removesuffix(".edit"))}
    if not crates or {*asked} - names:
        print(__doc__, file=sys.stderr)
        return 2
    crates.sort(key=lambda it: len(it.below()), reverse=True)
    # (it ends what it started when this program ends; its first call sets a signal's handler, which only the main thread may)
    rtlib.guarded()
    printing = threading.Lock()

    def say(text: str) -> None:
        with printing:
            print(text, flush=True)

    number = os.environ.get("RT_JOBS", "")
    jobs = int(number) if number.isdigit() else len(os.sched_getaffinity(0))
    if not log and not kept.build_below(crates, jobs, say):
        print("a library below can't be proved", file=sys.stderr)
        return 2
    record = Record(RECORD)
    bodies = chosen(crates, record) if log else {it.name: wanted[it.name] for it in crates}
    queue = Queue([attempt for it in crates if bodies.get(it.name) for attempt in attempts_of(it, bodies[it.name])], log, say)
    with ThreadPoolExecutor(jobs) as lanes:
        for it in [lanes.submit(queue.work, bool(log) and it >= (jobs + 2) // 2) for it in range(jobs)]:
            it.result()
    # in the gate, only a file elsewhere: what is tested stays as it is
    record.file = os.environ.get("RECORD") or ("" if log or right else RECORD)
    if record.file:
        record.write([it for it in crates if it.name not in queue.doubtful and len(bodies.get(it.name, [])) == len(wrong_bodies(it.name))])
    used = resource.getrusage(resource.RUSAGE_CHILDREN)
    print(f"{'right' if right else 'wrong'} bodies took {(used.ru_utime + used.ru_stime) / 60:.1f} minutes of processor")
    print(f"{queue.refused} passed, {queue.failed} failed")
    return 1 if queue.failed or not queue.refused else 0


if __name__ == "__main__":
    sys.exit(main(sys.argv[1:]))
