"""All that the Python layer says of the rows of misuses.txt, as answers.c prints it: answers.py ROOM < misuses.txt, or
answers.py --call TMP NVCC WORD.."""

import os
import sys
from pathlib import Path
from typing import Callable, Iterable, Optional, Sequence, Union

import zigrunk

FORMS = ("json", "ninja", "shell", "text", "none")


ESCAPES = {it: chr(it) if 32 < it < 127 and it != 92 else f"\\{it:02x}" for it in range(256)}


def print_texts(name: str, texts: Iterable[Union[str, bytes]]) -> None:
    for text in texts:
        data = text if isinstance(text, bytes) else os.fsencode(text)
        print(name, data.decode("latin-1").translate(ESCAPES))


def print_run(name: str, run: Optional[zigrunk.Run]) -> None:
    print(name)
    if run:
        print_texts(" word", run.words)
        print_texts(" variable", (f"{key}={value}" for key, value in run.environment.items()))
        print_texts(" cwd", [run.cwd])


def print_refusal(error: zigrunk.ZigrunkError) -> None:
    print("refused", int(error.status), int(error.input or 0), error.line or 0)
    print_texts("message", [str(error)])


def print_call(call: zigrunk.Call) -> None:
    for name, run in zip(("own", "first", "second", "dependencies"), (*call.dry_runs, call.dependencies)):
        print_run(name, run)
    print_texts("flag", [call.flag])
    print_texts("no keep_dir" if call.keep_dir is None else "keep_dir", [call.keep_dir or ""])
    print_texts("input", [call.input])
    print_texts("output", call.outputs)
    print("jobs", call.jobs or 0)


def print_command(of: zigrunk.Command) -> None:
    print(f"command of {'no' if of.group is None else 'a'} group, {of.group or 0}, stage {int(of.stage)}, tool {int(of.tool)}, missing "
          f"{int(of.missing or 0)}, reason {int(of.reason or 0)}, run {of.dry_run}, line {of.line}, cacheable {int(of.cacheable)}, "
          f"preprocesses {int(of.preprocesses)}")
    print_texts(" word", of.words)
    print_texts(" variable", (f"{key}={value}" for key, value in of.environment.items()))
    for name, texts in ((" cwd", [of.cwd]), (" reads", of.reads), (" writes", of.writes), (" may write", of.may_write), (" target", of.targets)):
        print_texts(name, texts)
    for need in of.needs:
        print(" needs", need)


def print_line(of: zigrunk.Command) -> None:
    line = zigrunk.line_records(of.tool, of.cwd, of.words[1:])
    lists = (line.dependency_args, line.preprocessor_args, line.common_args, line.arch_args, line.unhashed_args,
             line.extra_dist_files, line.extra_hash_files)
    print_texts(" line", (line.input, line.compilation_flag, *(it.key for it in line.outputs), *(it.path for it in line.outputs)))
    for texts in lists:
        print_texts(" line", texts)
    print(" line of", int(line.language), int(line.color_mode), int(line.double_dash_input), int(line.outputs[0].optional))
    print_texts(" written", zigrunk.line_words(of.tool, of.cwd, of.words[1:]))
    print_texts(" own key", [zigrunk.command_key(of.tool, of.words, of.environment, [of.cwd])])


def print_table(call: zigrunk.Call, own: bytes, first: bytes, second: bytes, cwd: str) -> None:
    asked = zigrunk.lookups(first, second, cwd)
    print_texts("lookup", (text for it in asked for text in (it.program, it.path)))
    tried = [zigrunk.candidates(it, cwd) for it in asked]
    for paths in tried:
        print_texts("candidate", paths)
    programs = {it: paths[0] for it, paths in zip(asked, tried)}
    print_texts("text", [call.plan_of(own, first, second, programs).text("text")])
    call.plan_of(own, first, second, {**programs, asked[0]: None})


def print_plan(plan: zigrunk.Plan) -> None:
    for number, command in enumerate((*plan.commands, *plan.dropped)):
        print_command(command)
        if command.tool == zigrunk.Tool.CICC:
            print_line(command)
        if number < len(plan.commands):
            try:
                key = plan.key(number)
                print_texts(" key", [key.text, *key.tool_files])
            except zigrunk.ZigrunkError as error:
                print_refusal(error)
    for form in FORMS:
        try:
            print_texts(form, [plan.text(form)])
        except zigrunk.ZigrunkError as error:
            print_refusal(error)
    print_texts("renamed", zigrunk.remap(plan.commands[-1].words))
    print_texts("header", zigrunk.headers(b'# 1 "a.h"\n# 2 "k \\"b" 2\n# 3 "a.h"\n'))
    print_schedule(zigrunk.Schedule([plan], 2))
    print_failure(plan)


def print_schedule(schedule: zigrunk.Schedule) -> None:
    """Two slots, and the command that began first ends first."""
    running: list[int] = []
    while not schedule.over:
        for number in schedule.start_ready():
            print("start", number)
            running.append(number)
        schedule.ended(running.pop(0), zigrunk.Outcome.SUCCEEDED)
        print("told", schedule.told(0, len(schedule)).commands.stop)


def print_failure(plan: zigrunk.Plan) -> None:
    """One slot, and the third command fails."""
    schedule = zigrunk.Schedule([plan], 1)
    for number in schedule.start_ready():
        schedule.ended(number, zigrunk.Outcome.FAILED if number == 2 else zigrunk.Outcome.SUCCEEDED)
        print(f"alone {number}, told {schedule.told(0, len(schedule)).commands.stop}")
    try:
        schedule.ended(0)
        print("again 1")
    except zigrunk.ZigrunkError as error:
        print("again", int(error.status != zigrunk.Status.BAD_NUMBER))


def print_answer(name: str, function: Callable[[], Iterable[Union[str, bytes]]]) -> bool:
    """Prints what a function gives, or why it refuses."""
    try:
        print_texts(name, function())
        return True
    except zigrunk.ZigrunkError as error:
        print_refusal(error)
        return False


def print_own_words(words: Sequence[str]) -> None:
    if print_answer("quoted", lambda: [zigrunk.quote(words)]):
        print_answer("split", lambda: zigrunk.split(zigrunk.quote(words)))
    print_answer("other", lambda: zigrunk.remap(words, [".x.ii"]))


def print_alone(first: bytes, second: bytes, cwd: str, tmp: str, limit: int) -> None:
    """Two dry runs without their line, within a limit: the commands, with those that are dropped."""
    print(f"without a line, {limit}")
    try:
        plan = zigrunk.plan(first, second, cwd, tmp, "-c", {"ODD": "a b", "EMPTY": ""}, limit=limit)
    except zigrunk.ZigrunkError as error:
        return print_refusal(error)
    for command in (*plan.commands, *plan.dropped):
        print_command(command)
    print_answer("compdb", lambda: [plan.text("compdb")])


def print_called(room: Path, tmp: str, words: Sequence[str], runs: Sequence[bytes]) -> None:
    try:
        call = zigrunk.Call(str(room / "bin/nvcc"), words, os.environ, str(room / "w"), tmp)
        print_call(call)
        own, first, second = runs
        print_plan(call.plan_of(own, first, second))
        print_table(call, own, first, second, f"{room}/w")
    except zigrunk.ZigrunkError as error:
        print_refusal(error)


def print_row(room: Path, tmp: str, words: Sequence[str], runs: Sequence[bytes]) -> None:
    print_called(room, tmp, words, runs)
    for limit in (1 << 20, 1000):
        print_alone(runs[1], runs[2], f"{room}/w", tmp, limit)
    print_own_words(words)


def print_made(tmp: str, nvcc: str, words: Sequence[str]) -> None:
    try:
        call = zigrunk.Call(nvcc, words, os.environ, os.getcwd(), tmp)
        print_call(call)
        print_plan(call.plan())
    except zigrunk.ZigrunkError as error:
        print_refusal(error)


def main(arguments: Sequence[str]) -> None:
    if arguments[0] == "--call":
        return print_made(arguments[1], arguments[2], arguments[3:])
    room = Path(arguments[0])
    for row in sys.stdin:
        name, tmp, first, second, *_, own, words = row.split()
        print("==", name)
        line = os.fsdecode((room / words).read_bytes()).split("\0")[:-1]
        print_row(room, f"{room}/{tmp}", line, [(room / name).read_bytes() for name in (own, first, second)])


if __name__ == "__main__":
    main(sys.argv[1:])
