"""What one nvcc call really runs, by libzigrunk.

A `Call` is an nvcc line, the environment, and where it is made. `Call.plan` runs nvcc's dry runs, finds the programs that they name, and gives the
commands: those of the plan in its order, and those that it dropped, each with the reason. `plan` plans two dry runs without their line.

The module takes the shared object that the environment variable ZIGRUNK_LIBRARY names. If that isn't set, it looks for `libzigrunk.so.2` in its own
folder, in `lib` of the prefix that it is installed in, in `out/lib` of the repository, and then where the loader does. Texts are UTF-8; other bytes
of the system are in them as `os.fsdecode` has them. Any number of threads may call, but a schedule is for one at a time.
"""
from __future__ import annotations

import ctypes
import enum
import os
import sys
from dataclasses import dataclass
from typing import Any, Dict, Iterable, Iterator, List, Mapping, NamedTuple, Optional, Sequence, Tuple, Type, TypeVar, Union

__all__ = ["AfterFailure", "Call", "ColorMode", "Command", "HostCompiler", "Input", "Key", "Language", "Line", "Lookup", "Missing", "Outcome",
           "Output", "Plan", "PlanStatus", "Reason", "Run", "Schedule", "Stage", "Status", "Told", "Tool", "ZigrunkError", "candidates",
           "command_key", "headers", "line_records", "line_words", "lookups", "plan", "quote", "remap", "split", "version"]

# The numbers of zigrunk.h, which says what each is. What a later library has and this module doesn't know is a plain number.
Status = enum.IntEnum("Status", "OUT_OF_MEMORY NOT_UTF8 BAD_NUMBER OPEN_QUOTE BAD_DRY_RUN NOT_FOUND BAD_SUFFIXES UNWRITABLE BAD_LINE TO_NVCC "
                      "OVER_LIMIT NO_DRY_RUN ODD_DIRECTORY NVCC IO")
Input = enum.IntEnum("Input", "FIRST SECOND CWD TMP FLAG OWN VARIABLES SUFFIXES NVCC WORDS")
Tool = enum.IntEnum("Tool", "CICC PTXAS CUDAFE NVCC NVC NVCXX FATBINARY NVLINK HOST", start=0)
Language = enum.IntEnum("Language", "C CXX OBJC OBJCXX CUDA CUDAFE PTX CUBIN", start=0)
ColorMode = enum.IntEnum("ColorMode", "OFF ON AUTO", start=0)
HostCompiler = enum.IntEnum("HostCompiler", "GCC MSVC NVHPC", start=0)
Stage = enum.IntEnum("Stage", "FRONT DEVICE FINAL", start=0)
Reason = enum.IntEnum("Reason", "NOT_CUDA NO_CICC_GROUP NO_PTXAS_GROUP SUPERSEDED")
Missing = enum.IntEnum("Missing", "UNREAD HEADERS INPUTS")
AfterFailure = enum.IntEnum("AfterFailure", "START_NOTHING START_EARLIER GO_ON", start=0)
Outcome = enum.IntEnum("Outcome", "SUCCEEDED FAILED CANCELLED", start=0)
PlanStatus = enum.IntEnum("PlanStatus", "UNFINISHED ALL_SUCCEEDED ONE_FAILED", start=0)

_Number = TypeVar("_Number", bound=enum.IntEnum)
_Texts = Tuple[str, ...]
_ALL = ctypes.c_size_t(-1).value


class ZigrunkError(Exception):
    """A call is refused: its `status`, the `input` at fault, if one is, and the `line` of a dry run, from 1. After TO_NVCC, nvcc has to make it."""

    def __init__(self, status: int, message: str, input: Optional[int] = None,  # pylint: disable=redefined-builtin
                 line: Optional[int] = None) -> None:
        super().__init__(message)
        self.status, self.input, self.line = _known(Status, status), _known(Input, input) if input else None, line or None


class Run(NamedTuple):
    """A program to run, without a shell: its name or path and its words, its whole environment, and its directory."""
    words: _Texts
    environment: Dict[str, str]
    cwd: str


class Lookup(NamedTuple):
    """A program that a dry run names, and the value of PATH there."""
    program: str
    path: str


class Key(NamedTuple):
    """What a cache hashes of a command: this text, then the contents of the tool's files, and of what the command reads."""
    text: bytes
    tool_files: _Texts


class Output(NamedTuple):
    """A file that a line makes: `key` says what it is, as `obj`, and `optional` whether the command may leave it out."""
    key: str
    path: str
    optional: bool


class Told(NamedTuple):
    """The commands whose outputs may be printed, in this order, and how the plan has come out."""
    commands: range
    status: int


@dataclass(frozen=True)
class Command:
    """A command of a plan. Of one that was dropped, only its words, its place and the reason say something."""
    words: _Texts
    environment: Dict[str, str]
    cwd: str
    reads: _Texts  # the paths of the files that it reads by its words: see `missing`
    writes: _Texts
    may_write: _Texts
    targets: _Texts  # such as `compute_80`; those of a preprocessor are those of the cicc commands that read what it writes
    needs: Tuple[int, ...]  # the numbers of the commands that have to end before it starts, ascending
    group: Optional[int]
    dry_run: int  # 1 or 2
    line: int  # its line there, from 1
    stage: int
    tool: int
    missing: Optional[int]  # which files it touches that its words don't name
    reason: Optional[int]  # why it was dropped
    cacheable: bool
    preprocesses: bool


@dataclass(frozen=True)
class Line:
    """What a line of a tool says. Words are in the order of the line."""
    input: str
    compilation_flag: str
    outputs: Tuple[Output, ...]
    dependency_args: _Texts
    preprocessor_args: _Texts
    common_args: _Texts  # part of a cache key
    arch_args: _Texts  # part of one too
    unhashed_args: _Texts
    extra_dist_files: _Texts
    extra_hash_files: _Texts  # their contents are part of a cache key
    language: int
    color_mode: int
    double_dash_input: bool


class _Text(ctypes.Structure):
    _fields_ = [("bytes", ctypes.c_void_p), ("length", ctypes.c_size_t)]


class _List(ctypes.Structure):
    _fields_ = [("items", ctypes.POINTER(ctypes.c_void_p)), ("lengths", ctypes.POINTER(ctypes.c_size_t)), ("count", ctypes.c_size_t)]


_KINDS: Dict[str, Any] = {"text": _Text, "list": _List, "size": ctypes.c_size_t, "number": ctypes.c_uint32, "status": ctypes.c_int32,
                          "pointer": ctypes.c_void_p, "sizes": ctypes.POINTER(ctypes.c_size_t)}


def _record(name: str, fields: str) -> Any:
    """A record of zigrunk.h: its fields, each behind what it is."""
    words = fields.split()
    return type(name, (ctypes.Structure,), {"_fields_": [(field, _KINDS[kind]) for kind, field in zip(words[::2], words[1::2])]})


_Run = _KINDS["run"] = _record("_Run", "list words list environment text cwd")
_Error = _record("_Error", "pointer made status status number input size line text message")
_Answer = _record("_Answer", "pointer made list texts")
_NvccCall = _record("_NvccCall", "text nvcc list words list environment text cwd text tmp")
_Outline = _record("_Outline", "run own run first run second run dependencies text flag text keep_dir text input list outputs size jobs")
_Program = _record("_Program", "text program text path text found")
_DryRuns = _record("_DryRuns", "text own text first text second pointer programs size count size limit")
_PlanCall = _record("_PlanCall", "text dry1 text dry2 text cwd text tmp text flag list environment list suffixes pointer programs size count "
                    "size limit number host_compiler number keeps_names")
_Command = _record("_Command", "list words list environment text cwd list reads list writes list may_write list targets sizes needs size needs_count "
                   "size group size dry_run size line number stage number tool number missing number reason number cacheable number preprocesses")
_Commands = _record("_Commands", "pointer items size count size dropped size groups")
_LineCall = _record("_LineCall", "text cwd list words list environment number tool")
_Line = _record("_Line", "pointer made text input text compilation_flag list keys list paths sizes optional list dependency_args "
                "list preprocessor_args list common_args list arch_args list unhashed_args list extra_dist_files list extra_hash_files "
                "number language number color_mode number double_dash_input")
_KeyCall = _record("_KeyCall", "list words list environment list roots number tool")
_Scheduled = _record("_Scheduled", "pointer needs size count size priority")
_ScheduleCall = _record("_ScheduleCall", "pointer plans size plans_count pointer commands size commands_count size slots number after_failure")
_Progress = _record("_Progress", "size running size told number status number over")


def _open() -> ctypes.CDLL:
    here, name = os.path.dirname(os.path.abspath(__file__)), "libzigrunk.so.2"
    places = [here, os.path.join(sys.prefix, "lib"), os.path.join(here, *[".."] * 4, "lib"), os.path.join(here, *[".."] * 3, "out", "lib")]
    named = os.environ.get("ZIGRUNK_LIBRARY") or next((path for path in (os.path.join(it, name) for it in places) if os.path.exists(path)), name)
    library = ctypes.CDLL(named)
    if library.zigrunk_abi_version() != 2:
        raise ImportError(f"{named} has another binary interface")
    library.zigrunk_free.argtypes = [ctypes.c_void_p]
    library.zigrunk_version.restype = ctypes.c_char_p
    library.zigrunk_call_outline.restype = ctypes.POINTER(_Outline)
    library.zigrunk_plan_commands.restype = ctypes.POINTER(_Commands)
    library.zigrunk_schedule_start.restype = ctypes.c_size_t
    library.zigrunk_schedule_progress.restype = _Progress
    return library


_library = _open()


def _known(kind: Type[_Number], number: int) -> Union[_Number, int]:
    try:
        return kind(number)
    except ValueError:
        return number


def _bytes(text: Union[str, bytes]) -> bytes:
    return text if isinstance(text, bytes) else text.encode("utf-8", "surrogateescape")


def _read(of: Any) -> bytes:
    return ctypes.string_at(of.bytes, of.length) if of.length else b""


def _str(of: Any) -> str:
    return _read(of).decode("utf-8", "surrogateescape")


def _all_bytes(of: Any) -> List[bytes]:
    return [ctypes.string_at(of.items[i], of.lengths[i]) for i in range(of.count)]


def _strs(of: Any) -> _Texts:
    return tuple(text.decode("utf-8", "surrogateescape") for text in _all_bytes(of))


def _text(text: Union[str, bytes]) -> Any:
    data = _bytes(text)
    made = _Text(ctypes.cast(ctypes.c_char_p(data), ctypes.c_void_p), len(data))
    made.keep = data
    return made


def _list(texts: Iterable[Union[str, bytes]]) -> Any:
    data = [_bytes(text) for text in texts]
    items = (ctypes.c_void_p * len(data))(*[ctypes.cast(ctypes.c_char_p(it), ctypes.c_void_p) for it in data])
    lengths = (ctypes.c_size_t * len(data))(*map(len, data))
    made = _List(ctypes.cast(items, ctypes.POINTER(ctypes.c_void_p)), ctypes.cast(lengths, ctypes.POINTER(ctypes.c_size_t)), len(data))
    made.keep = (data, items, lengths)
    return made


def _variables(environment: Mapping[str, str]) -> Any:
    return _list(f"{name}={value}" for name, value in environment.items())


def _pairs(of: Any) -> Dict[str, str]:
    return {name: value for name, _, value in (text.partition("=") for text in _strs(of))}


class _Owned:
    """What a function has made."""

    def __init__(self, function: str, *given: Any) -> None:
        self.pointer, error = ctypes.c_void_p(), ctypes.POINTER(_Error)()
        passed = [ctypes.byref(it) if isinstance(it, ctypes.Structure) and not isinstance(it, (_Text, _List)) else it for it in given]
        status = getattr(_library, function)(*passed, ctypes.byref(self.pointer), ctypes.byref(error))
        if status:
            refused = error.contents
            why = ZigrunkError(status, _str(refused.message), refused.input, refused.line)
            _library.zigrunk_free(ctypes.cast(error, ctypes.c_void_p))
            raise why

    def __del__(self) -> None:
        if getattr(self, "pointer", None):
            _library.zigrunk_free(self.pointer)

    def as_a(self, record: Any) -> Any:
        return ctypes.cast(self.pointer, ctypes.POINTER(record)).contents


def _answer(function: str, *given: Any) -> List[bytes]:
    owned = _Owned(function, *given)
    return _all_bytes(owned.as_a(_Answer).texts)


def _texts(function: str, *given: Any) -> List[str]:
    return [text.decode("utf-8", "surrogateescape") for text in _answer(function, *given)]


def _programs(found: Optional[Mapping[Lookup, Optional[str]]]) -> Tuple[Any, Any, int]:
    """A table of programs: what to keep, its pointer, and its length. None looks on this machine's disk."""
    if found is None:
        return None, None, 0
    rows = [(_text(it[0]), _text(it[1]), _text(path) if path is not None else _Text(None, 0)) for it, path in found.items()]
    table = (_Program * max(len(rows), 1))(*[_Program(*row) for row in rows])
    return (rows, table), ctypes.cast(table, ctypes.c_void_p), len(rows)


def _run(of: Any) -> Run:
    return Run(_strs(of.words), _pairs(of.environment), _str(of.cwd))


def _command(it: Any) -> Command:
    return Command(_strs(it.words), _pairs(it.environment), _str(it.cwd), _strs(it.reads), _strs(it.writes), _strs(it.may_write), _strs(it.targets),
                   tuple(it.needs[:it.needs_count]), None if it.group == _ALL else it.group, it.dry_run, it.line, _known(Stage, it.stage),
                   _known(Tool, it.tool), _known(Missing, it.missing) if it.missing else None, _known(Reason, it.reason) if it.reason else None,
                   bool(it.cacheable), bool(it.preprocesses))


class Plan:
    """What one nvcc call runs: the commands of its groups in order, and those that it dropped."""

    def __init__(self, owned: _Owned) -> None:
        self._owned = owned
        all_of = _library.zigrunk_plan_commands(owned.pointer).contents
        commands = tuple(map(_command, ctypes.cast(all_of.items, ctypes.POINTER(_Command))[:all_of.count]))
        self.commands, self.dropped = commands[:all_of.count - all_of.dropped], commands[all_of.count - all_of.dropped:]

    def text(self, form: str = "json") -> str:
        """The plan as `json`, `ninja`, `shell`, `compdb` or `text`."""
        return _texts("zigrunk_plan_text", self._owned.pointer, _text(form))[0]

    def key(self, number: int) -> Key:
        """The key of a command. Ask when the commands that it needs have ended. BAD_LINE, with the reason, if a cache may not serve it."""
        text, *files = _answer("zigrunk_plan_key", self._owned.pointer, ctypes.c_size_t(number))
        return Key(text, tuple(os.fsdecode(path) for path in files))


class Call:
    """A call of nvcc: its words without nvcc's name, its whole environment, its directory, and one for temporary files, which has to be there."""

    def __init__(self, nvcc: str, words: Sequence[str], environment: Mapping[str, str], cwd: str, tmp: str) -> None:
        self._owned = _Owned("zigrunk_call_of", _NvccCall(_text(nvcc), _list(words), _variables(environment), _text(cwd), _text(tmp)))
        outline = _library.zigrunk_call_outline(self._owned.pointer).contents
        self.dry_runs = (_run(outline.own), _run(outline.first), _run(outline.second))
        self.dependencies = _run(outline.dependencies) if outline.dependencies.words.count else None
        self.flag, self.input, self.outputs = _str(outline.flag), _str(outline.input), _strs(outline.outputs)
        self.keep_dir, self.jobs = _str(outline.keep_dir) if outline.keep_dir.bytes else None, outline.jobs or None

    def plan(self) -> Plan:
        """Runs the dry runs, finds the programs that they name on this machine, and plans."""
        return Plan(_Owned("zigrunk_call_plan", self._owned.pointer))

    def plan_of(self, own: bytes, first: bytes, second: bytes, programs: Optional[Mapping[Lookup, Optional[str]]] = None, limit: int = 0) -> Plan:
        """Plans what `dry_runs` printed to standard error, here or elsewhere. If someone else wrote it, give a limit on the bytes that it makes."""
        kept, table, count = _programs(programs)
        given = _DryRuns(_text(own), _text(first), _text(second), table, count, limit)
        given.keep = kept
        return Plan(_Owned("zigrunk_call_plan_of", self._owned.pointer, given))


def plan(dry1: bytes, dry2: bytes, cwd: str, tmp: str, flag: str = "", environment: Optional[Mapping[str, str]] = None, suffixes: Sequence[str] = (),
         programs: Optional[Mapping[Lookup, Optional[str]]] = None, limit: int = 0, host_compiler: int = 0, keeps_names: bool = False) -> Plan:
    """Plans two dry runs alone: of the call with `--dryrun --keep`, and with `--keep-dir TMP --dryrun --keep`."""
    kept, table, count = _programs(programs)
    given = _PlanCall(_text(dry1), _text(dry2), _text(cwd), _text(tmp), _text(flag), _variables(environment or {}), _list(suffixes), table, count,
                      limit, host_compiler, keeps_names)
    given.keep = kept
    return Plan(_Owned("zigrunk_plan_of", given))


class Schedule:
    """Which command of plans may start next, and which outputs may be printed. It starts nothing: you say what happened. In place of plans it takes
    commands of yours: for each the numbers of those that have to succeed before it, all smaller than its own."""

    def __init__(self, of: Sequence[Union[Plan, Sequence[int]]], slots: int, after_failure: int = AfterFailure.START_EARLIER) -> None:
        plans = [it for it in of if isinstance(it, Plan)]
        needs = [] if plans else [(ctypes.c_size_t * len(it))(*it) for it in of if not isinstance(it, Plan)]
        pointers = (ctypes.c_void_p * len(plans))(*[it._owned.pointer for it in plans])  # pylint: disable=protected-access
        commands = (_Scheduled * len(needs))(*[_Scheduled(ctypes.cast(it, ctypes.c_void_p), len(it), 0) for it in needs])
        self._kept, self._length = of, sum(len(it.commands) for it in plans) + len(needs)
        both = [ctypes.cast(it, ctypes.c_void_p) for it in (pointers, commands)]
        self._owned = _Owned("zigrunk_schedule_of", _ScheduleCall(both[0], len(plans), both[1], len(needs), slots, after_failure))

    def __len__(self) -> int:
        return self._length

    @property
    def over(self) -> bool:
        """Whether nothing runs and nothing may start."""
        return bool(_library.zigrunk_schedule_progress(self._owned.pointer, ctypes.c_size_t(0), ctypes.c_size_t(len(self))).over)

    def start_ready(self) -> Iterator[int]:
        """All that may start now, each noted as started when the iterator gives it."""
        return iter(lambda: int(_library.zigrunk_schedule_start(self._owned.pointer)), _ALL)

    def ended(self, command: int, outcome: int = Outcome.SUCCEEDED) -> None:
        """Notes how a command ended."""
        if _library.zigrunk_schedule_ended(self._owned.pointer, ctypes.c_size_t(command), outcome):
            raise ZigrunkError(Status.BAD_NUMBER, f"command {command} doesn't run, or {outcome} is no outcome")

    def told(self, first: int, end: int) -> Told:
        """Which outputs of these commands, of one plan or of what hasn't been printed of it, may be printed now."""
        progress = _library.zigrunk_schedule_progress(self._owned.pointer, ctypes.c_size_t(first), ctypes.c_size_t(end))
        return Told(range(first, progress.told), _known(PlanStatus, progress.status))


def _line_call(tool: int, cwd: str, words: Sequence[str], environment: Optional[Mapping[str, str]]) -> Any:
    return _LineCall(_text(cwd), _list(words), _variables(environment or {}), tool)


def line_records(tool: int, cwd: str, words: Sequence[str], environment: Optional[Mapping[str, str]] = None) -> Line:
    """Reads a line of a tool. BAD_LINE if it compiles nothing or no cache can serve it."""
    owned = _Owned("zigrunk_line_records", _line_call(tool, cwd, words, environment))
    it = owned.as_a(_Line)
    outputs = tuple(Output(key, path, bool(optional)) for key, path, optional in zip(_strs(it.keys), _strs(it.paths), it.optional[:it.paths.count]))
    return Line(_str(it.input), _str(it.compilation_flag), outputs, _strs(it.dependency_args), _strs(it.preprocessor_args), _strs(it.common_args),
                _strs(it.arch_args), _strs(it.unhashed_args), _strs(it.extra_dist_files), _strs(it.extra_hash_files), _known(Language, it.language),
                _known(ColorMode, it.color_mode), bool(it.double_dash_input))


def line_words(tool: int, cwd: str, words: Sequence[str], environment: Optional[Mapping[str, str]] = None) -> List[str]:
    """Reads a line of a tool, and lists the words that it is written back as."""
    return _texts("zigrunk_line_words", _line_call(tool, cwd, words, environment))


def command_key(tool: int, words: Sequence[str], environment: Mapping[str, str], roots: Sequence[str] = ()) -> bytes:
    """What a cache hashes of a command: the words, the program first, and what counts of the environment, with a mark in place of each root."""
    return _answer("zigrunk_command_key", _KeyCall(_list(words), _variables(environment), _list(roots), tool))[0]


def lookups(dry1: bytes, dry2: bytes, cwd: str, limit: int = 0) -> List[Lookup]:
    """The look-ups of programs that a plan of two dry runs needs, none twice."""
    texts = _texts("zigrunk_lookups", _text(dry1), _text(dry2), _text(cwd), ctypes.c_size_t(limit))
    return [Lookup(*pair) for pair in zip(texts[::2], texts[1::2])]


def candidates(lookup: Lookup, cwd: str) -> List[str]:
    """The paths that a look-up tries, in order: the first that is an executable file is the program."""
    return _texts("zigrunk_candidates", _text(lookup.program), _text(lookup.path), _text(cwd))


def headers(preprocessed: bytes) -> List[str]:
    """The files that the output of a preprocessor names, none twice."""
    return _texts("zigrunk_headers", _text(preprocessed))


def split(text: str) -> List[str]:
    """The words that a POSIX shell reads."""
    return _texts("zigrunk_split", _text(text))


def quote(words: Sequence[str]) -> str:
    """Words as one text, which a POSIX shell reads as these words."""
    return _texts("zigrunk_quote", _list(words))[0]


def remap(words: Sequence[str], suffixes: Sequence[str] = ()) -> List[str]:
    """Words with canonical names for the files that nvcc generates."""
    return _texts("zigrunk_remap", _list(words), _list(suffixes))


def version() -> str:
    """The library's version."""
    return str(_library.zigrunk_version().decode())
