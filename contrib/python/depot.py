r"""Files mail in a depot from Python, and reads it back. This is one file for Python 3.8 or later, which needs nothing else:

>>> import tempfile
>>> folder = tempfile.TemporaryDirectory()
>>> with Depot(folder.name + "/mail.depot", make=True) as depot:
...     depot.script("ann", b'require ["fileinto", "variables"]; if header :matches "Subject" "*" { fileinto "in/${1}"; }')
...     depot.deliver("ann", b"Subject: bills\n\nPay it.\n")
...     depot.list("ann")
...     depot.since("ann", 1)
...     depot.export("ann", 1)
...     depot.catalog("ann")[0].fields
[Filed(number=1, kind='message', folder=b'in/bills')]
[Entry(number=1, kind='message', folder=b'in/bills', name=b'', media='message/rfc822', size=24)]
[]
b'Subject: bills\n\nPay it.\n'
{'Subject': b'bills'}

A Depot starts `depot batch FILE` and keeps it until it is closed; each call is a line of that batch. So a call that returns
was done, and stays done whatever happens later. docs/INTERFACE.md describes the lines, the refusals and the limits.

The program is `depot` on the PATH, or what the variable DEPOT names, or the argument `program`. No shell runs. While a Depot
is open, it has the lock FILE.lock, for which `deliver`, `ask` and `hold` wait, and every other command of depot on FILE is
refused after ten seconds: so keep it open only while you use it. A Depot is for one thread at a time. If this process is
killed, a folder depot-py-* can stay in the temporary folder (TMPDIR).

A command that is refused raises the exception of that name, a Refused; then nothing was changed, except as INTERFACE says of
43 and 45. The Depot goes on after it, but not after 43:

>>> depot = Depot(folder.name + "/mail.depot")
>>> depot.remove("ann", 9)
Traceback (most recent call last):
depot.NoSuchEntry: refused 40 NoSuchEntry: remove ann 9
>>> try:
...     depot.script("ann", b"keep; keep")
... except Refused as refused:
...     refused.number, refused.name, refused.place
(13, 'Syntax', 3)
>>> depot.close()
>>> folder.cleanup()
"""

import base64
import contextlib
import fcntl
import json
import os
import re
import shutil
import signal
import subprocess
import tempfile
import time
from types import TracebackType
from typing import IO, Any, Dict, Iterator, List, NamedTuple, Optional, Tuple, Type, Union, overload

# The name of a file.
Path = Union[str, "os.PathLike[str]"]
# The bytes of a message, a script or a program; or the name of a file that has them.
Content = Union[bytes, bytearray, memoryview, str, "os.PathLike[str]"]

_QUOTED = rb'"((?:[^"\\]|\\[0-9a-f]{2})*)"'
_FILED = re.compile(rb"([1-9]\d*) (message|part) %s" % _QUOTED)
_LISTED = re.compile(rb"%s %s (\S+/\S+) (\d+)" % (_FILED.pattern, _QUOTED))
_REFUSED = re.compile(rb"refused (\d+) (\w+)(?: at (\d+))?")


class Filed(NamedTuple):
    """An entry that a delivery added. Folders can be what a sender wrote: don't use them as paths as they are."""

    number: int
    kind: str  # "message" or "part"
    folder: bytes


class Entry(NamedTuple):
    """An entry of a user; a message has no name. Names can be what a sender wrote, too."""

    number: int
    kind: str  # "message" or "part"
    folder: bytes
    name: bytes
    media: str
    size: int


class Place(NamedTuple):
    """An entry, and a part of a message, counted from 0 as `depot parts` does. In `stored` the entry is a part, in `of` the message."""

    number: int
    part: int


class Described(NamedTuple):
    """An entry with what `depot catalog` has of it. Nothing is decoded: names and fields can be MIME words."""

    number: int
    kind: str  # "message" or "part"
    folder: bytes
    name: bytes
    media: str
    size: int
    sha256: str
    parts: int  # of a message, how many it has; 0 for a part
    fields: Dict[str, bytes]  # of a message: the first From, To, Cc, Subject, Date, Message-ID, In-Reply-To and References
    stored: List[Place]  # of a message, the part entries with the content of one of its parts
    of: List[Place]  # of a part, the messages with its content


class DepotError(Exception):
    """Why a call wasn't done. All exceptions of this module are of this class, except those for wrong arguments and temporary files."""


class NoProgram(DepotError):
    """There is no program to start."""


class NoFile(DepotError):
    """The depot's file isn't there, and isn't to be made."""


class Locked(DepotError):
    """Another process keeps the lock."""


class WrongWords(DepotError, ValueError):
    """The words are no command: a number is too large, or there is no such encoding."""


class Ended(DepotError):
    """The program ended, or was killed, without an answer: the last call can be done or not, and all before it are done."""


class Strange(DepotError):
    """The program answered something that docs/INTERFACE.md doesn't have."""


class Refused(DepotError):
    """The program refused a command: the number and the name of the refusal, and its place in a script or program, if it has one."""

    number = 0

    def __init__(self, said: str, number: int, name: str, place: Optional[int]):
        super().__init__(said)
        self.number, self.name, self.place = number, name, place

    def __reduce__(self) -> Tuple[type, Tuple[str, int, str, Optional[int]]]:
        # so that another process can be given it
        return type(self), (str(self), self.number, self.name, self.place)


# fmt: off
# pylint: disable=missing-class-docstring,multiple-statements
class Memory(Refused): number = 1
class MessageTooLarge(Refused): number = 2
class TooManyParts(Refused): number = 3
class Lexical(Refused): number = 11
class ScriptTooLong(Refused): number = 12
class Syntax(Refused): number = 13
class TooDeep(Refused): number = 14
class UnknownCommand(Refused): number = 15
class MissingCapability(Refused): number = 16
class UnknownCapability(Refused): number = 17
class BadArguments(Refused): number = 18
class Limit(Refused): number = 19
class Spelling(Refused): number = 20
class Index(Refused): number = 21
class Form(Refused): number = 22
class End(Refused): number = 23
class Loop(Refused): number = 24
class Jump(Refused): number = 25
class NoPart(Refused): number = 26
class Stack(Refused): number = 27
class NoSuchEntry(Refused): number = 40
class NumberFull(Refused): number = 41
class Collision(Refused): number = 42
class Database(Refused): number = 43
class UserName(Refused): number = 44
class Write(Refused): number = 45
class Read(Refused): number = 46
# fmt: on

_REFUSALS = {it.number: it for it in Refused.__subclasses__()}


class Depot:
    """A depot's file that is open. If `make` is true, it is made if it isn't there. `patience` is how many seconds this waits
    for the lock of the file; if it is None, no lock is taken."""

    def __init__(self, file: Path, *, make: bool = False, program: Optional[Path] = None, patience: Optional[float] = 300):
        self._file = os.path.abspath(_text(file))
        self._lock: Optional[int] = None
        self._room: Optional["tempfile.TemporaryDirectory[str]"] = None
        # whether an answer is awaited, and why no more will come
        self._is_awaited, self._ended = False, ""
        named = os.fspath(program or os.environ.get("DEPOT") or "depot")
        found = shutil.which(named)
        if not found:
            raise NoProgram(f"there is no program {named}: put depot on the PATH, or name it by the variable DEPOT")
        self._want_file(make)
        with contextlib.ExitStack() as undone:
            undone.callback(self._unlock)
            if patience is not None:
                self._take_lock(make, time.monotonic() + patience)
            try:
                # it keeps the lock as well, if this process is killed; and what a terminal ends is this process alone
                self._process = subprocess.Popen(
                    [found, "batch", "--", self._file], stdin=subprocess.PIPE, stdout=subprocess.PIPE, stderr=subprocess.PIPE,
                    pass_fds=() if self._lock is None else (self._lock,), start_new_session=True)
            except OSError as fault:
                raise NoProgram(f"the program {named} can't be started: {fault.strerror}") from fault
            undone.pop_all()

    def _want_file(self, make: bool) -> None:
        if not make and not os.path.exists(self._file):
            raise NoFile(f"there is no file {self._file}")

    def _take_lock(self, make: bool, end: float) -> None:
        """Waits for the lock. Meanwhile it can be removed, also together with the file."""
        name = self._file + ".lock"
        while True:
            try:
                self._lock = os.open(name, os.O_RDWR | os.O_CREAT | os.O_CLOEXEC, 0o600)
            except OSError as fault:
                raise NoFile(f"the lock {name} can't be made: {fault.strerror}") from fault
            with contextlib.suppress(BlockingIOError, FileNotFoundError):
                fcntl.flock(self._lock, fcntl.LOCK_EX | fcntl.LOCK_NB)
                if os.path.samestat(os.fstat(self._lock), os.stat(name)):
                    self._want_file(make)
                    return
            self._unlock()
            if time.monotonic() > end:
                raise Locked(f"another process keeps the lock {name}")
            time.sleep(0.05)
            self._want_file(make)

    def _unlock(self) -> None:
        if self._lock is not None:
            os.close(self._lock)
            self._lock = None

    def __enter__(self) -> "Depot":
        return self

    def __exit__(self, kind: Optional[Type[BaseException]], fault: Optional[BaseException], where: Optional[TracebackType]) -> None:
        with contextlib.suppress(Ended) if kind else contextlib.nullcontext():
            self.close()

    def close(self) -> None:
        """Ends the program, and waits for that. If it was killed before, which no call has noticed, this raises Ended."""
        told = self._ended
        self._ended = told or "it is closed"
        for stream in self._process.stdin, self._process.stdout, self._process.stderr:
            with contextlib.suppress(BrokenPipeError):
                stream.close()  # type: ignore[union-attr]
        status = self._process.wait()
        self._unlock()
        if self._room:
            self._room.cleanup()
        # a wrapper can end by what it can't write any more
        if status < 0 and status != -signal.SIGPIPE and not told:
            raise Ended(f"the program was ended by the signal {-status}; all that was called before is done")

    def script(self, user: str, script: Content) -> None:
        """Makes a Sieve script the user's filter."""
        with self._named(script) as name:
            self._ask("script", user, name)

    def code(self, user: str, program: Content) -> None:
        """Makes a program, as `depot compile` writes it, the user's filter."""
        with self._named(program) as name:
            self._ask("code", user, name)

    def deliver(self, user: str, message: Content) -> List[Filed]:
        """Files a message as the user's filter says, and gives the new entries in the order of its actions. A part belongs to the
        message among them."""
        with self._named(message) as name:
            lines = self._ask("deliver", user, name)
        return [Filed(int(number), kind.decode(), _unquoted(folder)) for number, kind, folder in _entries(_FILED, lines)]

    def list(self, user: str) -> List[Entry]:
        """The entries of the user, by number."""
        return self._listed("list", user)

    def since(self, user: str, number: int) -> List[Entry]:
        """The entries above a number, by number: everything new if it is the last number that you know; all entries if it is 0."""
        return self._listed("since", user, str(number))

    def catalog(self, user: str, number: int = 0) -> List[Described]:
        """The entries above a number, by number, with SHA-256, header fields, and which messages and parts belong together, also if one
        of the two isn't above the number."""
        return [_described(line) for line in self._ask("catalog", user, str(number))]

    def _listed(self, *words: str) -> List[Entry]:
        """The entries that a command lists."""
        return [Entry(int(number), kind.decode(), _unquoted(folder), _unquoted(name), media.decode(), int(size))
                for number, kind, folder, name, media, size in _entries(_LISTED, self._ask(*words))]

    @overload
    def export(self, user: str, number: int, file: None = None, encoding: str = "raw") -> bytes: ...

    @overload
    def export(self, user: str, number: int, file: Path, encoding: str = "raw") -> None: ...

    def export(self, user: str, number: int, file: Optional[Path] = None, encoding: str = "raw") -> Optional[bytes]:
        """Gives the bytes of an entry in an encoding; or writes them to a file, which is whole or as it was."""
        if file is not None:
            self._ask("export", user, str(number), encoding, os.path.abspath(_text(file)))
            return None
        name = os.path.join(self._folder(), "exported")
        try:
            self._ask("export", user, str(number), encoding, name)
            with open(name, "rb") as opened:
                return opened.read()
        finally:
            _remove(name)

    def remove(self, user: str, number: int) -> None:
        """Removes an entry. Its number is not used again, except after a restore."""
        self._ask("remove", user, str(number))

    def migrate(self) -> int:
        """Brings all filters to the newest version of bytecode, and gives how many it changed."""
        lines = self._ask("migrate")
        found = re.fullmatch(rb"migrated (\d+)", b"\n".join(lines))
        if not found:
            raise Strange(f"the program answers {lines!r} to `migrate`")
        return int(found[1])

    def _folder(self) -> str:
        """A folder for temporary files, which only this user can read."""
        if self._room is None:
            self._room = tempfile.TemporaryDirectory(prefix="depot-py-")
        return self._room.name

    @contextlib.contextmanager
    def _named(self, content: Content) -> Iterator[str]:
        """The name of a file with a content."""
        if isinstance(content, (str, os.PathLike)):
            yield os.path.abspath(_text(content))
            return
        name = os.path.join(self._folder(), "given")
        try:
            with open(name, "wb") as file:
                file.write(content)
            yield name
        finally:
            _remove(name)

    def _ask(self, *words: str) -> List[bytes]:
        """The lines that the program answers to a command, without the last one, `= 0`."""
        if self._ended:
            raise Ended(self._ended)
        if self._is_awaited:
            raise Ended("an earlier call was broken off, so that its answer is still to come: close this, and open it again")
        self._is_awaited = True
        lines, status = self._answer(b" ".join(_quoted(it) for it in words) + b"\n")
        self._is_awaited = False
        if status == b"= 0\n":
            return lines
        if status == b"= 2\n":
            raise WrongWords(f"{b' '.join(lines).decode(errors='replace')}: {' '.join(words)}")
        if status != b"= 1\n":
            lines = self._last_words()
        raise self._fault(lines, words)

    def _answer(self, line: bytes) -> Tuple[List[bytes], bytes]:
        """The lines that are answered to a line, and the last of them; that is empty if the program has ended."""
        to, by = self._process.stdin, self._process.stdout
        assert to and by
        # if the program has ended, it can have said why
        with contextlib.suppress(BrokenPipeError):
            to.write(line)
            to.flush()
        lines: List[bytes] = []
        for said in by:
            if re.fullmatch(rb"= [012]\n", said):
                return lines, said
            lines.append(said[:-1] if said.endswith(b"\n") else said)
        return lines, b""

    def _last_words(self) -> List[bytes]:
        """Why the program ended without an answer: its refusal, if it gave one."""
        errors: Optional[IO[bytes]] = self._process.stderr
        assert errors
        said, status = errors.read().splitlines(), self._process.wait()
        if status < 0:
            self._ended = f"the program was ended by the signal {-status} before it answered"
        else:
            self._ended = f"the program ended with the status {status} before it answered"
        return said

    def _fault(self, lines: List[bytes], words: Tuple[str, ...]) -> DepotError:
        """The exception for a refusal, or for the end of the program without one."""
        found = _REFUSED.fullmatch(lines[0]) if len(lines) == 1 else None
        text, asked = b" ".join(lines).decode(errors="replace"), " ".join(words)
        if not found:
            why = self._ended or "the program answers something strange"
            return (Ended if self._ended else Strange)(f"{why}: {asked}" + (f": {text}" if text else ""))
        number = int(found[1])
        if number == Database.number or self._ended:
            self._ended = f"the batch has ended, because a command was {text}: open the depot again"
        place = int(found[3]) if found[3] else None
        return _REFUSALS.get(number, Refused)(f"{text}: {asked}", number, found[2].decode(), place)


def _text(path: Path) -> str:
    """The name of a file, which the program takes only if it is UTF-8."""
    name = os.fspath(path)
    if not isinstance(name, str):
        raise TypeError("the name of a file is a str or a path; bytes are a content")
    try:
        os.fsencode(name).decode("utf-8")
    except UnicodeDecodeError as fault:
        raise ValueError(f"the name {name!r} isn't UTF-8, and the program takes no other") from fault
    return name


def _quoted(word: str) -> bytes:
    """A word as a line has it, of any characters."""
    if not isinstance(word, str):
        raise TypeError(f"a word is a str: {word!r}")
    return b'"' + b"".join(b"\\%02x" % it for it in os.fsencode(word)) + b'"'


def _unquoted(text: bytes) -> bytes:
    """The bytes that the program prints between quotation marks."""
    return re.sub(rb"\\([0-9a-f]{2})", lambda it: bytes([int(it[1], 16)]), text)


def _entries(form: "re.Pattern[bytes]", lines: List[bytes]) -> Iterator[Tuple[bytes, ...]]:
    """The fields of entries, of which there are none if the line is `none`."""
    for line in [] if lines == [b"none"] else lines:
        found = form.fullmatch(line)
        if not found:
            raise Strange(f"the program prints what is no entry: {line!r}")
        yield found.groups()


def _described(line: bytes) -> Described:
    """The entry of a line of a catalog. A later program can write more members."""
    try:
        it = json.loads(line)
        return Described(
            it["number"], it["kind"], _octets(it["folder"]), _octets(it["name"]), _octets(it["media"]).decode(), it["octets"], it["sha256"],
            it.get("parts", 0), {name: _octets(value) for name, value in it.get("fields", {}).items()},
            _places(it.get("stored", [])), _places(it.get("of", [])))
    except (ValueError, KeyError, TypeError, AttributeError) as fault:
        raise Strange(f"the program prints what is no line of a catalog: {line!r}") from fault


def _octets(value: Any) -> bytes:
    """The bytes that a catalog writes as a string, or in base64 if they aren't UTF-8."""
    return value.encode() if isinstance(value, str) else base64.b64decode(value["base64"])


def _places(values: Any) -> List[Place]:
    return [Place(it["number"], it["part"]) for it in values]


def _remove(name: str) -> None:
    with contextlib.suppress(FileNotFoundError):
        os.unlink(name)
