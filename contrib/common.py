"""What refile, refilter and to_maildir share: a batch of depot, the entries of a user, and how a script ends.

Other programs use python/depot.py. Here a batch is given lines ahead of its answers, names stay as the program prints them, and
what it refuses is a status.
"""

import contextlib
import functools
import importlib.machinery
import importlib.util
import os
import re
import shutil
import subprocess
import sys
import tempfile
import time

PROGRAM = os.environ.get("DEPOT", "depot")
ASK = os.path.join(os.path.dirname(os.path.realpath(__file__)), "ask")
USER = re.compile(r"[a-z0-9._-]{1,64}")
VOLUME = re.compile(r"([0-9]{8})\.depot")
QUOTED = rb'"(?:[^"\\]|\\[0-9a-f]{2})*"'
# The statuses for refusals of the program, and for no answer; any other refusal is of what was given.
STATUS = {None: os.EX_TEMPFAIL, "1": os.EX_TEMPFAIL, "44": os.EX_NOUSER, "45": os.EX_IOERR, "46": os.EX_NOINPUT}
LISTED = re.compile(rb"([1-9]\d*) (message|part) (%s) (%s) \S+ (\d+)" % (QUOTED, QUOTED))


class Failed(Exception):
    """Why a script can't go on, with a status of sysexits.h."""

    def __init__(self, status, why):
        super().__init__(why)
        self.status = status


def run_script(name, usage, words, work):
    """Does the work of a script by its words; gives its status. What ends it is one line on standard error."""
    if words in (["--help"], ["-h"]):
        print(usage.strip())
        return 0
    try:
        return work(words) or 0
    except Failed as fault:
        status, why = fault.status, str(fault)
    except PermissionError as fault:
        status, why = os.EX_NOPERM, f"{fault.filename}: {fault.strerror}"
    except OSError as fault:
        status, why = os.EX_IOERR, f"{fault.filename}: {fault.strerror}" if fault.filename else str(fault)
    print(f"{name}: {shown(why)}", file=sys.stderr)
    return status


def shown(text):
    """A text as one line that a terminal can show, whatever names are in it."""
    text = text.encode(errors="surrogateescape").decode(errors="backslashreplace")
    return "".join(it if it.isprintable() else f"\\x{ord(it):02x}" for it in text)


def want_user(user):
    if not USER.fullmatch(user):
        raise Failed(os.EX_NOUSER, f"{user} is no user's name: it has 1 to 64 of a to z, 0 to 9, dot, underscore and hyphen")


def want_file(path):
    if not os.path.lexists(path):
        raise Failed(os.EX_NOINPUT, f"there is no file {path}")
    if not os.path.isfile(path):
        raise Failed(os.EX_NOINPUT, f"{path} is no file")


def want_program():
    if not shutil.which(PROGRAM):
        raise Failed(os.EX_UNAVAILABLE, f"there is no program {PROGRAM}: name it by the variable DEPOT, or put depot on the PATH")


def quoted(name):
    """A name as a line of a batch has it."""
    return b'"' + re.sub(rb"[^ !#-\[\]-~]", lambda octet: b"\\%02x" % octet[0][0], os.fsencode(name)) + b'"'


def unquoted(text):
    """The name that stands between quotation marks."""
    return re.sub(rb"\\([0-9a-f]{2})", lambda found: bytes([int(found[1], 16)]), text[1:-1])


class Batch:
    """A batch on a depot."""

    def __init__(self, depot):
        self.depot = depot
        try:
            self.process = subprocess.Popen(
                [PROGRAM, "batch", "--", depot], stdin=subprocess.PIPE, stdout=subprocess.PIPE, stderr=subprocess.PIPE)
        except OSError as fault:
            raise Failed(os.EX_UNAVAILABLE, f"the program {PROGRAM} can't be started: {fault.strerror}") from fault

    def __enter__(self):
        return self

    def __exit__(self, *_):
        self.end()

    def say(self, *lines):
        """Gives lines, all at once; a pipe has to have room for them."""
        try:
            self.process.stdin.write(b"".join(line + b"\n" for line in lines))
            self.process.stdin.flush()
        except BrokenPipeError:
            # it has ended, which the answers tell
            pass

    def answer(self):
        """The lines of the next answer, and its status; none if the batch has ended."""
        lines = []
        for said in self.process.stdout:
            if re.fullmatch(rb"= \d\n", said):
                return lines, said[2:-1]
            lines.append(said.removesuffix(b"\n"))
        return lines, None

    def ask(self, line):
        """The lines that a line is answered by; it has to be done."""
        self.say(line)
        lines, status = self.answer()
        if status != b"0":
            raise self.refusal(line, lines)
        return lines

    def refusal(self, line, lines):
        """Why a line wasn't done, with what `inspect` says of the file if the program's refusal doesn't tell."""
        why = b" ".join(lines or self.process.stderr.read().split(b"\n")).decode(errors="replace").strip() or "no answer"
        self.end()
        said = reason(self.depot, why)
        number = re.match(r"refused (\d+) |", why)[1]
        # a 43 without a reason in the file is of the disk, or of another process
        status = os.EX_TEMPFAIL if number == "43" and not said else STATUS.get(number, os.EX_DATAERR)
        return Failed(status, line.decode() + ": " + why + said)

    def end(self):
        """Ends the batch, and gives its status. The answers that nobody waits for any more are read, so that it can end."""
        if not self.process.stdin.closed:
            self.process.communicate()
        return self.process.returncode


def inspected(depot):
    """What `inspect` says of a file."""
    return subprocess.run([PROGRAM, "inspect", "--", depot], stdin=subprocess.DEVNULL, capture_output=True, check=False)


def reason(depot, why):
    """What `inspect` says of a file of which the program says 43 or 46."""
    if not re.match("refused 4[36] ", why):
        return ""
    said = inspected(depot)
    first = said.stdout.partition(b"\n")[0].decode(errors="replace")
    spoilt = re.findall(rb'^user ("[^"]*") .* program (refused .*)$', said.stdout, re.MULTILINE)
    if first.startswith("no depot: "):
        return ": " + first.removeprefix("no depot: ")
    return "".join(f": the filter of {user.decode()} is {what.decode()}" for user, what in spoilt[:1])


def listed(batch, user):
    """The entries of a user: number, kind, folder, name, both as they are printed, and how many octets each has."""
    lines = batch.ask(b"list " + quoted(user)) or [b""]
    for line in lines if lines != [b"none"] else []:
        found = LISTED.fullmatch(line)
        if not found:
            raise Failed(os.EX_SOFTWARE, f"the program lists what is no entry: {line!r}")
        yield int(found[1]), found[2], found[3], found[4], int(found[5])


class Entries:
    """What a user has in a copy of a depot, read by a batch. If that ends because a content was altered, a new one goes on."""

    def __init__(self, copy, user):
        self.copy, self.user = copy, user
        # the numbers of those whose content was found to be altered
        self.altered = []
        self.batch, self.all = self.opened()

    def __enter__(self):
        return self

    def __exit__(self, *_):
        self.batch.end()

    def opened(self):
        """A batch on the copy, and the entries that it lists."""
        batch = Batch(self.copy)
        try:
            return batch, list(listed(batch, self.user))
        except BaseException:
            batch.end()
            raise

    def export(self, number, length, to):
        """Writes an entry to a file, all of it, and gives True; or False if its content was altered on the disk: then its export
        is refused twice, and nothing else is wrong."""
        line = b"export %s %d raw %s" % (quoted(self.user), number, quoted(to))
        for _ in range(2):
            self.batch.say(line)
            lines, status = self.batch.answer()
            if status == b"0":
                if lines != [b"exported %d" % number] or os.path.getsize(to) != length:
                    raise Failed(os.EX_SOFTWARE, f"entry {number} has {length} octets, and they weren't all exported")
                return True
            if (lines, status) != ([b"refused 43 Database"], b"1"):
                raise self.batch.refusal(line, lines)
            self.go_on(line)
        self.altered.append(number)
        return False

    def go_on(self, line):
        """Begins a new batch after the export of an entry was refused, if the copy is whole without it: `inspect` finds no fault,
        each octet can be read, the same entries are listed, and what is filed now can be exported."""
        self.batch.end()
        said = inspected(self.copy)
        first = said.stdout.partition(b"\n")[0].decode(errors="replace")
        if said.returncode == 0 and first == "depot" and is_readable(self.copy):
            self.batch, entries = self.opened()
            if entries == self.all and self.exports_new():
                return
        why = f"{line.decode()}: refused 43 Database: "
        if first.startswith("no depot: "):
            raise Failed(os.EX_DATAERR, why + first.removeprefix("no depot: "))
        raise Failed(os.EX_TEMPFAIL, why + "the disk of the temporary folder is full or failed")

    def exports_new(self):
        """Whether a mail that is filed in the copy can be exported, which ends the batch if it can't."""
        mail = self.copy + "-probe"
        with open(mail, "wb") as file:
            file.write(b"Subject: probe\n\n")
        user = quoted("probe." + os.urandom(16).hex())
        for line in b"deliver %s %s" % (user, quoted(mail)), b"export %s 1 raw %s" % (user, quoted(mail + "-back")):
            self.batch.say(line)
            if self.batch.answer()[1] != b"0":
                return False
        with open(mail + "-back", "rb") as file:
            return file.read() == b"Subject: probe\n\n"


def tell_altered(name, user, number):
    """Names an entry whose content was altered on standard error."""
    print(f"{name}: the content of entry {number} of {user} was altered on the disk: restore it from a backup", file=sys.stderr)


def is_readable(path):
    """Whether the disk gives each octet of a file."""
    try:
        with open(path, "rb") as file:
            while file.read(1 << 20):
                pass
    except OSError:
        return False
    return True


@contextlib.contextmanager
def copied(depot, name, folder=None):
    """A folder, and in it a copy of a depot, or of a volume of that folder, whose lock is held only while that is made."""
    want_file(depot)
    room = tempfile.mkdtemp(prefix=name + ".")
    try:
        copy = os.path.join(room, "copy")
        if folder is None:
            copy_by_ask(depot, copy)
        else:
            with locked(folder):
                copy_volume(depot, copy)
        yield room, copy
    finally:
        # what was written counts, also if this can't be removed
        shutil.rmtree(room, ignore_errors=True)


def copy_by_ask(depot, copy):
    done = subprocess.run([ASK, "--", depot, "copy", copy], stdin=subprocess.DEVNULL, capture_output=True, check=False)
    if done.returncode:
        why = done.stderr.decode(errors="replace").strip().removeprefix("ask: ")
        status = done.returncode if done.returncode in range(os.EX_USAGE, os.EX_CONFIG + 1) else os.EX_TEMPFAIL
        raise Failed(status, f"{depot} can't be copied: {why or done.returncode}")


@functools.cache
def ask_itself():
    """The script `ask` as a module."""
    loader = importlib.machinery.SourceFileLoader("ask", ASK)
    module = importlib.util.module_from_spec(importlib.util.spec_from_loader("ask", loader))
    loader.exec_module(module)
    return module


def copy_volume(volume, copy):
    try:
        ask_itself().copy(volume, copy)
    except ask_itself().Failed as fault:
        raise Failed(fault.status, f"{volume} can't be copied: {fault}") from fault


@contextlib.contextmanager
def locked(folder):
    """Has the lock of a folder of volumes, which `deliver` takes as well. `hold` and `ask` serve no folder."""
    ask, name = ask_itself(), folder.rstrip("/") + ".lock"
    end = time.monotonic() + ask.PATIENCE
    while (lock := ask.try_lock(name, folder)) is None:
        if time.monotonic() > end:
            raise Failed(os.EX_TEMPFAIL, f"another process keeps the lock {name}")
        time.sleep(0.05)
    try:
        yield
    finally:
        os.close(lock)


def volumes_of(folder):
    """The paths of the volumes in a folder, the oldest first. A newest one that was only begun isn't among them: it has no user,
    though the one before it has some."""
    names = sorted(name for name in os.listdir(folder) if VOLUME.fullmatch(name))
    if not names:
        raise Failed(os.EX_NOINPUT, f"the folder {folder} has no volume")
    for number, name in enumerate(names, int(names[0][:8])):
        if int(name[:8]) != number:
            raise Failed(os.EX_DATAERR, f"the folder {folder} has no volume {number:08}.depot, which is before {names[-1]}")
    paths = [os.path.join(folder, name) for name in names]
    for path in paths:
        if os.path.islink(path) or not os.path.isfile(path) or os.stat(path).st_nlink != 1:
            raise Failed(os.EX_DATAERR, f"the volume {path} is no regular file, or has a second name")
    if len(paths) > 1 and not lasts_in(paths[-1], folder):
        paths.pop()
    return paths


def lasts_in(volume, folder):
    """The last number of each user in a volume, by `inspect`."""
    with locked(folder):
        done = inspected(volume)
    said = done.stdout.decode(errors="replace")
    if done.returncode and not said.startswith("no depot: it is empty\n"):
        status = os.EX_TEMPFAIL if said.startswith("no depot: another process") else os.EX_DATAERR
        raise Failed(status, f"{volume}: {(said or done.stderr.decode(errors='replace')).strip()}")
    return {user: int(last) for user, last in re.findall(r'^user "([^"]*)" last ([0-9]+) ', said, re.MULTILINE)}
