"""The programs by which the judge tells good solution files from bad ones, tws and tworld, and the files as they read them."""
import os
import re
import resource
import shutil
import signal
import struct
import subprocess

# The rulesets, each with the byte that the header of a file has for it.
RULESETS = {"lynx": 1, "ms": 2}
HEADER_LENGTH = 8
# What a replay may use: processor time, more than an honest file needs, and memory.
REPLAY_SECONDS = 60
MEMORY_BYTES = 2 << 30
# After so long, on a busy machine, a file is left for the next run.
PATIENCE_SECONDS = 1800
# So much of what Tile World prints is looked at.
OUTPUT_BYTES = 4 << 20
# The signals by which a file may end Tile World. By any other somebody else did.
SIGNALS_OF_FILES = {signal.SIGXCPU, signal.SIGSEGV, signal.SIGBUS, signal.SIGABRT, signal.SIGFPE, signal.SIGILL}
# So many files are opened at a time.
FILES_AT_ONCE = 100


class Trouble(Exception):
    """What ends a run: a line for the operator, and the exit status."""

    def __init__(self, line, status=2):
        super().__init__(line)
        self.status = status


class Undecided(Trouble):
    """Whether a file is good could not be found out."""


class Vanished(Exception):
    """A file that was listed is no longer there."""


def printable(text):
    """Text that others made, in one line of printable ASCII of at most 200 characters."""
    return re.sub(r"[^ -~]", "?", text)[:200]


def last_line(data):
    """The last line that a program printed."""
    lines = data.decode("latin-1").strip().splitlines()
    return printable(lines[-1]) if lines else "no reason given"


def collection_of(ruleset, solutions=()):
    """The text of a file with these records."""
    return bytes([0x35, 0x33, 0x9B, 0x99, RULESETS[ruleset], 0, 0, 0]) + b"".join(solutions)


def solutions_of(collection):
    """The records of a text that `tws` wrote as a collection, each of which is a solution."""
    found, at = [], HEADER_LENGTH
    while at < len(collection):
        size, = struct.unpack_from("<I", collection, at)
        found.append(collection[at:at + 4 + size])
        at += 4 + size
    return found


def number_of(solution):
    """The number of the solution's level."""
    return int.from_bytes(solution[4:6], "little")


def password_of(solution):
    """The password of the solution's level, as it is in the file."""
    return solution[6:10]


def key_of(solution):
    """By what the solutions of a collection are ordered."""
    return number_of(solution), password_of(solution)


def layers(solutions):
    """These solutions, but for those that stop Tile World, in lists with no password twice, low numbers in the last list.
    Tile World finds a level by its password too, and takes the last solution: so none hides another in its list."""
    lists, count = [], {}
    for solution in solutions:
        if number_of(solution) != 0 and len(solution) > 20:
            at = count[password_of(solution)] = count.get(password_of(solution), -1) + 1
            lists += [[]] if at == len(lists) else []
            lists[at].append(solution)
    return lists[::-1]


class Tws:
    """The program `tws`: that beside the judge, which is in this folder, or that on the PATH."""

    def __init__(self, here):
        beside = [path for path in (here / "tws", here.parent / "tws") if path.is_file()]
        self.program = beside[0] if beside else shutil.which("tws")
        if self.program is None:
            raise Trouble("tws is neither beside the judge nor on the PATH")

    def run(self, *words, data=b""):
        """Runs a command on this standard input."""
        try:
            return subprocess.run([self.program, *words], input=data, capture_output=True)
        except OSError as fault:
            raise Trouble(f"tws does not run: {fault.strerror}") from None

    def contribution(self, ruleset, path):
        """What a collection takes from this file; None if it is no solution file."""
        ran = self.run("best", ruleset, path)
        if ran.returncode == 0:
            return ran.stdout
        if not path.exists():
            raise Vanished
        if ran.returncode == 3:
            return None
        raise Trouble(f"{path.name}: {last_line(ran.stderr)}")

    def best(self, ruleset, paths):
        """The collection over these files, without those that have vanished."""
        text = collection_of(ruleset)
        for first in range(0, len(paths), FILES_AT_ONCE):
            some = paths[first:first + FILES_AT_ONCE]
            while (ran := self.run("best", ruleset, "-", *some, data=text)).returncode != 0:
                there = [path for path in some if path.exists()]
                if len(there) == len(some):
                    raise Trouble(f"tws best: {last_line(ran.stderr)}")
                some = there
            text = ran.stdout
        return text

    def better(self, mine, theirs, room):
        """The solutions of one collection that are better than those of another, or new to it."""
        paths = room / "mine.tws", room / "theirs.tws"
        for path, text in zip(paths, (mine, theirs)):
            path.write_bytes(text)
        ran = self.run("compare", "--better", *paths)
        if ran.returncode != 0:
            raise Trouble(f"tws compare: {last_line(ran.stderr)}")
        return solutions_of(ran.stdout)


class TileWorld:
    """The program `tworld` with a level set for one or both rulesets: what it replays is judged."""

    def __init__(self, names, room):
        self.room = room
        self.sets = {}  # by ruleset: the level set
        self.usual = {}  # by ruleset: what is printed as errors for a file without solutions too
        self.program = shutil.which("tworld")
        if self.program is None:
            raise Trouble("tworld is not on the PATH; Debian has it in /usr/games")
        for name in names:
            ruleset = self.ruleset(name)
            if ruleset in self.sets:
                raise Trouble(f"{self.sets[ruleset]} and {name} are both of the ruleset {ruleset}", 1)
            self.sets[ruleset] = name
            self.usual[ruleset] = set(self.replay(name, collection_of(ruleset))[2])

    def ruleset(self, name):
        """The ruleset of a level set: Tile World accepts an empty file of that one alone. So it reads files at all."""
        found = []
        for ruleset in RULESETS:
            status, table, errors = self.replay(name, collection_of(ruleset))
            if status != 0 or not is_table(table):
                raise Trouble(f"tworld replays nothing with the level set {name}: {reason(errors[-1:], status)}")
            if not any("different ruleset" in line for line in errors):
                found.append(ruleset)
        if len(found) != 1:
            raise Trouble(f"tworld does not read files in {self.room}")
        return found[0]

    def replay(self, name, text):
        """Replays the solutions of a text: the status, the lines of the table, and those of errors."""
        path = self.room / "judged.tws"
        path.write_bytes(text)
        nobody = {"user": 65534, "group": 65534, "extra_groups": []} if os.geteuid() == 0 else {}
        home = {"HOME": str(self.room), "SDL_VIDEODRIVER": "dummy", "SDL_AUDIODRIVER": "dummy"}
        try:
            ran = subprocess.run(
                [self.program, "-r", "-b", "-t", name, path], cwd=self.room, env={**os.environ, **home}, **nobody,
                stdin=subprocess.DEVNULL, capture_output=True, preexec_fn=limit_replay, timeout=PATIENCE_SECONDS,
            )
        except subprocess.TimeoutExpired:
            raise Undecided(f"tworld did not end in {PATIENCE_SECONDS} seconds") from None
        except OSError as fault:
            raise Trouble(f"tworld does not run: {fault.strerror}") from None
        table, errors = (
            [line for line in printed[:OUTPUT_BYTES].decode("latin-1").split("\n") if line.strip()]
            for printed in (ran.stdout, ran.stderr)
        )
        return ran.returncode, table, errors

    def solved(self, ruleset, solutions):
        """The numbers of the levels that Tile World takes as solved by these; all if one of them ends it."""
        if ruleset not in self.sets:
            return set()
        status, table, _ = self.replay(self.sets[ruleset], collection_of(ruleset, solutions))
        if status != 0:
            return {number_of(solution) for solution in solutions}
        return {int(line.split()[0]) for line in table[1:] if not is_bad(line)}

    def fault(self, ruleset, text):
        """Why the solutions of a collection are not all good; None if they are."""
        solutions = solutions_of(text)
        if not solutions:
            return None
        if ruleset not in self.sets:
            return f"the level set has no ruleset {ruleset}"
        status, table, errors = self.replay(self.sets[ruleset], text)
        errors = [line for line in errors if line not in self.usual[ruleset]]
        if status < 0 and -status not in SIGNALS_OF_FILES:
            raise Undecided(f"tworld was ended by signal {-status}")
        bad = [line.split()[0] for line in table[1:] if is_bad(line)]
        numbers = sorted(line.split()[0] for line in table[1:])
        if status != 0 or errors:
            fault = reason(errors[:1], status)
        elif bad:
            fault = f"level {bad[0]} is not solved by these moves in these ticks"
        elif numbers != sorted(str(number_of(solution)) for solution in solutions):
            fault = "has levels that Tile World does not take as solved"
        else:
            return None
        # What fails with any file is no fault of this one.
        self.ruleset(self.sets[ruleset])
        return fault


def is_bad(line):
    """Whether this line of a table is of a level that is not solved."""
    return line.rstrip().endswith("*BAD*")


def is_table(lines):
    """Whether these lines begin a table of levels."""
    return bool(lines) and lines[0].split() == ["Level", "Name", "Time", "Solution"]


def reason(errors, status):
    """What Tile World says, without its place in a source or the file's in a folder, or else how it ended."""
    if status == -signal.SIGXCPU:
        return f"its replay takes more than {REPLAY_SECONDS} seconds"
    if errors:
        return printable(re.sub(r"^\w+: \[[^]]*\] (/\S*/judged\.tws: )?", "", errors[0]))
    return f"tworld ended with status {status}"


def limit_replay():
    """Limits what a replay may use, since its file may be made to do harm. It writes no file."""
    resource.setrlimit(resource.RLIMIT_CPU, (REPLAY_SECONDS, REPLAY_SECONDS + 5))
    resource.setrlimit(resource.RLIMIT_AS, (MEMORY_BYTES, MEMORY_BYTES))
    resource.setrlimit(resource.RLIMIT_FSIZE, (0, 0))
    resource.setrlimit(resource.RLIMIT_CORE, (0, 0))
