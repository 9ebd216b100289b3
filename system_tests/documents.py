#!/usr/bin/env python3
"""Checks the documents: `names`, that what they cite in backticks and link to is in the tree; `callers`, that the
callers that they quote are those of the crate `uses`; `heads`, that no two files of proofs begin with the same comment;
`sessions`, that a shell prints what they say. The arguments say which of these, by default all. The last line is
'N passed, M failed, K skipped': a session of a program that is not built is skipped."""
import functools
import os
import queue
import re
import signal
import subprocess
import sys
import tempfile
import threading
from pathlib import Path

# Words in backticks that are no names of the tree: values of fields, words of standards, and commands of the system.
WORDS = set("""
BBBB BDHP CCCC abcd ABCD blksize localhost lynx mail ms netascii octet timeout tsize windowsize
bash cachegrind callgrind curl flock free malloc memcpy nohup perf python3 renice rustc strace tftp tworld valgrind
abbrev as case cc continue data elim false impl let match mod record requires ruleset suc true unfolding unsafe use using where zero
Dec
""".split())

# Files that are no part of the tree: a server's, those of its history, a player's, and Tile World's.
FOREIGN_FILES = {
    "best.tws", "lynx.tws", "ms.tws", "upload.tws", "solution.c", "sent/2026-11-27/0-lynx.tws",
    "2026-11-27/20261127T091501.004Z-203.0.113.7-5000-lynx.tws",
}

# What the scripts at the top make.
MADE_FILES = {"dist/tws.html"}

# Options of other programs, and of `check`.
FOREIGN_OPTIONS = set("""
--quick --backend --branch-sim --dump-instr --exclude --fix-imports --ignore-existing --incremental --jobs --now --only --option --test --tftp-no-options --tool
""".split())

# The programs that sessions run, each with what the commands that need it have in them.
PROGRAMS = {"tws": r"\btws ", "replay_schedule": r"\./replay_schedule|draw\.py"}

EXTENSIONS = (".antt", ".bash", ".c", ".cgi", ".css", ".edit", ".h", ".html", ".js", ".md", ".py", ".rt", ".service", ".tws", ".txt")
NAME = r"[A-Za-z_][\w-]*"
# What a script of the page defines, an element of the page, and a function of a shell script.
PAGE_NAME = re.compile(r"^(?:async )?(?:function|const|let|class) (\w+)|\bid=\"([\w-]+)\"|^(\w+)\(\) \{", re.M)
# A definition, with or without its parameters, a constructor or a field.
DEFINITION = re.compile(r"\s*(?:(?:pub|abbrev|record|data) )*([^\s:({=-][^\s:({]*)(?: [^:=]*)? (?::|=)(?: |$)")


class Crate:
    """What one crate defines."""

    def __init__(self):
        self.names = set()
        self.members = {}  # of a type or trait: its functions, variants and fields
        self.clauses = {}  # of a function: the names of its clauses
        self.laws = set()

    def member(self, owner, name):
        self.members.setdefault(owner, set()).add(name)
        self.names.add(name)


def read_rust(crate, path):
    """Adds the names of one source file, which `rt fmt` has formatted."""
    owner = function = None
    crate.names.add(path.stem)
    # A long head of an impl has its type on the next line.
    for line in re.sub(r"(?m)^(impl\b.*)\n +for ", r"\1 for ", path.read_text()).splitlines():
        if match := re.match(r"(?:unsafe )?impl\b.*", line):
            # The type is what comes after `for`, or else after the parameters of the impl.
            target = line.split(" for ")[-1] if " for " in line else re.sub(r"^(unsafe )?impl(<(?:[^<>]|<[^<>]*>)*>)? ", "", line)
            owner = re.match(r"\W*(\w+)", target).group(1)
            function = None
        elif match := re.match(r"(?:pub(?:\(crate\))? )?(struct|enum|trait) (\w+)", line):
            owner = match.group(2)
            function = None
            crate.names.add(owner)
        elif line == "}":
            owner = None
        if match := re.match(r"\s*(?:pub(?:\(crate\))? )?(?:const )?(?:unsafe )?fn (\w+)", line):
            function = match.group(1)
            if owner and line.startswith(" "):
                crate.member(owner, function)
                function = f"{owner}::{function}"
            else:
                crate.names.add(function)
                if path.stem == "laws":
                    crate.laws.add(function)
        elif match := re.match(r"\s*(?:ensures|requires) (?:(\w+) )?\{", line):
            if match.group(1) and function:
                crate.clauses.setdefault(function, set()).add(match.group(1))
                crate.names.add(match.group(1))
        elif match := re.match(r"\s*ghost (\w+)\s*[:=]", line):
            crate.member(owner, match.group(1))
        elif match := re.match(r"\s*(?:pub(?:\(crate\))? )?(?:const|type) (\w+)", line):
            crate.names.add(match.group(1))
        elif path.stem == "keyword" and (match := re.search(r'=> b"([\w-]+)",', line)):
            crate.names.add(match.group(1))
        elif owner and (match := re.match(r"    (?:pub(?:\(crate\))? )?(\w+)(?:,$|\(|: | \{)", line)):
            crate.member(owner, match.group(1))


def read_definitions(crate, path):
    """Adds the names of one file of `specs/` or `proofs/`: definitions, constructors and fields."""
    crate.names.add(path.stem)
    for line in path.read_text().splitlines():
        if match := DEFINITION.match(line):
            crate.names.add(match.group(1).strip("«»"))


@functools.cache
def crates():
    found = {}
    for folder in sorted(Path("crates").iterdir()):
        crate = found[folder.name] = Crate()
        for path in (folder / "src").rglob("*.rt"):
            read_rust(crate, path)
        for part in ("specs", "proofs"):
            for path in (folder / part).rglob("*.antt"):
                read_definitions(crate, path)
    return found


@functools.cache
def scripts():
    """What the page for browsers and the files in `contrib` define, as one crate."""
    found = Crate()
    for path in [*Path("page").glob("*.js"), *Path("page").glob("*.html"), *Path("contrib").rglob("*")]:
        if path.is_file():
            for names in PAGE_NAME.findall(path.read_text()):
                found.names.update(name for name in names if name)
    return found


@functools.cache
def below(name):
    """A crate and those that it depends on, libraries of the toolchain left out."""
    needs = {}
    for line in Path("crates.txt").read_text().splitlines():
        if not line.startswith("#") and ":" in line:
            crate, rest = line.split(":", 1)
            # A static library says so after its name.
            needs[crate.split()[0]] = rest.split()
    seen, left = [], [name]
    while left:
        crate = left.pop()
        if crate in crates() and crate not in seen:
            seen.append(crate)
            left += needs.get(crate, [])
    return seen


@functools.cache
def libraries():
    """The crates, and the libraries of the toolchain that they use."""
    return set(re.findall(r"\w+", re.sub("#.*", "", Path("crates.txt").read_text())))


@functools.cache
def files():
    """All files of the tree but those that are built."""
    found = []
    for folder, folders, names in os.walk("."):
        folders[:] = [name for name in folders if name not in (".git", "dist", "out", "__pycache__")]
        found += [os.path.normpath(os.path.join(folder, name)) for name in sorted(names)]
    return found


@functools.cache
def options():
    """The options of the program, by its command line."""
    sources = [path.read_text() for crate in ("show_commands", "file_commands", "archive_arguments", "archive_commands", "archive_serving", "host_serving", "tws_tool") for path in Path(f"crates/{crate}/src").rglob("*.rt")]
    names = re.compile(r'(?:\.long\(|(?:number|text|flag)_argument\(\s*alloc,)\s*"([\w-]+)"')
    return {f"--{name}" for text in sources for name in names.findall(text)} | {"--help", "--version"}


class Names:
    """What a document may cite: one in a crate's folder what that crate sees, any other all of it."""

    def __init__(self, document):
        folder = document.parts[1] if document.parts[0] == "crates" and len(document.parts) > 2 else None
        self.folder = document.parent
        self.crates = [crates()[name] for name in below(folder)] if folder else [*crates().values(), scripts()]

    def is_file(self, cited):
        if cited in FOREIGN_FILES | MADE_FILES:
            return True
        cited = cited.split("*")[0].rstrip("/") if "*" in cited else cited.rstrip("/")
        ends = {f"{cited}{extension}" for extension in ("", ".rt", ".antt")}
        if any((base / end).exists() for base in (Path("."), self.folder) for end in ends):
            return True
        return any(name.endswith(f"/{end}") or f"/{end}/" in f"/{name}" for name in files() for end in ends)

    def is_member(self, owner, name):
        return any(name in crate.members.get(owner, ()) for crate in self.crates)

    def is_name(self, name):
        if name in WORDS or name in libraries() or any(name in crate.names for crate in self.crates):
            return True
        return any(name in path.split("/") for path in files())

    def clauses(self, function):
        for crate in self.crates:
            for known, clauses in crate.clauses.items():
                if function in (known, known.split("::")[-1]):
                    yield clauses

    def has_clauses(self, function):
        return any(True for _ in self.clauses(function))

    def has_clause(self, function, clause):
        return any(clause in clauses for clauses in self.clauses(function))

    def is_law(self, name):
        return any(name in crate.laws for crate in self.crates)


def prose(document):
    """The lines outside code blocks, numbered; of a source its head comment alone."""
    block = False
    for number, line in enumerate(document.read_text().splitlines(), 1):
        if document.suffix == ".rt":
            if not line.startswith("//!"):
                return
            line = line[4:]
        if line.startswith("```"):
            block = not block
        elif not block:
            yield number, line


def documents():
    return [Path(name) for name in files() if name.endswith((".md", "/src/lib.rt"))]


def library_names(names):
    """Those of the names that the standard library and the libraries in `crates.txt` define."""
    if not names:
        return set()
    page = subprocess.run(["rt", "doc"], capture_output=True, text=True, check=True).stdout.strip()
    folder = Path(page).parent / "rattle"
    used = set(re.findall(r"\w+", Path("crates.txt").read_text())) | {"core", "std", "std_alloc", "std_collections", "std_io"}
    found = subprocess.run(
        ["grep", "-rwhF", "--include=*.rt", "--include=*.antt", "--include=*.md", "-f", "-"]
        + [folder / name for name in sorted(used) if (folder / name).is_dir()],
        input="\n".join(sorted(names)), capture_output=True, text=True,
    )
    defined = set()
    for line in found.stdout.splitlines():
        if match := re.match(r"\s*(?:pub )?(?:const |unsafe )*(?:fn|struct|enum|trait|type|mod|const|ghost) (\w+)", line):
            defined.add(match.group(1))
        if match := DEFINITION.match(line):
            defined.add(match.group(1))
        if match := re.match(r"\s+(\w+)(?:\(.*\))?,$", line):
            defined.add(match.group(1))
        if match := re.match(r"(?:pub )?use .*\{(.*)\}", line):
            defined.update(re.findall(r"[\w-]+", match.group(1)))
    return defined & names


def faults_in(document):
    """What the document cites that is not there, as (line, text, the name to look for in the toolchain or None)."""
    names = Names(document)
    for number, line in prose(document):
        for match in re.finditer(r"`([^`]+)`", line):
            span = match.group(1)
            fault = look_up(names, span)
            if fault is not None:
                yield number, span, fault
        for function, listed in re.findall(rf"`({NAME}(?:::\w+)?)` \(((?:`\w+`(?:, )?)+)\)", line):
            for clause in re.findall(r"\w+", listed):
                if not names.has_clause(function, clause):
                    yield number, f"{function} has no clause {clause}", ""
        for listed in re.findall(r"\blaws? ((?:`\w+`(?: \([^)]*\))?(?:, | and )?)+)", line):
            for law in re.findall(r"`(\w+)`", re.sub(r"\([^)]*\)", "", listed)):
                if not names.is_law(law):
                    yield number, f"no law {law}", ""


def look_up(names, span):
    """None if what the span cites exists, or if it is no citation; else the name that the toolchain might have."""
    if re.search(r"(\b|_)(NAME|FN|DIR)\b", span):  # any name, function or folder
        return None
    if not set(re.findall(r"(?<![\w-])--[a-z][\w-]*", span)) <= options() | FOREIGN_OPTIONS:
        return ""
    if re.fullmatch(r"[\w.*/-]+", span) and span not in (".", "..") and ("/" in span and not span.startswith("/") or span.endswith(EXTENSIONS)):
        return None if names.is_file(span) else ""
    if match := re.fullmatch(r"(\w+)(?:<.*>)?::(\w+)(?:\(.*\))?", span):
        return None if names.is_member(*match.groups()) else match.group(2)
    if (match := re.fullmatch(r"(\w+)\.(\w+)", span)) and names.has_clauses(match.group(1)):
        return None if names.has_clause(*match.groups()) else ""
    if match := re.fullmatch(rf"({NAME})(?:[(<].*[)>])?", span):
        return None if names.is_name(match.group(1)) else match.group(1)
    return None


def links_in(document):
    """Each link to a file, with its line, and each page of `docs` that is named in passing."""
    for number, line in prose(document):
        for target in re.findall(r"\]\(([^)#\s]+)\)", line):
            if "://" not in target:
                yield number, document.parent / target
        for target in re.findall(r"\bdocs/\w+\.md", line):
            yield number, Path(target)


def has_page(folder):
    """Whether the crate has a README, or needs none: only libraries of the product do."""
    name = folder.name
    return name == "uses" or name.startswith("test_") or not (folder / "src/lib.rt").exists() or (folder / "README.md").exists()


def check_names():
    passed, faults = 0, [(folder, 0, "README.md", "") for folder in Path("crates").iterdir() if not has_page(folder)]
    for document in documents():
        found = list(faults_in(document))
        faults += [(document, *fault) for fault in found]
        passed += sum(len(re.findall(r"`[^`]+`", line)) for _, line in prose(document)) - len(found)
        for number, target in links_in(document):
            if target.exists():
                passed += 1
            else:
                faults.append((document, number, str(target), ""))
    known = library_names({name for *_, name in faults if name})
    failed = 0
    for document, number, span, name in faults:
        if name and name in known:
            passed += 1
        else:
            failed += 1
            print(f"{document}:{number}: not in the tree: {span}")
    return passed, failed, 0


def flat(text):
    return [line.strip() for line in text.strip().splitlines()]


def check_callers():
    """Each caller that a crate's README quotes is in one source of the crate `uses`, line by line."""
    passed = failed = 0
    sources = [flat(path.read_text()) for path in Path("crates/uses/src").glob("*.rt")]
    for document in Path("crates").glob("*/README.md"):
        for block in re.findall(r"```rust\n(.*?)```", document.read_text(), re.S):
            quoted = flat(block)
            if any(lines[i:i + len(quoted)] == quoted for lines in sources for i in range(len(lines))):
                passed += 1
            else:
                failed += 1
                print(f"{document}: its caller is not in crates/uses")
    return passed, failed, 0


def check_heads():
    """No two files of proofs of the crates, those in folders left out, begin with the same comment line."""
    passed = failed = 0
    first = {}
    for path in sorted(Path("crates").glob("*/proofs/*.antt")):
        head = path.read_text().partition("\n")[0].strip()
        if not head.startswith("--"):
            continue
        if head in first:
            failed += 1
            print(f"{path}: begins as {first[head]} does: {head}")
        else:
            passed += 1
            first[head] = path
    return passed, failed, 0


def built(program):
    return Path(f"crates/{program}/out/{program}")


def is_runnable(steps):
    """Whether the programs of a session are built."""
    lacking = [needed for program, needed in PROGRAMS.items() if not built(program).exists()]
    return not any(re.search(needed, command) for needed in lacking for command, _ in steps)


class Shell:
    """A shell in a folder of its own, with the built programs (so that no launcher proves them first), the examples, `contrib` and
    these scripts."""

    def __init__(self, folder):
        for name in PROGRAMS:
            os.symlink(built(name).resolve(), Path(folder, name))
        for name in ("contrib", "examples", "system_tests"):
            os.symlink(Path(name).resolve(), Path(folder, name))
        self.process = subprocess.Popen(
            ["bash", "--norc"], cwd=folder, text=True, bufsize=1, start_new_session=True,
            stdin=subprocess.PIPE, stdout=subprocess.PIPE, stderr=subprocess.STDOUT,
        )
        self.lines = queue.Queue()
        threading.Thread(target=self.read, daemon=True).start()

    def read(self):
        for line in self.process.stdout:
            # What a shell says of a job that was ended.
            if not re.search(r"\bTerminated\b", line):
                self.lines.put(line.rstrip("\n"))

    def run(self, command, wanted):
        """What the command prints; of one in the background, as many lines as are wanted."""
        end = "end of the command"
        print(command, f"echo {end}", sep="\n", file=self.process.stdin, flush=True)
        printed, ended = [], False
        try:
            while not ended or (command.endswith("&") and len(printed) < len(wanted)):
                line = self.lines.get(timeout=60)
                if line == end:
                    ended = True
                else:
                    printed.append(line)
        except queue.Empty:
            printed.append("(nothing more within a minute)")
        return printed

    def end(self):
        """Ends what the shell left running, and the shell."""
        print("kill $(jobs -p)", "wait", "exit", sep="\n", file=self.process.stdin, flush=True)
        try:
            self.process.wait(timeout=10)
        except subprocess.TimeoutExpired:
            os.killpg(self.process.pid, signal.SIGKILL)
            self.process.wait()


def sessions_in(document):
    """Each block that begins with a command, as a list of commands with the lines that they print."""
    for block in re.findall(r"^```\n(\$ .*?)^```", document.read_text(), re.S | re.M):
        steps = []
        for line in block.splitlines():
            if line.startswith("$ "):
                steps.append((line[2:], []))
            else:
                steps[-1][1].append(line)
        yield steps


def check_sessions():
    """Each session prints what the document says. They use the default port."""
    passed = failed = skipped = 0
    for document in documents():
        for steps in sessions_in(document):
            if not is_runnable(steps):
                skipped += 1
                continue
            with tempfile.TemporaryDirectory() as folder:
                shell = Shell(folder)
                for command, wanted in steps:
                    printed = shell.run(command, wanted)
                    if printed == wanted:
                        passed += 1
                        continue
                    failed += 1
                    print(f"{document}: $ {command}", *printed, sep="\n")
                    break
                shell.end()
    return passed, failed, skipped


def main():
    parts = {"names": check_names, "callers": check_callers, "heads": check_heads, "sessions": check_sessions}
    counts = [parts[name]() for name in sys.argv[1:] or parts]
    passed, failed, skipped = (sum(column) for column in zip(*counts))
    print(f"{passed} passed, {failed} failed, {skipped} skipped")
    return 1 if failed else 0


if __name__ == "__main__":
    sys.exit(main())
