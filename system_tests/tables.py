#!/usr/bin/env python3
"""Compares the tables of the built program, comma-separated values and pages, with what another reader finds in the same
files, and each page with what Chromium shows of it, if that is installed. The last line is 'N passed, M failed, K skipped'."""
import csv
import html.parser
import io
import pathlib
import shutil
import subprocess
import sys
import tempfile

import moves

PROGRAM = pathlib.Path("crates/tws/out/tws").resolve()
COLUMNS = "level password ticks seconds moves bytes flags start seed ruleset".split()
RULESETS = {1: "lynx", 2: "ms"}
TITLES = {"lynx": "Lynx", "ms": "MS"}


def record(number, password, ticks, spelled=b"", flags=0, start=0, seed=0):
    """A solution's record."""
    body = number.to_bytes(2, "little") + password + bytes([flags, start]) + seed.to_bytes(4, "little") + ticks.to_bytes(4, "little") + spelled
    return len(body).to_bytes(4, "little") + body


LYNX, MS = bytes.fromhex("35339B9901000000"), bytes.fromhex("35339B9902000000")

# Passwords with characters that have a meaning in HTML, in pairs so that all five occur; with spaces at their ends; with
# bytes that are no characters of ASCII, and with letters. The greatest number of ticks, and times that end in 5 hundredths.
MADE = LYNX + b"".join([
    record(1, b"<b>&", 1),
    record(2, b"\"'<>", 19),
    record(3, b"&lt;", 20),
    record(4, b" a  ", 2 ** 32 - 1, b"\x00\x61", 255, 11, 2 ** 32 - 1),
    record(5, b"~!\x7f ", 399),
    record(6, b"\x00\xff\r\n", 400),
    record(65535, b"BDHP", 401, b"\x01"),
    record(8, b"</td", 4010),
    bytes(4),
    bytes.fromhex("06000000 0900 41424344"),
])


def solutions(data):
    """The rows that a file's solutions have, and their passwords, by a reader of its own."""
    rows, passwords, at = [], [], 8 + data[7]
    while at < len(data):
        size = int.from_bytes(data[at : at + 4], "little")
        body = data[at + 4 : at + 4 + size]
        at += 4 + size
        if size < 16 or body[:6] == bytes(6):
            continue
        password, ticks = body[2:6], int.from_bytes(body[12:16], "little")
        rows.append([
            str(int.from_bytes(body[:2], "little")),
            password.decode() if password.isalpha() and password.isascii() else "x" + password.hex(),
            str(ticks),
            f"{ticks * 5 // 100}.{ticks * 5 % 100:02}",
            str(len(moves.read_moves(body[16:])[0])),
            str(size - 16),
            f"{body[6]:02x}",
            f"{body[7]:02x}",
            str(int.from_bytes(body[8:12], "little")),
            RULESETS[data[4]],
        ])
        passwords.append(password)
    return rows, passwords


def shown(password):
    """A password as a page is to show it."""
    return password.decode() if all(32 <= byte < 127 for byte in password) else "x" + password.hex()


def set_name(data):
    """The name of the level set that a file has in its first record, as a page is to show it."""
    at = 8 + data[7]
    body = data[at + 4 : at + 4 + int.from_bytes(data[at : at + 4], "little")]
    name = body[16:].split(b"\0")[0] if body[:6] == bytes(6) else b""
    return "".join(chr(byte) if 32 <= byte < 127 else "?" for byte in name[:64])


def tables(files):
    """What a page of these files is to show: for each its heading, its counts, and the cells of its table."""
    found = []
    for data in files:
        rows, passwords = solutions(data)
        hundredths = sum(int(row[2]) for row in rows) * 5
        counts = f"Solutions: {len(rows)}, seconds in all: {hundredths // 100}.{hundredths % 100:02}"
        cells = [["Level", "Password", "Seconds", "Ticks", "Moves", "Bytes"]]
        cells += [[row[0], shown(password), row[3], row[2], row[4], row[5]] for row, password in zip(rows, passwords)]
        name = set_name(data)
        found.append((TITLES[RULESETS[data[4]]] + (f": {name}" if name else ""), counts, cells))
    return found


class Page(html.parser.HTMLParser):
    """Reads the tables of a page, and notes what would lead out of it."""

    def __init__(self, text):
        super().__init__()
        self.tables, self.outside, self.open, self.text = [], [], [], None
        self.feed(text)
        self.close()

    def handle_starttag(self, tag, attributes):
        if tag == "script" or any(name in ("href", "src", "style") or name.startswith("on") for name, _ in attributes):
            self.outside.append(tag)
        if tag == "section":
            self.tables.append(["", "", []])
        if tag == "tr":
            self.tables[-1][2].append([])
        if tag in ("h2", "p", "th", "td"):
            self.text = ""
        if tag != "meta":
            self.open.append(tag)

    def handle_endtag(self, tag):
        if self.open.pop() != tag:
            self.outside.append(f"/{tag}")
        if tag == "h2":
            self.tables[-1][0] = self.text
        if tag == "p":
            self.tables[-1][1] = self.text
        if tag in ("th", "td"):
            self.tables[-1][2][-1].append(self.text)

    def handle_data(self, data):
        if self.text is not None:
            self.text += data

    def found(self):
        return [tuple(table) for table in self.tables]


class Count:
    """How many checks passed."""

    def __init__(self):
        self.passed = self.failed = self.skipped = 0

    def same(self, name, found, wanted):
        if found == wanted:
            self.passed += 1
        else:
            self.failed += 1
            print(f"failed: {name}:", found, wanted, sep="\n")


def run(*words):
    return subprocess.run([PROGRAM, *words], capture_output=True, check=False)


def browser():
    """The command of a browser that can print a page's tree, if one is installed."""
    return next((path for name in ("chromium", "chromium-browser", "google-chrome") if (path := shutil.which(name))), None)


def dumped(page, folder):
    """The page's tree as the browser has it, as HTML again."""
    command = [browser(), "--headless", "--no-sandbox", "--disable-gpu", f"--user-data-dir={folder}/browser", "--dump-dom", page.as_uri()]
    return subprocess.run(command, capture_output=True, check=True, timeout=120).stdout.decode()


def check_csv(count, name, path, data):
    done = run("show", "--csv", path)
    text = done.stdout.decode("ascii")
    count.same(f"{name}: status", (done.returncode, done.stderr), (0, b""))
    count.same(f"{name}: values", list(csv.reader(io.StringIO(text, newline=""))), [COLUMNS, *solutions(data)[0]])
    count.same(f"{name}: lines", (text.count('"'), text.count("\r"), text[-1:]), (0, 0, "\n"))


def check_page(count, name, paths, files, folder):
    done = run("page", *paths)
    page = folder / "page.html"
    page.write_bytes(done.stdout)
    count.same(f"{name}: status", (done.returncode, done.stderr), (0, b""))
    read = Page(done.stdout.decode("ascii"))
    count.same(f"{name}: tables", read.found(), tables(files))
    count.same(f"{name}: complete in itself", (read.outside, read.open, b"url(" in done.stdout, b"@import" in done.stdout), ([], [], False, False))
    if browser():
        count.same(f"{name}: tables in a browser", Page(dumped(page, folder)).found(), tables(files))
    else:
        count.skipped += 1


# Levels of the made file, and one that it has not solved, with names that mean something in HTML or to a reader of values.
LEVELS = [(65535, b"BDHP", 'A, "B"', 0), (1, b"<b>&", "<script>alert(1)</script>", 200), (7, b"NONE", "'&amp;'", 150), (8, b"</td", "", 50)]


def time_left(limit, ticks):
    """The time left under Lynx, as Tile World lists it."""
    return f"{(limit or 999) - ticks // 20} - .{ticks % 20 * 5:02}"


def check_levels(count, path, data, folder):
    """The page of a Lynx file by a list of levels."""
    text = io.StringIO(newline="")
    csv.writer(text).writerows([["number", "password", "name", "limit"]] + [[n, p.decode(), name, limit] for n, p, name, limit in LEVELS])
    (folder / "levels.csv").write_text(text.getvalue(), newline="")
    done = run("page", "--levels", folder / "levels.csv", path)
    count.same("levels: status", (done.returncode, done.stderr), (0, b""))
    rows, passwords = solutions(data)
    solved = {(int(row[0]), password): row for row, password in zip(rows, passwords)}
    cells = [["Level", "Password", "Name", "Time left", "Seconds", "Moves"]]
    for number, password, name, limit in LEVELS:
        row = solved.pop((number, password), None)
        cells.append([str(number), shown(password), name] + ([time_left(limit, int(row[2])), row[3], row[4]] if row else ["", "", ""]))
    cells += [[row[0], shown(password), "", "", row[3], row[4]] for (_, password), row in solved.items()]
    title, counts, _ = tables([data])[0]
    read = Page(done.stdout.decode("ascii"))
    count.same("levels: table", read.found(), [(title, counts, cells)])
    count.same("levels: complete in itself", (read.outside, read.open), ([], []))


def main():
    count = Count()
    with tempfile.TemporaryDirectory() as name:
        folder = pathlib.Path(name)
        made = folder / "made.tws"
        made.write_bytes(MADE)
        paths = [made] + [path for path in sorted(pathlib.Path("examples").glob("*.tws")) if path.stem not in ("broken", "cut")]
        files = [path.read_bytes() for path in paths]
        for path, data in zip(paths, files):
            check_csv(count, path.name, path, data)
        check_page(count, "the made file", paths[:1], files[:1], folder)
        check_page(count, "all files", paths, files, folder)
        check_levels(count, made, MADE, folder)
    print(f"{count.passed} passed, {count.failed} failed, {count.skipped} skipped")
    return 1 if count.failed else 0


if __name__ == "__main__":
    sys.exit(main())
