// What the page shows: functions from texts to rows and words. Numbers come from the module's texts; what is computed
// here is seconds from ticks, and the time left.
"use strict";

const TICKS_PER_SECOND = 20;
// Tile World shows this time for a level without a limit.
const NO_LIMIT = 999;

/** @typedef {{level: number, password: string, ticks: number, seconds: string, moves: number}} Solved */
/** @typedef {{level: number, password: string, words: string, side: string, ticks: number}} Standing */
/** @typedef {{level: number, password: string, name: string, limit: number}} Level */

/** Ticks as seconds. @param {number} ticks */
function secondsText(ticks) {
  if (ticks < 0) return `-${secondsText(-ticks)}`;
  const hundredths = (ticks % TICKS_PER_SECOND) * 5;
  return `${Math.floor(ticks / TICKS_PER_SECOND)}.${String(hundredths).padStart(2, "0")}`;
}

/**
 * The time left, as Tile World lists it: whole seconds, less a fraction that has two digits under Lynx and one under MS.
 * @param {number} limit @param {number} ticks @param {string} ruleset
 */
function timeLeft(limit, ticks, ruleset) {
  const whole = (limit || NO_LIMIT) - Math.floor(ticks / TICKS_PER_SECOND);
  const rest = ticks % TICKS_PER_SECOND;
  return `${whole} - .${ruleset === "ms" ? Math.floor(rest / 2) : String(rest * 5).padStart(2, "0")}`;
}

/** A name as pages show it: what would turn or break the words around it is left out. @param {string} name */
function shownName(name) {
  return name.replace(/[\p{Cc}\u061c\u200e\u200f\u2028-\u202e\u2066-\u2069]/gu, "?");
}

/** A password as pages show it: four printable characters as they are, else `x` and digits. @param {string} text */
function shownPassword(text) {
  if (!/^x[0-9a-f]{8}$/.test(text)) return text;
  const bytes = text.slice(1).match(/../g).map((digits) => parseInt(digits, 16));
  return bytes.every((byte) => byte >= 0x20 && byte <= 0x7e) ? String.fromCharCode(...bytes) : text;
}

/** The key of a level in a map. @param {{level: number, password: string}} row */
function keyOf(row) {
  return `${row.level} ${row.password}`;
}

/** The solutions of a file's comma-separated values; no field has a comma. @param {string} text @returns {Solved[]} */
function solutionsIn(text) {
  const lines = text.split("\n");
  const names = lines[0].split(",");
  const at = Object.fromEntries(names.map((name, i) => [name, i]));
  const rows = [];
  for (let i = 1; i < lines.length; i++) {
    if (lines[i] === "") continue;
    const fields = lines[i].split(",");
    const number = (name) => Number(fields[at[name]]);
    rows.push({
      level: number("level"),
      password: shownPassword(fields[at.password]),
      ticks: number("ticks"),
      seconds: fields[at.seconds],
      moves: number("moves"),
    });
  }
  return rows;
}

/** Whose a standing is. @param {string} words */
function sideOf(words) {
  if (/^(only mine|mine better)/.test(words)) return "mine";
  return /^(only theirs|theirs better)/.test(words) ? "theirs" : "tie";
}

/** A standing as players say it. @param {string} words */
function standingShown(words) {
  if (words === "equal") return "tie";
  return words.replace(/by (\d+) ticks/, (_, ticks) => `by ${secondsText(Number(ticks))} s`);
}

/** By how much mine is the better one, for sorting: what only one has is at an end. @param {Standing} row */
function gainOf(row) {
  const most = row.words.startsWith("only") ? Infinity : row.ticks;
  return row.side === "mine" ? most : row.side === "theirs" ? -most : 0;
}

/** The rows of a comparison, and its last line. @param {string} text @returns {{rows: Standing[], counts: string}} */
function comparisonIn(text) {
  const lines = text.trimEnd().split("\n");
  const counts = lines.pop();
  const rows = lines.map((line) => {
    const [, level, password, words] = line.match(/^level (\d+) (\S+) (.*)$/);
    const ticks = Number((words.match(/by (\d+) ticks/) || [0, 0])[1]);
    const shown = shownPassword(password);
    return { level: Number(level), password: shown, words: standingShown(words), side: sideOf(words), ticks };
  });
  return { rows, counts };
}

/** The counts of a comparison as a sentence. @param {string} line */
function countsShown(line) {
  const count = (name) => (line.match(new RegExp(`(?:${name}) (\\d+)`)) || [0, "0"])[1];
  const levels = count("levels") === "1" ? "1 level" : `${count("levels")} levels`;
  return `${levels}: ${count("only mine")} only mine, ${count("mine better")} mine better, ` +
    `${Number(count("equal")) + Number(count("tie"))} tied, ${count("theirs better")} theirs better, ${count("only theirs")} only theirs`;
}

/** The fields of a line of comma-separated values, in which quotes may stand around a field. @param {string} line */
function fieldsOf(line) {
  const fields = [];
  for (const [, quoted, plain] of line.matchAll(/(?:"((?:[^"]|"")*)"|([^,]*))(?:,|$)/g)) {
    fields.push((quoted === undefined ? plain : quoted.replaceAll('""', '"')).trim());
  }
  // The end of the line is matched once more, as an empty field.
  fields.pop();
  return line.endsWith(",") ? [...fields, ""] : fields;
}

/** Whether a text is the solutions of a file, as the page saves them, and no list of levels. @param {string} text */
function hasSolutions(text) {
  return fieldsOf(text.replace(/^\ufeff/, "").split(/\r?\n/)[0]).includes("ticks");
}

/**
 * The levels of a set: each line has a number, and may have a password, a name and a time limit in seconds. A line that does
 * not begin with a number says nothing, nor does one of a level that an earlier line has.
 * @param {string} text @returns {Level[]}
 */
function levelsIn(text) {
  const found = new Map();
  for (const fields of text.replace(/^\ufeff/, "").split(/\r?\n/).map(fieldsOf)) {
    const [number = "", password = "", name = "", limit = ""] = fields;
    if (!/^\d{1,5}$/.test(number)) continue;
    const seconds = /^\d{1,6}$/.test(limit) ? Number(limit) : 0;
    const level = { level: Number(number), password: shownPassword(password), name: shownName(name), limit: seconds };
    if (!found.has(keyOf(level))) found.set(keyOf(level), level);
  }
  return [...found.values()];
}

/** What a row has, by a property or a function. @param {object} row @param {string | ((row: object) => any)} what */
function valueOf(row, what) {
  return typeof what === "function" ? what(row) : row[what];
}

/**
 * Rows in the order of a property, or of what a function makes of them; those that lack it are last.
 * @param {object[]} rows @param {string | ((row: object) => any)} what @param {boolean} falls
 */
function sorted(rows, what, falls) {
  const by = new Map(rows.map((row) => [row, valueOf(row, what)]));
  const has = rows.filter((row) => by.get(row) !== undefined), lacks = rows.filter((row) => by.get(row) === undefined);
  const order = (a, b) => (by.get(a) < by.get(b) ? -1 : by.get(a) > by.get(b) ? 1 : 0);
  return [...has.sort((a, b) => (falls ? order(b, a) : order(a, b))), ...lacks];
}

/**
 * The rows in which a column, a property or what a function makes of a row, has the text.
 * @param {object[]} rows @param {string} text @param {(string | ((row: object) => any))[]} columns
 */
function filtered(rows, text, columns) {
  const wanted = text.trim().toLowerCase();
  if (wanted === "") return rows;
  return rows.filter((row) => columns.some((column) => String(valueOf(row, column) ?? "").toLowerCase().includes(wanted)));
}

/**
 * A row for each level of the set, and for each further one that is solved: what each ruleset has of it.
 * @param {Level[]} levels @param {Solved[]} lynx @param {Solved[]} ms
 */
function levelByLevel(levels, lynx, ms) {
  const rows = new Map(levels.map((level) => [keyOf(level), { ...level }]));
  for (const [ruleset, solved] of [["lynx", lynx], ["ms", ms]]) {
    for (const one of solved) {
      const key = keyOf(one);
      if (!rows.has(key)) rows.set(key, { level: one.level, password: one.password, name: "", limit: undefined });
      const row = rows.get(key);
      // A file may have several solutions of a level.
      if (row[ruleset] === undefined || one.ticks < row[ruleset]) row[ruleset] = one.ticks;
    }
  }
  return sorted([...rows.values()], "level", false);
}

/** How many levels a ruleset has solved, and the time in all. @param {object[]} rows @param {string} ruleset */
function totalShown(rows, ruleset) {
  const solved = rows.filter((row) => row[ruleset] !== undefined);
  const timed = solved.filter((row) => row.limit > 0);
  const ticks = timed.reduce((sum, row) => sum + row.limit * TICKS_PER_SECOND - row[ruleset], 0);
  const many = `${solved.length} of ${rows.length} solved`;
  const untimed = solved.length - timed.length;
  const without = untimed === 0 ? "" : ` without ${untimed} that ${untimed === 1 ? "has" : "have"} no limit`;
  return timed.length === 0 ? many : `${many}, ${secondsText(ticks)} s left${without}`;
}

/** The ticks that are left, by which times are sorted, where the level is known. @param {object} row @param {string} ruleset */
function ticksLeft(row, ruleset) {
  if (row[ruleset] === undefined || row.limit === undefined) return undefined;
  return (row.limit || NO_LIMIT) * TICKS_PER_SECOND - row[ruleset];
}

/** What a level's cell shows of a ruleset. @param {object} row @param {string} ruleset */
function timeShown(row, ruleset) {
  if (row[ruleset] === undefined) return "";
  return row.limit === undefined ? `${secondsText(row[ruleset])} s` : timeLeft(row.limit, row[ruleset], ruleset);
}

/** The lines that send a file from a shell. @param {string} host @param {string} name */
function sendingLines(host, name) {
  return [`tws put ${host} ${name}`, `curl --upload-file ${name} tftp://${host}:6969/${name}`];
}

/** What came of a send, from the lines of put.cgi, the last of which is the status. @param {string} text */
function sentShown(text) {
  const lines = text.trim().split("\n");
  const status = (lines.pop() || "").match(/^status (\d+)$/);
  const said = lines.join(" ").trim();
  if (!status) return { sent: false, words: "The web server's put.cgi gave no answer." };
  const causes = {
    0: "Sent: the archive has taken the file. Its records here show it once they are published again.",
    1: said === "too long" ? "Not sent: the file is too long." : "Not sent: put.cgi does not take this.",
    2: "Not sent: put.cgi could not run it.",
    3: "Not sent: this is not a solution file.",
    4: /timed out/.test(said) ? "Not sent: the archive does not answer." : "Not sent: the archive refused it.",
  };
  return { sent: status[1] === "0", words: `${causes[status[1]] || "Not sent."} (${said})` };
}
