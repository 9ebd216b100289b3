// web_tables.mjs: the functions of the page that make rows and words of texts. The last line counts the checks.
import assert from "node:assert";
import fs from "node:fs";
import { check, finish, functionsOf } from "./web_page.mjs";

const source = fs.readFileSync(new URL("../page/tables.js", import.meta.url), "utf8");
const tables = functionsOf(source, ["comparisonIn", "countsShown", "fieldsOf", "filtered", "gainOf", "hasSolutions", "levelByLevel",
  "levelsIn", "secondsText", "sentShown", "shownName", "shownPassword", "solutionsIn", "sorted", "ticksLeft", "timeLeft", "timeShown",
  "totalShown"]);

/** Counts a check that two values are the same. */
function same(name, got, wanted) {
  try {
    assert.deepStrictEqual(got, wanted);
    check(name, true);
  } catch {
    check(`${name}: ${JSON.stringify(got)}`, false);
  }
}

// What Tile World 1.3 lists for these limits and ticks.
for (const [limit, ticks, lynx] of [[200, 100, "195 - .00"], [150, 800, "110 - .00"], [200, 637, "169 - .85"], [200, 19, "200 - .95"],
  [200, 20, "199 - .00"], [200, 3999, "1 - .95"], [200, 4001, "0 - .05"], [0, 11, "999 - .55"], [0, 3999, "800 - .95"]]) {
  same(`time left under Lynx, ${ticks} ticks`, tables.timeLeft(limit, ticks, "lynx"), lynx);
}
for (const [ticks, ms] of [[1, "999 - .0"], [2, "999 - .1"], [7, "999 - .3"], [19, "999 - .9"], [20, "998 - .0"], [637, "968 - .8"]]) {
  same(`time left under MS, ${ticks} ticks`, tables.timeLeft(0, ticks, "ms"), ms);
}

same("seconds", [0, 1, 19, 637, 4294967295, -2801].map(tables.secondsText), ["0.00", "0.05", "0.95", "31.85", "214748364.75", "-140.05"]);
same("names", ["mine.tws", "a\u202etws.exe", "two\nlines"].map(tables.shownName), ["mine.tws", "a?tws.exe", "two?lines"]);
same("passwords", ["BDHP", "x3c623e26", "x41420043", "x20202020", "xABCD1234"].map(tables.shownPassword),
  ["BDHP", "<b>&", "x41420043", "    ", "xABCD1234"]);

// Columns are read by their names, as further ones may be added.
const csv = "password,level,ticks,seconds,moves,more\nBDHP,1,100,5.00,4,x\nx3c623e26,2,7,0.35,1,y\n";
same("solutions", tables.solutionsIn(csv), [
  { level: 1, password: "BDHP", ticks: 100, seconds: "5.00", moves: 4 },
  { level: 2, password: "<b>&", ticks: 7, seconds: "0.35", moves: 1 },
]);
same("no solutions", tables.solutionsIn("level,password,ticks\n"), []);

const comparison = tables.comparisonIn("level 1 BDHP mine better by 537 ticks\nlevel 2 JXMJ only mine\nlevel 3 x00000000 equal\n" +
  "level 4 ABCD tie, theirs is kept\nlevel 9 KCRE only theirs\n" +
  "levels 5 only mine 1 only theirs 1 mine better 1 theirs better 0 equal 1 tie 1\n");
same("standings", comparison.rows.map((row) => [row.level, row.words, row.side, row.ticks]), [
  [1, "mine better by 26.85 s", "mine", 537], [2, "only mine", "mine", 0], [3, "tie", "tie", 0],
  [4, "tie, theirs is kept", "tie", 0], [9, "only theirs", "theirs", 0],
]);
same("by gain", tables.sorted(comparison.rows, tables.gainOf, true).map((row) => row.level), [2, 1, 3, 4, 9]);
same("counts", tables.countsShown(comparison.counts),
  "5 levels: 1 only mine, 1 mine better, 2 tied, 0 theirs better, 1 only theirs");
const nothing = "levels 0 only mine 0 only theirs 0 mine better 0 theirs better 0 equal 0 tie 0\n";
same("a comparison of nothing", tables.comparisonIn(nothing).rows, []);

same("fields", ['1,ABCD,"A, ""B""",200', "1,ABCD", "1,,", "", ' 1 , "A" '].map(tables.fieldsOf),
  [["1", "ABCD", 'A, "B"', "200"], ["1", "ABCD"], ["1", "", ""], [], ["1", '"A"']]);
const list = "\ufeffnumber,password,name,limit\r\n1,BDHP,KEYS AND CHIPS,200\r\n2,JXMJ,,150\n9,KCRE,\"THE, END\"\n\n<html>\n";
const levels = tables.levelsIn(list);
same("levels", levels.map((level) => Object.values(level)),
  [[1, "BDHP", "KEYS AND CHIPS", 200], [2, "JXMJ", "", 150], [9, "KCRE", "THE, END", 0]]);

same("limits and numbers that are none", tables.levelsIn("1,BDHP,A,2:30\n1,BDHP,B,10\n2,JXMJ,C,Infinity\n123456,NONE,D,1\n3,KCRE,E,-5").map(Object.values),
  [[1, "BDHP", "A", 0], [2, "JXMJ", "C", 0], [3, "KCRE", "E", 0]]);
same("solutions are no levels", [csv, list].map(tables.hasSolutions), [true, false]);

const solved = (level, password, ticks) => ({ level, password, ticks });
const lynx = [solved(1, "BDHP", 637), solved(1, "BDHP", 100), solved(5, "NONE", 40)], ms = [solved(9, "KCRE", 7)];
const rows = tables.levelByLevel(levels, lynx, ms);
same("level by level", rows.map((row) => [row.level, tables.timeShown(row, "lynx"), tables.timeShown(row, "ms")]),
  [[1, "195 - .00", ""], [2, "", ""], [5, "2.00 s", ""], [9, "", "999 - .3"]]);
same("by the time left", tables.sorted(rows, (row) => tables.ticksLeft(row, "lynx"), false).map((row) => row.level), [1, 2, 5, 9]);
same("ticks left", [{ limit: 200, lynx: 100 }, { limit: 0, lynx: 11 }, { lynx: 5 }, { limit: 9 }].map((row) => tables.ticksLeft(row, "lynx")),
  [3900, 19969, undefined, undefined]);
same("totals", ["lynx", "ms"].map((ruleset) => tables.totalShown(rows, ruleset)),
  ["2 of 4 solved, 195.00 s left without 1 that has no limit", "1 of 4 solved"]);

same("sorted", tables.sorted([{ a: 2 }, {}, { a: 10 }, { a: 1 }], "a", true).map((row) => row.a), [10, 2, 1, undefined]);
same("filtered", tables.filtered([{ a: "Keys", b: 1 }, { a: "End", b: 10 }], " E", ["a"]).length, 2);
same("filtered by what is shown", tables.filtered([{ a: 1 }, { a: 2 }], "two", [(row) => ["one", "two"][row.a - 1]]), [{ a: 2 }]);
same("filtered by a number", tables.filtered([{ a: "Keys", b: 1 }, { a: "End", b: 10 }], "10", ["a", "b"]), [{ a: "End", b: 10 }]);

same("sent", tables.sentShown("sent 51 bytes\nstatus 0\n"),
  { sent: true, words: "Sent: the archive has taken the file. Its records here show it once they are published again. (sent 51 bytes)" });
same("too long", tables.sentShown("too long\nstatus 1\n").words, "Not sent: the file is too long. (too long)");
const unreadable = "tws: standard input: unreadable: BadSignature\ntws: this is no solution file\nstatus 3\n";
same("no solution file", tables.sentShown(unreadable).words.split(" (")[0], "Not sent: this is not a solution file.");
same("timed out", tables.sentShown("tws: transfer failed: timed out\nstatus 4\n").words,
  "Not sent: the archive does not answer. (tws: transfer failed: timed out)");
same("refused", tables.sentShown("tws: transfer failed: refused 0\ntws: the server says: not kept\nstatus 4\n").words,
  "Not sent: the archive refused it. (tws: transfer failed: refused 0 tws: the server says: not kept)");
same("no answer", tables.sentShown("<html>").sent, false);
finish();
