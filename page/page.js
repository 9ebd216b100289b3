// The page: which files there are, and what is done with them.
"use strict";

/**
 * A file that is shown. An unreadable one has a `fault` in place of `ruleset` and `solved`.
 * @typedef {{name: string, bytes: Uint8Array, archive: boolean, ruleset: string, solved: Solved[], fault: string}} Shown
 */

/** @type {Shown[]} */
const files = [];
/** @type {Level[]} */
let levels = [];
/** Mine and theirs, once they were chosen. @type {Shown[]} */
let pair = [];
// The comparison that was asked for last: what an earlier one answers is too late.
let lastComparison = 0;
/** Where the archive's put.cgi is, if it is there. @type {string | undefined} */
let sender;

// The byte of a solution file that says its ruleset, and what it says.
const RULESET_AT = 4;
const RULESETS = { 1: "lynx", 2: "ms" };
const RULESET_NAMES = { lynx: "Lynx", ms: "MS" };

// ---- calls

const calls = new Map();
let lastCall = 0;
const worker = new Worker(URL.createObjectURL(new Blob([byId("worker").textContent], { type: "text/javascript" })));
const isReady = new Promise((resolve) => {
  worker.onmessage = ({ data }) => {
    if (data.id === undefined) return resolve(data);
    const settle = calls.get(data.id);
    calls.delete(data.id);
    byId("working").hidden = calls.size === 0;
    settle(data);
  };
});

// The worker keeps each file that it was sent, as a copy of a large one takes time, until the page has no use for it.
const numbers = new WeakMap();
let lastNumber = 0;
const forgotten = new FinalizationRegistry((number) => worker.postMessage({ forgotten: number }));

/** The number by which the worker knows a file, and its bytes at the first time. @param {Uint8Array} bytes */
function sent(bytes) {
  if (numbers.has(bytes)) return { number: numbers.get(bytes) };
  numbers.set(bytes, ++lastNumber);
  forgotten.register(bytes, lastNumber);
  return { number: lastNumber, bytes };
}

/** Calls a function of the module, while the page stays alive. @param {string} name @param {Uint8Array[]} inputs */
async function call(name, inputs) {
  await isReady;
  byId("working").hidden = false;
  const data = await new Promise((resolve) => {
    calls.set(++lastCall, resolve);
    worker.postMessage({ id: lastCall, name, files: inputs.map(sent) });
  });
  if (data.why) throw new Error(data.why);
  return data.answer;
}

/** Says something to the reader. @param {string} words @param {boolean} [isFault] */
function say(words, isFault) {
  byId("said").textContent = words;
  byId("said").className = isFault ? "fault" : "";
}

/** @param {Uint8Array} bytes */
function textOf(bytes) {
  return new TextDecoder().decode(bytes);
}

/** Why a call gave no answer, with the names of the files. @param {Answer} answer @param {Shown[]} asked */
function faultOf(answer, asked) {
  if (answer.status === 2) return `${asked.map((file) => file.name).join(" and ")}: too large for this browser`;
  const words = textOf(answer.bytes);
  if (words === "different rulesets") return `${asked.map((file) => file.name).join(" and ")} are of different rulesets`;
  const which = words.startsWith("second file: ") ? 1 : 0;
  return `${asked[which].name}: ${words.replace(/^(first|second) file: /, "")}`;
}

/** The answer's bytes, or nothing, after the fault was said. @param {string} name @param {Shown[]} asked */
async function answerOf(name, ...asked) {
  const answer = await call(name, asked.map((file) => file.bytes));
  if (answer.status === 0) return answer.bytes;
  say(faultOf(answer, asked), true);
  return undefined;
}

/** Saves what a function answers. @param {string} as @param {string} name @param {Shown[]} asked */
async function save(as, name, ...asked) {
  const bytes = await answerOf(name, ...asked);
  if (!bytes) return;
  download(bytes, as);
  say(`Made ${as}, ${counted(bytes.length, "byte")}.`);
}

// ---- files

/** @param {string} name @param {Uint8Array} bytes @param {boolean} archive @returns {Promise<Shown>} */
async function read(name, bytes, archive) {
  const file = { name, bytes, archive };
  const answer = await call("file_csv", [bytes]);
  if (answer.status !== 0) return { ...file, fault: faultOf(answer, [file]) };
  return { ...file, ruleset: RULESETS[bytes[RULESET_AT]], solved: solutionsIn(textOf(answer.bytes)) };
}

/** The files that are readable, of one ruleset or of both. @param {string} [ruleset] */
function readable(ruleset) {
  return files.filter((file) => file.solved && (ruleset === undefined || file.ruleset === ruleset));
}

/** @param {string} name */
function stemOf(name) {
  return name.replace(/\.tws$/i, "");
}

/** Saves the collection of the best solutions of all files of a ruleset. @param {string} ruleset */
async function saveBest(ruleset) {
  let all = { name: `best-${ruleset}.tws`, bytes: readable(ruleset)[0].bytes };
  for (const file of readable(ruleset).slice(1)) {
    const bytes = await answerOf("files_best", all, file);
    if (!bytes) return;
    all = { ...all, bytes };
  }
  download(all.bytes, all.name);
  say(`Made ${all.name}, ${counted(all.bytes.length, "byte")}.`);
}

/** The columns of one file: times too where the levels are known. @param {Shown} file @returns {Column[]} */
function columnsOf(file) {
  const known = new Map(levels.map((level) => [keyOf(level), level]));
  const named = { key: "name", name: "Name" };
  const leftOf = (row) => {
    const level = known.get(keyOf(row));
    return level ? timeLeft(level.limit, row.ticks, file.ruleset) : "";
  };
  const ticks = (row) => ticksLeft({ ...known.get(keyOf(row)), ticks: row.ticks }, "ticks");
  const left = { key: "left", by: ticks, name: "Time left", number: true, shows: leftOf };
  for (const row of file.solved) row.name = (known.get(keyOf(row)) || { name: "" }).name;
  return [
    { key: "level", name: "Level", number: true },
    { key: "password", name: "Password" },
    ...(known.size ? [named, left] : []),
    { key: "seconds", by: "ticks", name: "Seconds", number: true },
    { key: "ticks", name: "Ticks", number: true },
    { key: "moves", name: "Moves", number: true },
  ];
}

/** @param {Shown} file @param {number} place */
function sectionOf(file, place) {
  const section = document.createElement("section"), title = element("h2", file.name);
  title.id = `file-${place}`;
  section.setAttribute("aria-labelledby", title.id);
  const remove = button("Remove", () => {
    files.splice(files.indexOf(file), 1);
    draw();
    say(`${file.name} is removed from the page.`);
    byId("choose").focus();
  });
  section.append(title);
  if (!file.solved) {
    section.append(element("p", `Unreadable. ${file.fault}`, "fault"), remove);
    return section;
  }
  const stem = stemOf(file.name);
  const whose = file.archive ? ", the archive's" : "";
  section.append(element("p", `${RULESET_NAMES[file.ruleset]}, ${counted(file.solved.length, "solution")}${whose}`));
  section.append(button("Save packed", () => save(`${stem}-packed.tws`, "file_packed", file)),
    button("Save as CSV", () => save(`${stem}.csv`, "file_csv", file)),
    button("Save as page", () => save(`${stem}.html`, "file_page", file)), remove);
  section.append(tableOf(`Solutions of ${file.name}`, columnsOf(file), file.solved, () => ""));
  return section;
}

// ---- mine and theirs

/** @param {HTMLSelectElement} select @param {Shown[]} options @param {Shown | undefined} chosen */
function fill(select, options, chosen) {
  select.replaceChildren(...options.map((file) => {
    const option = element("option", `${file.name}${file.archive ? " (the archive's)" : ""}`);
    option.value = String(files.indexOf(file));
    option.selected = file === chosen;
    return option;
  }));
}

/** Mine and theirs as they were chosen, if they are still there; else the first that can be compared. */
function currentPair() {
  return pair.length === 2 && pair.every((file) => files.includes(file)) ? pair : chosenPair();
}

/** What is compared first: the last file that has another of its ruleset, and that one, the archive's if it is there. */
function chosenPair() {
  for (const mine of readable().filter((file) => !file.archive).reverse()) {
    const others = readable(mine.ruleset).filter((file) => file !== mine);
    const theirs = others.find((file) => file.archive) || others.at(-1);
    if (theirs) return [mine, theirs];
  }
  return [undefined, undefined];
}

/** The name of the file with what is better: the one that the lines for a shell send. @param {Shown} mine @param {Shown} theirs */
function betterName(mine, theirs) {
  return theirs.archive ? "better.tws" : `${stemOf(mine.name)}-better.tws`;
}

/** @param {Shown} mine @param {Shown} theirs @param {Standing[]} rows */
function comparisonButtons(mine, theirs, rows) {
  const better = betterName(mine, theirs);
  const made = [button("Save the best of both", () => save(`best-${mine.ruleset}.tws`, "files_best", mine, theirs))];
  if (rows.some((row) => row.side === "mine")) {
    made.unshift(button("Save what is better in mine", () => save(better, "files_better", mine, theirs)));
  }
  const all = readable(mine.ruleset).length;
  if (all > 2) made.push(button(`Save the best of all ${all}`, () => saveBest(mine.ruleset)));
  return made;
}

/** How what is better is sent to the archive. @param {Shown} mine @param {Shown} theirs @param {Standing[]} rows */
function sendingOf(mine, theirs, rows) {
  if (!theirs.archive) return [];
  if (!rows.some((row) => row.side === "mine")) return [element("p", "The archive has nothing to gain from mine.")];
  const name = betterName(mine, theirs);
  const made = [];
  if (sender) made.push(button("Send what is better in mine", () => send(mine, theirs)));
  made.push(element("p", `To send it from a shell, save it, and type one of these where ${name} is:`));
  return [...made, ...sendingLines(location.hostname, name).map((line) => element("code", line))];
}

async function compare() {
  const at = (id) => files[Number(byId(id).value)];
  const mine = at("mine"), theirs = at("theirs");
  const turn = ++lastComparison;
  const show = (counts, isFault, ...parts) => {
    byId("counts").textContent = counts;
    byId("counts").className = isFault ? "fault" : "";
    byId("comparison-buttons").replaceChildren(...(parts[0] || []));
    byId("send").replaceChildren(...(parts[1] || []));
    byId("comparison-table").replaceChildren(...(parts[2] || []));
  };
  byId("plot").hidden = true;
  show("", false);
  const answer = await call("files_compared", [mine.bytes, theirs.bytes]);
  if (turn !== lastComparison) return;
  if (answer.status !== 0) return show(faultOf(answer, [mine, theirs]), true);
  const { rows, counts } = comparisonIn(textOf(answer.bytes));
  const known = new Map(levels.map((level) => [keyOf(level), level.name]));
  for (const row of rows) row.name = known.get(keyOf(row)) || "";
  const columns = [
    { key: "level", name: "Level", number: true },
    { key: "password", name: "Password" },
    ...(known.size ? [{ key: "name", name: "Name" }] : []),
    { key: "words", name: "Result", by: gainOf },
  ];
  const table = tableOf("Comparison", columns, rows, (row) => (row.side === "tie" ? "" : row.side));
  const apart = rows.length > 0 && rows.every((row) => row.words.startsWith("only")) && mine.solved.length * theirs.solved.length > 0;
  show(countsShown(counts) + (apart ? ". No level is in both: are they of one level set?" : ""), false, comparisonButtons(mine, theirs, rows), sendingOf(mine, theirs, rows), [table]);
  plot(byId("plot"), rows);
}

/** Sends what is better in mine through the web server. @param {Shown} mine @param {Shown} theirs */
async function send(mine, theirs) {
  const body = await answerOf("files_better", mine, theirs);
  if (!body) return;
  say("Sending to the archive.");
  try {
    const headers = { "Content-Type": "application/octet-stream" };
    const response = await fetch(sender, { method: "POST", headers, body });
    const { sent, words } = sentShown(await response.text());
    if (sent) await fetchArchive();
    say(words, !sent);
  } catch {
    say("Not sent: the web server does not answer.", true);
  }
}

// ---- the archive's folder

/** The bytes of a file in the page's folder, if it is there. @param {string} name */
async function fetched(name) {
  try {
    const response = await fetch(name, { cache: "no-cache" });
    return response.ok ? new Uint8Array(await response.arrayBuffer()) : undefined;
  } catch {
    return undefined;
  }
}

async function fetchArchive() {
  for (const name of ["lynx.tws", "ms.tws"]) {
    const bytes = await fetched(name);
    if (!bytes) continue;
    const file = await read(name, bytes, true);
    const old = files.findIndex((one) => one.archive && one.name === name);
    old < 0 ? files.push(file) : files.splice(old, 1, file);
  }
  draw();
}

async function fetchFolder() {
  const list = await fetched("levels.csv");
  if (list) levels = levelsIn(textOf(list));
  for (const path of ["put.cgi", "cgi-bin/put.cgi"]) {
    const answer = await fetched(path);
    if (answer && textOf(answer.slice(0, 99)).trim() === "tws put.cgi") sender = path;
  }
  await fetchArchive();
}

// ---- all of it

function drawLevels() {
  const of = (ruleset) => readable(ruleset).find((file) => file.archive) || readable(ruleset).at(-1) || { solved: [], name: "" };
  const whose = { lynx: of("lynx"), ms: of("ms") };
  const lynx = whose.lynx.solved, ms = whose.ms.solved;
  const both = lynx.length > 0 && ms.length > 0;
  byId("levels").hidden = !both && levels.length === 0;
  if (byId("levels").hidden) return;
  const rows = levelByLevel(levels, lynx, ms);
  const rulesets = Object.keys(RULESET_NAMES);
  const limit = { key: "limit", name: "Limit", number: true, shows: (row) => String(row.limit || "") };
  const columns = [
    { key: "level", name: "Level", number: true },
    { key: "password", name: "Password" },
    ...(levels.length ? [{ key: "name", name: "Name" }, limit] : []),
    ...rulesets.map((key) => ({
      key, name: RULESET_NAMES[key], by: levels.length ? (row) => ticksLeft(row, key) : key, number: true,
      shows: (row) => timeShown(row, key),
    })),
  ];
  const from = (key) => (whose[key].name ? `, by ${whose[key].name}` : "");
  byId("totals").textContent = rulesets.map((key) => `${RULESET_NAMES[key]}: ${totalShown(rows, key)}${from(key)}.`).join(" ");
  const isOpen = (row) => row.lynx === undefined && row.ms === undefined;
  const table = tableOf("Level by level", columns, rows, (row) => (isOpen(row) ? "unsolved" : ""));
  byId("levels-table").replaceChildren(table);
}

function draw() {
  byId("files").replaceChildren(...files.map(sectionOf));
  drawLevels();
  const [mine, theirs] = currentPair();
  byId("comparison").hidden = !theirs;
  if (!theirs) return;
  fill(byId("mine"), readable(), mine);
  fill(byId("theirs"), readable(), theirs);
  compare();
}

/** The name, with a number if another file has it already. @param {string} name */
function unusedName(name) {
  const isUsed = (other) => files.some((file) => file.name === other && !file.archive);
  let unused = name;
  for (let number = 2; isUsed(unused); number++) unused = name.replace(/(\.[^.]*)?$/, ` (${number})$1`);
  return unused;
}

/** Whether some level of the list is solved in a file, or no file has a solution. @param {Level[]} list */
function fits(list) {
  const known = new Set(list.map(keyOf)), all = readable().flatMap((file) => file.solved);
  return all.length === 0 || all.some((row) => known.has(keyOf(row)));
}

/** Reads a file or a list of levels, and returns what is to be said of it. @param {File} one */
async function addOne(one) {
  const name = shownName(one.name);
  say(`Reading ${name}.`);
  const bytes = new Uint8Array(await one.arrayBuffer());
  if (/\.csv$/i.test(name)) {
    const found = levelsIn(textOf(bytes));
    if (found.length === 0 || hasSolutions(textOf(bytes))) {
      return { words: `${name}: no list of levels, with number, password, name and time limit.`, isFault: true };
    }
    levels = found;
    const words = `${name}: ${counted(levels.length, "level")}.`;
    return fits(found) ? { words, isFault: false } : { words: `${words} No file has solved one of them: are number and password those of the set?`, isFault: true };
  }
  const file = await read(unusedName(name), bytes, false);
  files.push(file);
  const words = file.solved ? `${file.name}: ${counted(file.solved.length, "solution")}.` : `${file.fault}.`;
  return { words, isFault: !file.solved };
}

/** What went wrong with each file is said, or else what was read last. @param {Iterable<File>} chosen */
async function add(chosen) {
  const faults = [];
  let last = "";
  for (const one of chosen) {
    try {
      const { words, isFault } = await addOne(one);
      isFault ? faults.push(words) : last = words;
    } catch {
      faults.push(`${shownName(one.name)}: it cannot be read.`);
    }
  }
  draw();
  say([...faults, last].filter((words) => words).join(" "), faults.length > 0);
}

async function start() {
  const ready = await isReady;
  if (!ready.ready) {
    const needs = "it needs WebAssembly with 64-bit memory, as Chrome and Edge from 133 and Firefox from 134 have";
    say(`This browser cannot run the page: ${needs}. (${ready.why})`, true);
    return;
  }
  if (/^https?:$/.test(location.protocol)) await fetchFolder();
  document.body.dataset.ready = "1";
}

document.ondragover = (event) => { event.preventDefault(); byId("drop").className = "over"; };
document.ondragleave = () => { byId("drop").className = ""; };
document.ondrop = (event) => {
  event.preventDefault();
  byId("drop").className = "";
  add([...event.dataTransfer.files]);
};
byId("choose").onchange = async (event) => {
  await add([...event.target.files]);
  // The same file can be chosen again.
  event.target.value = "";
};
const choosePair = () => {
  pair = ["mine", "theirs"].map((id) => files[Number(byId(id).value)]);
  compare();
};
byId("mine").onchange = byId("theirs").onchange = choosePair;
byId("swap").onclick = () => {
  [byId("mine").value, byId("theirs").value] = [byId("theirs").value, byId("mine").value];
  choosePair();
};
const letters = atob(byId("module").textContent.trim());
window.onunhandledrejection = (event) => say(`This went wrong in the page: ${event.reason}`, true);
worker.postMessage({ module: Uint8Array.from(letters, (letter) => letter.charCodeAt(0)) });
start();
