// web_browser.mjs CHROMIUM PAGE PROGRAM FOLDER [URL [down]]: the page in headless Chromium: files are dropped, buttons are
// pressed, and what is saved is compared byte for byte with what the built program makes of the same files. With a URL, the
// page there lies beside the collections of a server, which may be down, and put.cgi. The last line counts the checks.
import { spawnSync } from "node:child_process";
import fs from "node:fs";
import path from "node:path";
import { openPage, saved, startBrowser } from "./web_chromium.mjs";
import { check, finish } from "./web_page.mjs";

const [chromium, page, program, folder, url, down] = process.argv.slice(2);
const browser = await startBrowser(chromium, folder);
const at = (name) => path.join(folder, name);
const made = (...words) => spawnSync(program, words, { maxBuffer: 1 << 28 }).stdout;
const isReady = "document.body && document.body.dataset.ready === '1'";
const texts = (selector) => `[...document.querySelectorAll(${JSON.stringify(selector)})].map((one) => one.textContent)`;
// Nothing while the page is still being read.
const said = "document.getElementById('said')?.textContent";
const counts = "document.getElementById('counts').textContent";

// What is looked at: a name, a width, a height, and colours.
const LOOKS = [["wide-light", 1100, 1000, "light"], ["wide-dark", 1100, 1000, "dark"], ["narrow-light", 320, 1000, "light"],
  ["narrow-dark", 320, 1000, "dark"], ["page", 600, 620, "light"]];
const PICTURE_LIMIT = 60000;

const SEND = "Send what is better in mine";
// Which rule of the page's policy forbids what is asked of another server.
const FORBIDDEN = `new Promise((resolve) => {
  document.addEventListener("securitypolicyviolation", (event) => resolve(event.violatedDirective));
  fetch("http://localhost:9/").catch(() => setTimeout(resolve, 1000));
})`;

// Whether the last column of the comparison is within its box.
const RESULT_IN_SIGHT = `(() => {
  const box = document.querySelector("#comparison-table .rows");
  return box.querySelector("tbody td:last-child").getBoundingClientRect().right <= box.getBoundingClientRect().right;
})()`;
// Whether each head of a table can be pressed wherever it is.
const HEADS_ARE_BUTTONS = `[...document.querySelectorAll("th")].every((head) => {
  const { left, width, top, height } = head.getBoundingClientRect();
  const button = head.firstChild.getBoundingClientRect();
  return button.left - left < 12 && left + width - button.right < 12 && button.top - top < 12 && top + height - button.bottom < 12;
})`;

/** A button saves what the program makes. */
async function saves(tab, text, name, wanted, within = "main") {
  check(`the button ${text}`, await tab.press(text, within));
  const got = await saved(browser, name);
  check(`${text} saves ${name}`, got !== undefined && Buffer.compare(got, wanted) === 0);
}

/** The numbers of the levels that a file has solved. */
function levelsOf(name) {
  return String(made("show", "--csv", at(name))).trim().split("\n").slice(1).map((line) => Number(line.split(",")[0]));
}

/** The page by itself, as it is opened from a folder. */
async function alone() {
  const tab = await openPage(browser, `file://${path.resolve(page)}`);
  check("the page is ready", await tab.until(isReady));
  const names = ["levels.csv", "hostile <b>&'.tws", "cut.tws", "ms.tws", "theirs.tws", "mine.tws"];
  await tab.drop(names.map(at));
  check("each file has its part", await tab.until("document.querySelectorAll('#files section').length === 5"));
  check("mine and theirs", await tab.until(`${counts} !== ''`));
  const line = String(made("compare", at("mine.tws"), at("theirs.tws"))).trimEnd().split("\n").pop();
  const count = (name) => line.match(new RegExp(`${name} (\\d+)`))[1];
  check("the counts", (await tab.run(counts)).startsWith(`${count("levels")} levels: ${count("only mine")} only mine`));
  const bars = await tab.run("['mine', 'theirs'].map((side) => document.querySelectorAll(`#plot rect.${side}`).length)");
  check("a bar for each difference", bars.join() === [count("mine better"), count("theirs better")].join());
  const known = fs.readFileSync(at("levels.csv"), "utf8").trim().split("\n").length - 1;
  const either = new Set([...levelsOf("mine.tws"), ...levelsOf("ms.tws")].filter((level) => level <= known));
  const grey = await tab.run("document.querySelectorAll('#levels .unsolved').length");
  check("levels that neither has solved are grey", grey > 0 && grey === known - either.size);
  const faults = (await tab.run(texts("#files .fault"))).join();
  check("a fault in words", faults.includes("cut.tws: the moves end inside the move at byte 50"));
  check("names are text", (await tab.run(texts("#files h2"))).includes("hostile <b>&'.tws"));
  check("passwords are text", (await tab.run(texts("#files td"))).includes("<b>&"));
  check("names of levels are text", (await tab.run(texts("#files td"))).includes('<i>, "seven"'));
  await looks(tab);
  check("no markup comes from files", await tab.run("document.querySelectorAll('main b, main i, main script').length === 0"));

  await saves(tab, "Save what is better in mine", "mine-better.tws", made("compare", "--better", at("mine.tws"), at("theirs.tws")));
  await saves(tab, "Save the best of both", "best-lynx.tws", made("best", "lynx", at("mine.tws"), at("theirs.tws")));
  const lynx = ["theirs.tws", "hostile <b>&'.tws", "mine.tws"].map(at);
  await saves(tab, "Save the best of all 3", "best-lynx.tws", made("best", "lynx", ...lynx));
  await tab.press("Swap");
  check("swapped", await tab.until(`${counts}.startsWith("${count("levels")} levels: ${count("only theirs")} only mine")`));
  await saves(tab, "Save what is better in mine", "theirs-better.tws", made("compare", "--better", at("theirs.tws"), at("mine.tws")));
  // The buttons of a file, the last one's.
  const last = "#files section:last-child";
  await saves(tab, "Save packed", "mine-packed.tws", made("pack", at("mine.tws")), last);
  await saves(tab, "Save as CSV", "mine.csv", made("show", "--csv", at("mine.tws")), last);
  await saves(tab, "Save as page", "mine.html", made("page", at("mine.tws")), last);

  const rows = texts(`${last} tbody tr`), column = texts(`${last} tbody td:nth-child(6)`);
  const press = (name) => tab.press(name, `${last} th`);
  check("a head can be pressed beside its word", await tab.run(HEADS_ARE_BUTTONS));
  await press("Ticks");
  const rising = (await tab.run(column)).map(Number);
  check("sorted by ticks", rising.length > 100 && rising.every((ticks, i) => i === 0 || rising[i - 1] <= ticks));
  await press("Ticks");
  check("sorted the other way", (await tab.run(column)).map(Number).join() === [...rising].reverse().join());
  check("the order is said", await tab.run(`document.querySelectorAll("${last} th[aria-sort=descending]").length === 1`));
  await tab.run(`(() => {
    const search = document.querySelector("${last} input");
    search.value = "more";
    search.dispatchEvent(new Event("input"));
  })()`);
  check("filtered", (await tab.run(rows)).join().startsWith("150MORE"));
  const solved = Number(count("levels")) - Number(count("only theirs"));
  const totals = await tab.run("document.getElementById('totals').textContent");
  check("level by level", totals.startsWith(`Lynx: ${solved} of ${count("levels")} solved`));
  await tab.run(`add([{ name: "gone.tws", arrayBuffer: () => Promise.reject(new Error()) }, new File(["level,ticks\\n1,2\\n"], "mine.csv"),
    new File(["GIF"], "bad\u202e.tws")])`);
  check("what is wrong with each file is said", await tab.until(`${said}.startsWith("gone.tws: it cannot be read. mine.csv: no list of levels") &&
    ${said}.includes("bad?.tws: ") && document.querySelectorAll('#files section').length === 6`));
  check("the levels stay", (await tab.run("document.getElementById('totals').textContent")) === totals);
  check("so does what was chosen", (await tab.run("document.getElementById('mine').selectedOptions[0].textContent")) === "theirs.tws");
  await tab.press("Remove", "#files section:last-child");
  await tab.press("Remove");
  check("removed", await tab.until("document.querySelectorAll('#files section').length === 4"));
  await tab.run(`new MutationObserver(() => { window.hasWorked ||= !document.getElementById("working").hidden; })
    .observe(document.getElementById("working"), { attributes: true })`);
  await tab.drop([at("large.tws")]);
  check("a large file", await tab.until(`${said}.startsWith("large.tws: 20000 solutions")`, 120));
  check("it was shown that the work goes on", await tab.run("window.hasWorked && document.getElementById('working').hidden"));
  check("the first of its rows", (await tab.run(texts("p"))).includes("The first 500 of 20000 rows."));
  await tab.press("Show more rows", last);
  check("more of its rows", (await tab.run(texts("p"))).includes("The first 1000 of 20000 rows."));
  await tab.choose("#choose", [at("more.tws")]);
  check("a file is chosen", await tab.until(`${said} === "more.tws: 1 solution."`));
  await tab.choose("#choose", [at("more.tws")]);
  check("the same file again has a name of its own", await tab.until(`${said} === "more (2).tws: 1 solution."`));
  await tab.run(`add([new File(["1,bdhp,One,99\\n"], "other.csv")])`);
  check("a list of another set", await tab.until(`${said}.startsWith("other.csv: 1 level. No file has solved one of them")`));
  check("no problems", tab.problems().length === 0 || (console.log(tab.problems()), false));
}

/** Nothing is wider than the screen, whatever its width and colours. The pictures are for people; README shows page.png. */
async function looks(tab) {
  for (const [name, width, height, scheme] of LOOKS) {
    await tab.resize(width, height, scheme);
    await tab.run("window.scrollTo(0, 0)");
    check(`it fits ${width} pixels`, await tab.run("document.documentElement.scrollWidth <= window.innerWidth"));
    check(`results are in sight at ${width} pixels`, await tab.run(RESULT_IN_SIGHT));
    const picture = await tab.picture();
    fs.writeFileSync(at(`${name}.png`), picture);
    check(`the picture ${name} is small`, name !== "page" || picture.length <= PICTURE_LIMIT);
  }
  await tab.resize(1100, 1000, "light");
}

/** The page where the module cannot be compiled, as in a browser without 64-bit memories. */
async function tooOld() {
  const old = fs.readFileSync(page, "utf8").replace(/(id="module">)[^<]*/, "$1AGFzbQEAAAAFAwFAAQ==");
  fs.writeFileSync(at("old.html"), old);
  const tab = await openPage(browser, `file://${path.resolve(at("old.html"))}`);
  check("an old browser is told", await tab.until(`${said}.startsWith("This browser cannot run the page: ")`));
}

/** The page in a folder that an archive publishes. */
async function published() {
  const tab = await openPage(browser, url);
  check("the published page is ready", await tab.until(isReady));
  check("the archive's files are there", (await tab.run(texts("#files h2"))).join() === "lynx.tws,ms.tws");
  check("the folder's names of levels are there", (await tab.run(texts("#levels td"))).includes("LEVEL 1"));
  await tab.drop([at("mine.tws")]);
  check("mine is compared with the archive's", await tab.until(`${counts}.includes("only mine")`));
  check("the line for a shell", (await tab.run(texts("#send code"))).includes("tws put 127.0.0.1 better.tws"));
  const better = made("compare", "--better", at("mine.tws"), at("www/lynx.tws"));
  await saves(tab, "Save what is better in mine", "better.tws", better);
  const pressed = await Promise.all([1, 2].map(() => tab.press(SEND)));
  check("there is a button", pressed[0]);
  check("it is sent", await tab.until(`${said}.startsWith("Sent: ")`));
  const nothing = "The archive has nothing to gain from mine.";
  check("the archive has it", await tab.until(`document.getElementById('send').textContent === "${nothing}"`));
  check("no problems there", tab.problems().length === 0 || (console.log(tab.problems()), false));
  check("nothing outside is asked", (await tab.run(FORBIDDEN)) === "connect-src");
}

/** The page of an archive that is down. */
async function unsent() {
  const tab = await openPage(browser, url);
  check("the page is there", await tab.until(isReady));
  await tab.drop([at("more.tws")]);
  check("there is a level to send", await tab.until(`${counts}.includes(" 1 only mine")`));
  await tab.press(SEND);
  check("the archive is down", await tab.until(`${said}.startsWith("Not sent: the archive does not answer.")`));
}

if (down) {
  await unsent();
} else if (url) {
  await published();
} else {
  await alone();
  await tooOld();
}
await browser.close();
finish();
