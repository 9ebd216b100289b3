// web.mjs PAGE FUNCTION FILE RUNS BROWSER -- COMMAND..: prints the least time of the page's module on a file, and of the
// command, in seconds; they run alternately, and their outputs are compared. BROWSER is a Chromium, in which the page's worker
// makes the call, or `node`, which makes it itself.
import { spawnSync } from "node:child_process";
import crypto from "node:crypto";
import fs from "node:fs";
import os from "node:os";
import path from "node:path";
import { openPage, startBrowser } from "../system_tests/web_chromium.mjs";
import { functionsOf, partsOf } from "../system_tests/web_page.mjs";

const [page, name, file, runs, browser, , ...command] = process.argv.slice(2);

/** The SHA-256 of these bytes. */
function digest(bytes) {
  return crypto.createHash("sha256").update(bytes).digest("hex");
}

/** A call in this node, as its time in milliseconds and the digest of its answer. */
async function callsHere() {
  const parts = partsOf(page);
  const { callModule } = functionsOf(parts.worker, ["callModule"]);
  const module = await WebAssembly.compile(parts.module);
  const bytes = new Uint8Array(fs.readFileSync(file));
  const call = async () => {
    const begun = performance.now();
    const answer = await callModule(module, name, [bytes]);
    return [performance.now() - begun, answer.status === 0 && digest(answer.bytes)];
  };
  return { call, end: () => {} };
}

/** The same in a browser, in which the page has the file. */
async function callsInBrowser() {
  const folder = fs.mkdtempSync(path.join(os.tmpdir(), "web-"));
  const chromium = await startBrowser(browser, folder);
  const tab = await openPage(chromium, `file://${path.resolve(page)}`);
  await tab.until("document.body && document.body.dataset.ready === '1'");
  await tab.choose("#choose", [path.resolve(file)]);
  if (!await tab.until("files.length === 1 && document.getElementById('working').hidden", 120)) throw new Error("the file was not read");
  const call = () => tab.run(`(async () => {
    const begun = performance.now();
    const answer = await call(${JSON.stringify(name)}, [files[0].bytes]);
    const taken = performance.now() - begun;
    const sum = new Uint8Array(await crypto.subtle.digest("SHA-256", answer.bytes));
    return [taken, answer.status === 0 && [...sum].map((byte) => byte.toString(16).padStart(2, "0")).join("")];
  })()`);
  const end = async () => {
    await chromium.close();
    fs.rmSync(folder, { recursive: true });
  };
  return { call, end };
}

const { call, end } = await (browser === "node" ? callsHere() : callsInBrowser());
const least = [Infinity, Infinity];
for (let i = 0; i < Number(runs); i++) {
  const [taken, sum] = await call();
  const begun = performance.now();
  const done = spawnSync(command[0], command.slice(1), { maxBuffer: 1 << 30 });
  least[1] = Math.min(least[1], performance.now() - begun);
  least[0] = Math.min(least[0], taken);
  if (sum !== digest(done.stdout)) throw new Error(`${name}: the outputs differ`);
}
await end();
console.log(least.map((milliseconds) => (milliseconds / 1000).toFixed(4)).join(" "));
