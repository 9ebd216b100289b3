// web_module.mjs PAGE PROGRAM FOLDER: compares each answer of the page's module with that of the built program: on each file
// of the examples and of the folder, and on all pairs but those of large files. The last line counts the checks.
import { spawnSync } from "node:child_process";
import fs from "node:fs";
import path from "node:path";
import { check, finish, functionsOf, partsOf } from "./web_page.mjs";

const [page, program, folder] = process.argv.slice(2);
const parts = partsOf(page);
const { callModule } = functionsOf(parts.worker, ["callModule"]);
const module = await WebAssembly.compile(parts.module);

const LARGE = 1000000;
const ONE = [["file_csv", ["show", "--csv"]], ["file_packed", ["pack"]], ["file_page", ["page"]]];
const TWO = [["files_compared", ["compare"]], ["files_better", ["compare", "--better"]], ["files_best", ["best"]]];

const files = ["examples", folder].flatMap((at) => fs.readdirSync(at).filter((name) => name.endsWith(".tws")).sort()
  .map((name) => ({ name: path.join(at, name), bytes: new Uint8Array(fs.readFileSync(path.join(at, name))) })));
const rulesetOf = (file) => (file.bytes[4] === 2 ? "ms" : "lynx");
const run = (words) => spawnSync(program, words, { maxBuffer: 1 << 28 });
const isReadable = (file) => run(["show", file.name]).status === 0;

/** Whether the module's answer is the program's: its output, or the words of its fault. */
function agree(answer, { status, stdout, stderr }) {
  if (answer.status === 0) return status === 0 && Buffer.compare(Buffer.from(answer.bytes), stdout) === 0;
  const words = new TextDecoder().decode(answer.bytes);
  if (words === "different rulesets") return status === 1 && String(stderr) === "tws: different rulesets\n";
  const [, which, fault] = words.match(/^(first|second) file: (.*)$/) || [];
  return which !== undefined && status === 3 && String(stderr).endsWith(`: ${fault}\n`);
}

for (const file of files) {
  for (const [name, words] of ONE) {
    const answer = await callModule(module, name, [file.bytes]);
    check(`${name} ${file.name}`, agree(answer, run([...words, file.name])));
  }
}

const readable = files.filter(isReadable);
const small = files.filter((file) => file.bytes.length < LARGE);
for (const mine of small) {
  for (const theirs of small) {
    // Of two unreadable files, the first one's fault says all.
    if (!readable.includes(mine) && theirs !== files[0]) continue;
    for (const [name, words] of TWO) {
      const answer = await callModule(module, name, [mine.bytes, theirs.bytes]);
      const same = rulesetOf(mine) === rulesetOf(theirs);
      // The command `best` takes what is of the ruleset that it is given; the page asks for one of both.
      if (name === "files_best" && !same && readable.includes(theirs) && readable.includes(mine)) {
        check(`${name} ${mine.name} ${theirs.name}`, new TextDecoder().decode(answer.bytes) === "different rulesets");
        continue;
      }
      const ruleset = name === "files_best" ? [rulesetOf(mine)] : [];
      check(`${name} ${mine.name} ${theirs.name}`, agree(answer, run([...words, ...ruleset, mine.name, theirs.name])));
    }
  }
}
finish();
