// web_cgi.mjs URL FOLDER [down]: what put.cgi answers, with a server or, if it is down, without. The last line counts the
// checks.
import fs from "node:fs";
import { check, finish } from "./web_page.mjs";

const [url, folder, down] = process.argv.slice(2);
const TYPE = "application/octet-stream";
const LIMIT = 33553919;

/** What put.cgi answers to these bytes. */
async function answer(body, type = TYPE) {
  const response = await fetch(url, { method: "POST", headers: { "Content-Type": type }, body });
  return response.text();
}

const mine = fs.readFileSync(`${folder}/mine.tws`);
const sent = `sent ${mine.length} bytes\nstatus 0\n`;

if (down) {
  check("a server that is down", /^tws: transfer failed: timed out\ntws: no answer from .*\nstatus 4\n$/.test(await answer(mine)));
} else {
  check("it says that it is there", (await (await fetch(url)).text()) === "tws put.cgi\n");
  check("a solution file", (await answer(mine)) === sent);
  const both = await Promise.all([answer(mine), answer(mine)]);
  check("two at the same time", both.every((text) => text === sent));
  const unreadable = await answer(Buffer.from("GIF89a--"));
  const fault = "tws: standard input: unreadable: BadSignature\n";
  check("no solution file", unreadable.startsWith(fault) && unreadable.endsWith("\nstatus 3\n"));
  check("no body", /\nstatus [13]\n$/.test(await answer("")));
  check("too long", (await answer(Buffer.alloc(LIMIT + 1))) === "too long\nstatus 1\n");
  check("another type", (await answer(mine, "text/plain")) === `not ${TYPE}\nstatus 1\n`);
}
finish();
