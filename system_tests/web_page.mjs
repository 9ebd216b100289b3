// What the tests in node take from the page: its module, and the functions of its scripts.
import assert from "node:assert";
import fs from "node:fs";

/** The parts of the page that was built. */
export function partsOf(path) {
  const page = fs.readFileSync(path, "utf8");
  const part = (start) => {
    const from = page.indexOf(start);
    assert(from >= 0, `${path} has no ${start}`);
    return page.slice(from + start.length, page.indexOf("</script>", from));
  };
  return {
    module: Buffer.from(part('<script type="text/plain" id="module">'), "base64"),
    worker: part('<script type="text/plain" id="worker">'),
    script: part("<script>"),
    policy: page.match(/Content-Security-Policy" content="([^"]*)"/)[1],
  };
}

/** The functions with these names of a script that runs outside a browser. */
export function functionsOf(source, names) {
  return new Function(`${source}\nreturn { ${names.join(", ")} };`)();
}

let passed = 0;
let failed = 0;

/** Counts a check. */
export function check(name, holds) {
  if (holds) passed++;
  else {
    failed++;
    console.log(`check failed: ${name}`);
  }
}

/** Prints the counts, by which the script that calls this one adds them up. */
export function finish() {
  console.log(`${passed} passed, ${failed} failed`);
  process.exitCode = failed === 0 ? 0 : 1;
}
