// Drives headless Chromium by its devtools protocol, over a pipe.
import { spawn } from "node:child_process";
import fs from "node:fs";

/** Starts a browser whose files are in the folder. */
export async function startBrowser(program, folder) {
  const words = ["--headless=new", "--no-sandbox", "--disable-gpu", "--disable-dev-shm-usage", "--remote-debugging-pipe",
    `--user-data-dir=${folder}/profile`, "about:blank"];
  const browser = spawn(program, words, { stdio: ["ignore", "ignore", "ignore", "pipe", "pipe"] });
  const waiting = new Map(), events = [];
  let last = 0, rest = "";
  browser.stdio[4].on("data", (data) => {
    rest += data;
    const messages = rest.split("\0");
    rest = messages.pop();
    for (const message of messages.map((text) => JSON.parse(text))) {
      if (message.id === undefined) events.push(message);
      else waiting.get(message.id)(message);
    }
  });
  const send = async (method, params = {}, sessionId) => {
    const id = ++last;
    const answered = new Promise((resolve) => waiting.set(id, resolve));
    browser.stdio[3].write(JSON.stringify({ id, method, params, sessionId }) + "\0");
    const { result, error } = await answered;
    if (error) throw new Error(`${method}: ${JSON.stringify(error)}`);
    return result;
  };
  const downloads = `${folder}/downloads`;
  fs.mkdirSync(downloads, { recursive: true });
  await send("Browser.setDownloadBehavior", { behavior: "allow", downloadPath: downloads, eventsEnabled: true });
  const close = async () => {
    const ended = new Promise((resolve) => browser.on("exit", resolve));
    await send("Browser.close");
    await ended;
  };
  return { send, events, downloads, close };
}

const sleep = (milliseconds) => new Promise((resolve) => setTimeout(resolve, milliseconds));

/** A tab of the browser at this address. */
export async function openPage(browser, url) {
  const { targetId } = await browser.send("Target.createTarget", { url: "about:blank" });
  const { sessionId } = await browser.send("Target.attachToTarget", { targetId, flatten: true });
  const send = (method, params) => browser.send(method, params, sessionId);
  for (const domain of ["Page", "Runtime", "Log", "DOM"]) await send(`${domain}.enable`);
  await send("Page.navigate", { url });
  const run = async (expression) => {
    const { result, exceptionDetails } = await send("Runtime.evaluate", { expression, awaitPromise: true, returnByValue: true });
    if (exceptionDetails) throw new Error(JSON.stringify(exceptionDetails));
    return result.value;
  };
  const until = async (expression, seconds = 60) => {
    for (let i = 0; i < seconds * 50; i++) {
      if (await run(expression)) return true;
      await sleep(20);
    }
    console.log(`waited for ${expression}: ${await run("document.body.innerText.slice(0, 1000)")}`);
    return false;
  };
  const press = (text, within = "main") => run(`(() => {
    const buttons = [...document.querySelectorAll(${JSON.stringify(`${within} button`)})];
    const found = buttons.find((one) => one.textContent.startsWith(${JSON.stringify(text)}));
    if (found) found.click();
    return Boolean(found);
  })()`);
  const drop = async (files) => {
    const data = { items: [], files, dragOperationsMask: 1 };
    for (const type of ["dragEnter", "dragOver", "drop"]) {
      await send("Input.dispatchDragEvent", { type, x: 150, y: 150, data });
    }
  };
  const choose = async (selector, files) => {
    const { root } = await send("DOM.getDocument");
    const { nodeId } = await send("DOM.querySelector", { nodeId: root.nodeId, selector });
    await send("DOM.setFileInputFiles", { nodeId, files });
  };
  const resize = (width, height, scheme) => Promise.all([
    send("Emulation.setDeviceMetricsOverride", { width, height, deviceScaleFactor: 1, mobile: false }),
    send("Emulation.setEmulatedMedia", { features: [{ name: "prefers-color-scheme", value: scheme }] }),
  ]);
  const picture = async () => Buffer.from((await send("Page.captureScreenshot", { format: "png" })).data, "base64");
  const problems = () => browser.events.filter((event) => event.sessionId === sessionId)
    .filter((event) => event.method === "Runtime.exceptionThrown" || event.method === "Log.entryAdded")
    .map((event) => event.params.entry?.text ?? JSON.stringify(event.params))
    // What a folder may lack is asked for all the same.
    .filter((text) => !/status of 404/.test(text));
  return { run, until, press, drop, choose, resize, picture, problems };
}

/** The bytes of a file once it was saved whole. */
export async function saved(browser, name, seconds = 30) {
  const path = `${browser.downloads}/${name}`;
  for (let i = 0; i < seconds * 50; i++) {
    const isDone = browser.events.some((event) => event.method === "Browser.downloadProgress" && event.params.state === "completed");
    if (isDone && fs.existsSync(path)) {
      await sleep(50);
      const bytes = fs.readFileSync(path);
      fs.rmSync(path);
      return bytes;
    }
    await sleep(20);
  }
  return undefined;
}
