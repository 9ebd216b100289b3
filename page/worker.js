// The worker: it calls the module, so that the page stays alive meanwhile. `module.js` stands before it.
"use strict";

let compiled;
// The files that the page has sent, by their numbers.
const kept = new Map();

globalThis.onmessage = async ({ data }) => {
  if (data.module) {
    try {
      compiled = await WebAssembly.compile(data.module);
      globalThis.postMessage({ ready: true });
    } catch (error) {
      globalThis.postMessage({ ready: false, why: error.message });
    }
    return;
  }
  if (data.forgotten) {
    kept.delete(data.forgotten);
    return;
  }
  for (const { number, bytes } of data.files) if (bytes) kept.set(number, bytes);
  try {
    const answer = await callModule(compiled, data.name, data.files.map(({ number }) => kept.get(number)));
    globalThis.postMessage({ id: data.id, answer }, [answer.bytes.buffer]);
  } catch (error) {
    globalThis.postMessage({ id: data.id, why: error.message });
  }
};
