// web_small.mjs PAGE FILE: each function of the page's module with too little memory, or too small a room, says so and
// writes nowhere else. The last line counts the checks.
import fs from "node:fs";
import { check, finish, partsOf } from "./web_page.mjs";

const [page, path] = process.argv.slice(2);
const module = await WebAssembly.compile(partsOf(page).module);
const file = new Uint8Array(fs.readFileSync(path));

const FUNCTIONS = ["file_csv", "file_packed", "file_page", "files_compared", "files_better", "files_best"];
const ROOM = 65536;
const MOST_HEAP = 1 << 17;
// What nothing has written.
const BLANK = 0xA5;

/** Calls a function on the file, or on it twice, and says what it left. */
function call(name, heapSize, roomSize) {
  const { exports } = new WebAssembly.Instance(module);
  const region = Math.ceil(Number(exports.__heap_base.value) / 16) * 16, length = region + 16, input = region + 32;
  const room = input + Math.ceil(file.length / 16) * 16, heap = room + ROOM;
  const pages = Math.ceil((heap + MOST_HEAP + ROOM - exports.memory.buffer.byteLength) / 65536);
  try {
    exports.memory.grow(BigInt(pages));
  } catch {
    exports.memory.grow(pages);
  }
  const memory = new Uint8Array(exports.memory.buffer);
  memory.fill(BLANK, region);
  memory.set(file, input);
  new BigUint64Array(memory.buffer, region, 2).set([BigInt(heap), BigInt(heapSize)]);
  const slice = [BigInt(input), BigInt(file.length)];
  const slices = name.startsWith("files") ? [...slice, ...slice] : slice;
  const status = exports[name](BigInt(region), ...slices, BigInt(room), BigInt(roomSize), BigInt(length));
  const size = Number(new BigUint64Array(memory.buffer, length, 1)[0]);
  const isBlank = (from, to) => memory.subarray(from, to).every((byte) => byte === BLANK);
  const written = status === 2 ? 0 : size;
  const stays = isBlank(room + written, room + ROOM) && isBlank(heap + heapSize) &&
    memory.subarray(input, input + file.length).every((byte, i) => byte === file[i]);
  return { status, stays, text: new TextDecoder("latin1").decode(memory.subarray(room, room + written)) };
}

// Small ones one by one, and then fewer.
const HEAPS = [];
for (let size = 0; size <= MOST_HEAP; size += size < 2048 ? 16 : 16 * 97) HEAPS.push(size);

for (const name of FUNCTIONS) {
  const whole = call(name, MOST_HEAP, ROOM);
  check(`${name} has an answer`, whole.status === 0 && whole.text.length > 0);
  const statuses = new Set();
  for (const heapSize of HEAPS) {
    for (const roomSize of [0, 7, 13, 14, 300, ROOM]) {
      const { status, stays, text } = call(name, heapSize, roomSize);
      statuses.add(status);
      const isRight = status === 0 ? text === whole.text : status === 1 ? text === "out of memory" : status === 2;
      check(`${name} with ${heapSize} bytes of memory and a room of ${roomSize}: ${status} ${text}`, isRight && stays);
    }
  }
  check(`${name} meets each case`, statuses.size === 3);
}
finish();
