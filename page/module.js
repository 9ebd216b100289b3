// Calls the functions of the WebAssembly module, whose contracts are in crates/web_exports.
"use strict";

/**
 * What a function answered: status 0 with a text, 1 with the words of a fault, 2 if it is too large for this browser.
 * @typedef {{status: number, bytes: Uint8Array}} Answer
 */

const PAGE_BYTES = 65536;
const REGION_BYTES = 16;
const LENGTH_BYTES = 8;
// More memory than this is not asked for.
const MEMORY_LIMIT = 2 ** 33;

/** The next multiple of 16. @param {number} at */
function aligned(at) {
  return Math.ceil(at / 16) * 16;
}

/**
 * Where everything lies in the memory of a call, from the module's own data upwards. Nothing overlaps, and all but the
 * room's length is a multiple of 16.
 * @param {number} base @param {Uint8Array[]} files @param {number} scale
 */
function laidOut(base, files, scale) {
  const input = files.reduce((sum, file) => sum + file.length, 0);
  let end = aligned(base);
  const taken = (size) => {
    const from = end;
    end = aligned(end + size);
    return from;
  };
  const region = taken(REGION_BYTES), length = taken(LENGTH_BYTES);
  const starts = files.map((file) => taken(file.length));
  const roomSize = scale * (4 * input + PAGE_BYTES), room = taken(roomSize);
  const heapSize = aligned(scale * (16 * input + 16 * PAGE_BYTES)), heap = taken(heapSize);
  return { region, length, starts, room, roomSize, heap, heapSize, end };
}

/** Engines differ in how a 64-bit memory counts its pages. @param {WebAssembly.Memory} memory @param {number} end */
function grow(memory, end) {
  const pages = Math.ceil((end - memory.buffer.byteLength) / PAGE_BYTES);
  if (pages <= 0) return;
  try {
    memory.grow(BigInt(pages));
  } catch (error) {
    if (!(error instanceof TypeError)) throw error;
    memory.grow(pages);
  }
}

/**
 * One call in an instance of its own, since the contract takes the memory away for good.
 * @param {WebAssembly.Exports} exports @param {string} name @param {Uint8Array[]} files
 */
function callOnce(exports, name, files, at) {
  grow(exports.memory, at.end);
  const memory = exports.memory.buffer;
  files.forEach((file, i) => new Uint8Array(memory).set(file, at.starts[i]));
  // A region passed by value is a pointer to it; a slice is a pointer, then a length.
  new BigUint64Array(memory, at.region, 2).set([BigInt(at.heap), BigInt(at.heapSize)]);
  const slices = files.flatMap((file, i) => [BigInt(at.starts[i]), BigInt(file.length)]);
  const status = exports[name](BigInt(at.region), ...slices, BigInt(at.room), BigInt(at.roomSize), BigInt(at.length));
  if (status !== 0 && status !== 1) return { status: 2, bytes: new Uint8Array() };
  const length = Number(new BigUint64Array(memory, at.length, 1)[0]);
  return { status, bytes: new Uint8Array(memory).slice(at.room, at.room + length) };
}

/**
 * Calls a function on one file or two, with more memory each time that it was not enough.
 * @param {WebAssembly.Module} module @param {string} name @param {Uint8Array[]} files @returns {Promise<Answer>}
 */
async function callModule(module, name, files) {
  for (let scale = 1; ; scale *= 4) {
    const { exports } = await WebAssembly.instantiate(module, {});
    const at = laidOut(Number(exports.__heap_base.value), files, scale);
    const none = { status: 2, bytes: new Uint8Array() };
    if (at.end > MEMORY_LIMIT) return none;
    let answer;
    try {
      answer = callOnce(exports, name, files, at);
    } catch (error) {
      if (error instanceof RangeError) return none;
      throw error;
    }
    const short = answer.status === 1 && new TextDecoder().decode(answer.bytes) === "out of memory";
    if (answer.status !== 2 && !short) return answer;
  }
}
