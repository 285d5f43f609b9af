// Runs a compiled module on a host of a few lines, and prints what it prints: node checks/run-module.mjs MODULE
// The module shows no memory, so the host runs a copy with one more export, of memory 0.
import { readFileSync, writeSync } from "node:fs";

const EXPORTS = 7;

// An unsigned LEB128 number at an offset, and the offset behind it.
function readNumber(bytes, at) {
  let value = 0;
  for (let shift = 0; ; shift += 7) {
    const byte = bytes[at++];
    value += (byte & 0x7f) * 2 ** shift;
    if (byte < 0x80) return [value, at];
  }
}

function spellNumber(value) {
  const bytes = [];
  for (; value >= 0x80; value = Math.floor(value / 0x80)) bytes.push((value % 0x80) + 0x80);
  return [...bytes, value];
}

// The content of an export section with one export more.
function withMemory(content) {
  const [count, behind] = readNumber(content, 0);
  const memory = [6, ...Buffer.from("memory"), 2, 0];
  return [...spellNumber(count + 1), ...content.subarray(behind), ...memory];
}

function showMemory(module) {
  const bytes = [...module.subarray(0, 8)];
  for (let at = 8; at < module.length; ) {
    const id = module[at];
    const [size, start] = readNumber(module, at + 1);
    let content = module.subarray(start, start + size);
    if (id === EXPORTS) content = withMemory(content);
    bytes.push(id, ...spellNumber(content.length));
    for (const byte of content) bytes.push(byte);
    at = start + size;
  }
  return new Uint8Array(bytes);
}

const module = readFileSync(process.argv[2]);
const { instance } = await WebAssembly.instantiate(showMemory(module), {
  php1: {
    write(place, length) {
      const text = new Uint8Array(instance.exports.memory.buffer, place, length);
      for (let written = 0; written < length; ) written += writeSync(1, text, written);
    },
  },
});
instance.exports.main();
