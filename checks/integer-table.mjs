// Prints what this machine's WebAssembly engine gives for the integer instructions at edge values: node checks/integer-table.mjs
// A row is an instruction, its operands, the first one first, and its result or `trap`: numbers of bits, in decimal.
// A runner of modules is tested against these rows, and the definitions of the operators were compared with them.

const COMPARISONS = ["eqz", "eq", "ne", "lt_s", "lt_u", "gt_s", "gt_u", "le_s", "le_u", "ge_s", "ge_u"];
const OPERATORS = [
  "clz", "ctz", "popcnt", "add", "sub", "mul", "div_s", "div_u", "rem_s", "rem_u", "and", "or", "xor", "shl", "shr_s", "shr_u", "rotl", "rotr",
];
const UNARY = ["eqz", "clz", "ctz", "popcnt"];
const SHIFTS = ["shl", "shr_s", "shr_u", "rotl", "rotr"];

const I32 = { name: "i32", bits: 32, code: 0x7f, comparisons: 0x45, operators: 0x67, sample: 0x12345678n };
const I64 = { name: "i64", bits: 64, code: 0x7e, comparisons: 0x50, operators: 0x79, sample: 0x1234567890abcdf0n };

function edges({ bits, sample }) {
  const half = 1n << BigInt(bits - 1);
  return [0n, 1n, 2n, 7n, half - 1n, half, half + 1n, 2n * half - 2n, 2n * half - 1n, sample];
}

function counts({ bits }) {
  const n = BigInt(bits);
  return [0n, 1n, 7n, n - 1n, n, n + 1n, 2n * n - 1n, 1n << (n - 1n), (1n << n) - 1n];
}

// Operators that count bits are also tried at other places.
function operandsOf(type, name) {
  const values = edges(type);
  if (!UNARY.includes(name)) return values.flatMap((x) => (SHIFTS.includes(name) ? counts(type) : values).map((y) => [x, y]));
  const half = BigInt(type.bits / 2);
  const single = name === "eqz" ? [] : [8n, 1n << half, 0xffn << (half - 4n)];
  return [...values, ...single].map((x) => [x]);
}

const section = (id, content) => [id, content.length, ...content];

// A module with one function of these types, which applies the instruction to its parameters.
function moduleOf(params, result, opcode) {
  const gets = params.flatMap((_, index) => [0x20, index]);
  const code = [0, ...gets, opcode, 0x0b];
  return new Uint8Array([
    ...[0x00, 0x61, 0x73, 0x6d, 0x01, 0x00, 0x00, 0x00],
    ...section(1, [1, 0x60, params.length, ...params.map((t) => t.code), 1, result.code]),
    ...section(3, [1, 0]),
    ...section(7, [1, 1, 0x66, 0, 0]),
    ...section(10, [1, code.length, ...code]),
  ]);
}

const toEngine = (type, x) => (type === I64 ? BigInt.asIntN(64, x) : Number(BigInt.asIntN(32, x)));
const fromEngine = (type, y) => BigInt.asUintN(type.bits, BigInt(y));

function printRows(name, params, result, opcode, rows) {
  const { f } = new WebAssembly.Instance(new WebAssembly.Module(moduleOf(params, result, opcode))).exports;
  for (const row of rows) {
    let answer = "trap";
    try {
      answer = fromEngine(result, f(...row.map((x, index) => toEngine(params[index], x))));
    } catch (error) {
      if (!(error instanceof WebAssembly.RuntimeError)) throw error;
    }
    console.log([name, ...row, answer].join(" "));
  }
}

for (const type of [I32, I64]) {
  const all = [
    ...COMPARISONS.map((name, k) => [name, I32, type.comparisons + k]),
    ...OPERATORS.map((name, k) => [name, type, type.operators + k]),
  ];
  for (const [name, result, opcode] of all) {
    const params = UNARY.includes(name) ? [type] : [type, type];
    printRows(`${type.name}.${name}`, params, result, opcode, operandsOf(type, name));
  }
}
printRows("i32.wrap_i64", [I64], I32, 0xa7, edges(I64).map((x) => [x]));
printRows("i64.extend_i32_s", [I32], I64, 0xac, edges(I32).map((x) => [x]));
printRows("i64.extend_i32_u", [I32], I64, 0xad, edges(I32).map((x) => [x]));
