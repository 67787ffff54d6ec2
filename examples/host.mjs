// Runs modules that `qwasm compile` wrote in Node's WebAssembly engine, by the layouts that `qwasm-layout` wrote of the same statements, and
// prints what `qwasm run` prints. It is an example of a host, and reads no SQL: docs/FORMATS.md says what a layout tells, and where columns, the
// descriptor and result rows stand.
//
//     node host.mjs DIR NAME..
//
// For each statement, in their order, there are its module NAME.wasm and its layout NAME.json. The tables' files in DIR are taken as qwasm
// accepted them, and nothing is checked again.
import { readFileSync } from "node:fs";

const PAGE = 65536;
const PAGE_LIMIT = 128;
const eighth = (address) => Math.ceil(address / 8) * 8;

// ---- columns

// The records behind the first. A line without any octet is none, but `""` is a record of one empty field.
function recordsOf(text) {
  const records = [[]];
  for (const [, quoted, plain, end] of text.replace(/^\uFEFF/, "").matchAll(/(?:"((?:[^"]|"")*)"|([^",\r\n]*))(,|\r\n|\n|\r|$)/g)) {
    const isEmptyLine = records.at(-1).length === 0 && plain === "" && end !== ",";
    if (isEmptyLine) continue;
    records.at(-1).push(quoted === undefined ? plain : quoted.replaceAll('""', '"'));
    if (end !== ",") records.push([]);
  }
  return records.slice(1).filter((fields) => fields.length > 0);
}

function scaled(field, scale) {
  const [whole, behind = ""] = field.replace(/^[+-]/, "").split(".");
  const number = BigInt(whole + behind.slice(0, scale).padEnd(scale, "0") || "0");
  return field.startsWith("-") ? -number : number;
}

// The values of a column, the octets of its texts, and its null bits.
function parts({ type, null: mayBeNull }, fields) {
  const isText = type.name === "VARCHAR";
  const isWide = type.name === "DECIMAL";
  const bits = new Uint8Array(mayBeNull ? Math.ceil(fields.length / 8) : 0);
  fields.forEach((field, row) => { if (mayBeNull && field === "") bits[row >> 3] |= 1 << (row & 7); });
  const texts = isText ? fields.map((field) => Buffer.from(field)) : [];
  const values = Buffer.alloc((isWide ? 8 : 4) * (fields.length + (isText ? 1 : 0)));
  let offset = 0;
  fields.forEach((field, row) => {
    if (isText) values.writeUInt32LE((offset += texts[row].length), 4 * (row + 1));
    else if (isWide) values.writeBigInt64LE(scaled(field.trim(), type.scale), 8 * row);
    else values.writeInt32LE(Number(type.name === "DATE" ? field.trim().replaceAll("-", "") : field.trim()), 4 * row);
  });
  return { values, octets: Buffer.concat(texts), bits };
}

// Puts the columns that the module reads from octet 64 on, each part at the next multiple of 8, and gives their entries in the descriptor.
function place({ tables, columns }, folder) {
  const pieces = [];
  let address = 64;
  const put = (octets) => {
    const at = address;
    pieces.push([at, octets]);
    address = eighth(at + octets.length);
    return at;
  };
  const entries = columns.flatMap(({ table, column: index }) => {
    const column = tables[table].columns[index];
    const records = recordsOf(readFileSync(`${folder}/${tables[table].name.toLowerCase()}.csv`, "utf8"));
    const { values, octets, bits } = parts(column, records.map((fields) => fields[index]));
    const [first, second, third] = [put(values), put(octets), put(bits)];
    return [first, column.null ? third : 0, column.type.name === "VARCHAR" ? second : 0, records.length];
  });
  return { pieces, entries, pages: Math.max(1, Math.ceil(address / PAGE)) };
}

// ---- a run

class Raised extends Error {
  constructor(code) { super(`raise ${code}`); this.code = code; }
}

// The columns that the module reads have an entry in the descriptor, and the octets of its texts stand behind them.
function run(bytes, { pieces, entries, pages }, { literals }) {
  const memory = new WebAssembly.Memory({ initial: pages + 1, maximum: pages + PAGE_LIMIT });
  pieces.forEach(([at, octets]) => new Uint8Array(memory.buffer).set(octets, at));
  const descriptor = pages * PAGE;
  const behind = descriptor + 64 + 4 * entries.length;
  const words = new DataView(memory.buffer);
  [eighth(behind + literals.length), descriptor + PAGE].forEach((word, index) => words.setUint32(descriptor + 4 * index, word, true));
  entries.forEach((word, index) => words.setUint32(descriptor + 64 + 4 * index, word, true));
  new Uint8Array(memory.buffer).set(literals, behind);
  const raise = (code) => { throw new Raised(code); };
  const held = () => memory.buffer.byteLength / PAGE - pages;
  // Where the first of so many more pages stands, which are the memory's next ones: a host may use again what others gave back, but need not.
  const next = (count) => (held() + (count >>> 0) > PAGE_LIMIT ? -1 : memory.grow(count >>> 0));
  const { exports } = new WebAssembly.Instance(new WebAssembly.Module(bytes), { q: { memory, raise, pages: next } });
  try {
    exports.run(descriptor);
    return { view: new DataView(memory.buffer), descriptor };
  } catch (fault) {
    if (!(fault instanceof Raised)) throw fault;
    return { code: fault.code, held: held() };
  }
}

// ---- the report

const textAt = (view, at) => Buffer.from(view.buffer, view.getUint32(at, true), view.getUint32(at + 4, true));

// A number at a scale has as many digits behind its point; a date is kept as year * 10000 + month * 100 + day.
function printed(view, at, { name, scale }) {
  if (view.getUint8(at + 8)) return "";
  if (name === "TEXT") return textAt(view, at).toString();
  const number = view.getBigInt64(at, true);
  if (name === "DATE") return number.toString().padStart(8, "0").replace(/(....)(..)(..)/, "$1-$2-$3");
  const digits = (number < 0n ? -number : number).toString().padStart(scale + 1, "0");
  return (number < 0n ? "-" : "") + (scale ? `${digits.slice(0, -scale)}.${digits.slice(-scale)}` : digits);
}

// where the cell of a position stands in a row
const cellOf = (row, position) => row + 8 + 16 * position;

// the addresses of the rows
function* rowsOf({ view, descriptor }) {
  for (let row = view.getUint32(descriptor + 8, true); row !== 0; row = view.getUint32(row, true)) yield row;
}

// How two cells compare: nulls below all values, texts by their octets.
function compared(view, one, other, { name }) {
  const [isNull, isOtherNull] = [one, other].map((at) => view.getUint8(at + 8));
  if (isNull || isOtherNull) return isOtherNull - isNull;
  if (name === "TEXT") return Buffer.compare(textAt(view, one), textAt(view, other));
  const [number, another] = [one, other].map((at) => view.getBigInt64(at, true));
  return number < another ? -1 : number > another ? 1 : 0;
}

// Sorts rows by the keys of ORDER BY. Rows that are equal in all keys stay as they were.
function sort(rows, view, { order, results }) {
  const by = ({ position, descending }, row, other) =>
    (descending ? -1 : 1) * compared(view, cellOf(row, position), cellOf(other, position), results[position].kind);
  return rows.sort((row, other) => order.reduce((found, key) => found || by(key, row, other), 0));
}

const quoted = (field) => (/[",\r\n]/.test(field) ? `"${field.replaceAll('"', '""')}"` : field);
const line = (fields) => (fields.length === 1 && fields[0] === "" ? '""' : fields.map(quoted).join(","));

function reported(number, end, layout) {
  const states = { 1: "SQLSTATE 22012", 2: "SQLSTATE 22003", 3: `PAGES ${end.held} 1 ${PAGE_LIMIT}` };
  if (end.code !== undefined) return [`QUERY ${number} ${states[end.code]}`];
  const rows = sort([...rowsOf(end)], end.view, layout)
    .map((row) => layout.results.map(({ kind }, position) => printed(end.view, cellOf(row, position), kind)));
  return [`QUERY ${number} ROWS ${rows.length}`, ...[layout.results.map(({ name }) => name), ...rows].map(line)];
}

const [folder, ...names] = process.argv.slice(2);
names.forEach((name, index) => {
  const layout = JSON.parse(readFileSync(`${name}.json`, "utf8"));
  const end = run(readFileSync(`${name}.wasm`), place(layout, folder), layout);
  reported(index + 1, end, layout).forEach((text) => console.log(text));
});
