"use strict";
/** The two files of a folder, as journal.py reads them: how many entries they hold, and the step texts of an entry's events. */
const fs = require("node:fs");
const path = require("node:path");

const FILES = ["yawl.a", "yawl.b"];
const HEADER = 29;
const TREES = ["pre", "post", "select", "external", "timeout", "abort"];
const PRIMITIVES = ["suspend_item", "continue_item", "restart_item", "complete_item", "remove_item", "suspend_case", "continue_case",
  "remove_case", "compensate"];

/** The entries can't be counted or read: the files are damaged, or begin with a snapshot, which isn't read here. */
class Damaged extends Error {}

/** Takes fields from the front of an entry's bytes. */
class Reader {
  constructor(bytes) {
    this.bytes = bytes;
    this.at = 0;
  }

  take(size) {
    if (this.at + size > this.bytes.length) throw new Damaged("an entry is cut");
    this.at += size;
    return this.bytes.subarray(this.at - size, this.at);
  }

  u8() { return this.take(1)[0]; }
  u16() { return this.take(2).readUInt16BE(); }
  u32() { return this.take(4).readUInt32BE(); }
  u64() { return this.take(8).readBigUInt64BE(); }
  text() { return String(this.take(this.u32())); }
  name() { return String(this.take(this.u8())); }
  list(count, field) { return Array.from({ length: count }, () => field.call(this)); }
  names() { return this.list(this.u8(), this.name); }
  id() { return this.list(this.u8(), this.u64).join("."); }
  place() { return this.u8() ? `${this.name()}->${this.name()}` : this.name(); }
  places() { return this.list(this.u32(), this.place).join(","); }
  values() { return this.list(this.u32(), this.value); }
  tree() { return TREES[this.u8()]; }
  conclusion() { return this.u8() ? this.list(this.u32(), this.primitive) : this.name(); }

  value() {
    const sort = this.u8();
    if (sort > 2) return this.list(this.u32(), sort === 3 ? this.u64 : this.text);
    return [this.u8, this.u64, this.text][sort].call(this);
  }

  primitive() {
    const word = PRIMITIVES[this.u8()];
    return word === "compensate" ? `${word} ${this.name()}` : word;
  }
}

/** By tag: a step's text over the fields of its event, and the fields in order, each `name:method`. */
const KINDS = [
  "",
  "person {n}|n:name r:names",
  "load {n}|n:name t:text",
  "rule {k}|s:name n:name t:name kind:tree at:u32 side:u8 when:text then:conclusion k:u32",
  "launch {n} {s}|n:u64 s:name v:values",
  "enter {i} {t} from {p} as {items}|i:id t:name p:places first:u64 count:u32",
  "start {j}|j:id w:name",
  "complete {j}|j:id v:values",
  "exit {i} {t} to {p}|i:id t:name p:places",
  "add {i} {t} as {i}.{n}|i:id t:name v:value n:u64",
  "finish {n}|n:u64",
  "cancel {n}|n:u64",
  "startsub {j}|j:id",
  "completesub {j}|j:id",
  "completeempty {j}|j:id",
  "pass {j} {c}|j:id c:tree",
  "except {j} {c} {k} as {j}.{n}|j:id c:tree k:u32 n:u64",
  "substitute {j} by {s}|j:id s:name",
  "completeworklet {j}|j:id",
  "raise {j} {c} {k} as {j}.{n}|j:id c:tree k:u32 n:u64",
  "prim {r} {p}|r:id p:primitive",
  "compensated {r}|r:id",
  "suspend {j}|j:id",
  "continue {j}|j:id",
  "advance {n}|n:u64",
].map((kind) => kind.split("|"));

/** The step of the event at the front. */
function readStep(reader) {
  const [text, wanted] = KINDS[reader.u8()] ?? [];
  if (!text) throw new Damaged("an event is of no known kind");
  const fields = {};
  for (const [name, method] of wanted.split(" ").map((it) => it.split(":"))) fields[name] = reader[method]();
  fields.items = Array.from({ length: fields.count ?? 0 }, (_, k) => `${fields.i}.${fields.first + BigInt(k)}`).join(",");
  return text.replace(/\{(\w+)\}/g, (_, name) => fields[name]);
}

/** The steps of an entry's events. */
function readSteps(entry) {
  const reader = new Reader(entry);
  return reader.list(reader.u16(), () => readStep(reader));
}

/** So many bytes of a file from an offset, or fewer where it ends before. */
function readAt(file, at, size) {
  const bytes = Buffer.alloc(size);
  return bytes.subarray(0, fs.readSync(file, bytes, 0, size, at));
}

/** Calls `use` with a file of the folder, and gives what it gave, or null where the file lacks. */
function withFile(folder, name, use) {
  if (!fs.existsSync(path.join(folder, name))) return null;
  const file = fs.openSync(path.join(folder, name));
  try {
    return use(file);
  } finally {
    fs.closeSync(file);
  }
}

/** The header of a live file, else null. Whether it is sound says the server. */
function readHead(file, name) {
  const bytes = readAt(file, 0, HEADER + 1);
  if (bytes.length <= HEADER || bytes[0] !== 1) return null;
  const [generation, count, snapshot] = [5, 13, 21].map((at) => bytes.readBigUInt64BE(at));
  return { name, generation, count, snapshot };
}

/** The number of the last entry that a folder holds, and the bytes of those with numbers past `known`, in order. */
function readEntries(folder, known) {
  const heads = FILES.map((name) => withFile(folder, name, (file) => readHead(file, name))).filter(Boolean);
  const [head] = heads.sort((one, other) => (one.generation < other.generation ? 1 : -1));
  if (!head) return { number: 0n, entries: [] };
  if (head.snapshot) throw new Damaged(`${head.name} begins with a snapshot, which this version doesn't read`);
  return withFile(folder, head.name, (file) => {
    let [number, gate] = [head.count, HEADER];
    const entries = [];
    for (let bytes; (bytes = readAt(file, gate, 5))[0] === 1; ) {
      const size = bytes.readUInt32BE(1);
      number += 1n;
      if (number > known) entries.push(readAt(file, gate + 5, size));
      gate += 5 + size;
    }
    if (!readAt(file, gate, 1).length) throw new Damaged(`${head.name} is cut at byte ${gate}`);
    return { number, entries };
  });
}

module.exports = { Damaged, readEntries, readSteps };
