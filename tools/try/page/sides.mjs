// The two machines that are compared: the one of `tbc`, and the one of the page.
import { execFileSync } from "node:child_process";
import { mkdtempSync, readFileSync, rmSync, writeFileSync } from "node:fs";
import { tmpdir } from "node:os";
import { join } from "node:path";

import { Machine, isOpen } from "../../../web/machine.js";

export const LIMIT = 1_000_000_000;
const A_DUMP = 256; // bytes that the debugger shows at once
const A_ROW = 16;
const ROW_LENGTH = "0000".length + A_ROW * " 00".length + "\n".length;
const DUMPS = Array.from({ length: 0x10000 / A_DUMP }, (_, k) => k * A_DUMP).filter((at) => isOpen(at + A_DUMP - 1));
const ENDS = { 0: "returned", 5: "step limit", 6: "waits for a key" };

const hexadecimal = (value, digits) => value.toString(16).toUpperCase().padStart(digits, "0");

// A hostile ROM, as docs/MACHINE.md says.
class Rude {
  constructor(seed) {
    this.seed = seed;
  }

  event(machine) {
    this.seed = (25173 * this.seed + 13849) & 0xffff;
    const [h, l] = [this.seed >> 8, this.seed & 0xff];
    const places = [0x0002, 0x00fa, 0x00ff, 0x0200, 0x07ff, 0x0100, 0x0100 + (machine.s >> 1), 0x0100 + machine.s];
    if (l % 4 === 0) {
      machine.interrupt(places.map((place) => [place, 0xff - h]));
      return;
    }
    const [n, v, z, c, i] = [7, 6, 5, 4, 3].map((bit) => (h >> bit) & 1);
    machine.go({ registers: { a: h, x: 0xff - h, y: l, n, v, z, c, i }, writes: places.map((place) => [place, h]) });
  }
}

// What is left of a run of the page's machine, and how many events were done.
export function own({ program, keys = "", answers = "", rude, limit = LIMIT }) {
  const sent = [];
  const machine = new Machine(program, (byte) => sent.push(byte));
  machine.type(Buffer.from(keys, "hex"));
  machine.answers.push(...Buffer.from(answers, "hex"));
  const rom = rude === undefined ? { event: () => machine.go() } : new Rude(rude);
  let events = 0;
  while (events < limit && machine.status === "running") {
    rom.event(machine);
    if (machine.wrong === null) events++;
  }
  const [registers, memory, end] = [registersOf(machine), memoryOf(machine), endOf(machine)];
  return { state: { registers, memory, sent: Buffer.from(sent), cycles: machine.cycles, end }, events };
}

function registersOf({ pc, a, x, y, s, flags }) {
  const two = (byte) => hexadecimal(byte, 2);
  return `${hexadecimal(pc, 4)} A=${two(a)} X=${two(x)} Y=${two(y)} S=${two(s)} P=${two(flags | 0x30)}`;
}

function memoryOf({ memory }) {
  const open = new Uint8Array(0x10000);
  for (const at of DUMPS) open.set(memory.subarray(at, at + A_DUMP), at);
  return open.fill(0, 0, 2);
}

function endOf(machine) {
  const { status } = machine;
  if (status === "wrong") return `wrong: ${machine.wrong}`;
  return { returned: ENDS[0], running: ENDS[5], waits: ENDS[6] }[status];
}

// The commands that run a PRG on the proved machine. The profile is of so many events: it counts an instruction that is
// refused too.
function commands(tbc, { path, keys = "", answers = "", rude, limit = LIMIT }, events, name) {
  const hostile = rude === undefined ? "" : `--rude ${rude}`;
  const words = (most) => `--prg '${path}' --keys '${keys}' --answers '${answers}' --limit ${most} ${hostile}`;
  return `'${tbc}' run ${words(limit)} >${name}.sent 2>${name}.said; echo $? >${name}.status
'${tbc}' debug ${words(limit)} <commands >${name}.debugged
'${tbc}' profile ${words(Math.max(events, 1))} >${name}.profile 2>/dev/null
`;
}

// What is left of these runs on the proved machine, by `tbc run`, `tbc debug` and `tbc profile`. `counts` has the
// events of each.
export function proved(tbc, runs, counts) {
  return inFolder((folder) => {
    const dumps = DUMPS.map((at) => `m ${hexadecimal(at, 4)} ${A_DUMP}\n`);
    writeFileSync(join(folder, "commands"), `c\nx\n${dumps.join("")}`);
    const script = runs.map((run, k) => commands(tbc, run, counts[k], k)).join("");
    execFileSync("sh", { cwd: folder, input: `${script}exit 0\n` });
    return runs.map((_, k) => stateIn(join(folder, String(k)), counts[k]));
  });
}

function stateIn(name, events) {
  const contents = (ending) => readFileSync(`${name}.${ending}`, "latin1");
  const debugged = readFileSync(`${name}.debugged`);
  const dump = debugged.subarray(-DUMPS.length * (A_DUMP / A_ROW) * ROW_LENGTH);
  const lines = debugged.subarray(0, -dump.length).toString("latin1").split("\n");
  const [, registers] = /^(.* P=..) - \w+$/.exec(lines.at(-2));
  const [, cycles] = /^ +sum +\d+ +(\d+)/m.exec(contents("profile"));
  const end = ENDS[contents("status").trim()] ?? contents("said").trim().replace(/^tbc: /, "");
  return { registers, memory: dumped(dump), sent: bytesOf(contents("sent")), cycles: events && Number(cycles), end };
}

function dumped(dump) {
  const memory = new Uint8Array(0x10000);
  const digit = (code) => (code > 0x40 ? code - 0x37 : Math.max(code - 0x30, 0)); // of a closed place `--`
  const rows = DUMPS.flatMap((at) => Array.from({ length: A_DUMP / A_ROW }, (_, k) => at + k * A_ROW));
  rows.forEach((address, row) => {
    for (let k = 0, at = row * ROW_LENGTH + 5; k < A_ROW; k++, at += 3) {
      memory[address + k] = (digit(dump[at]) << 4) | digit(dump[at + 1]);
    }
  });
  return memory;
}

// The bytes whose host form this is.
export function bytesOf(hostForm) {
  const byteOf = (_, digits) => (digits ? String.fromCharCode(parseInt(digits, 16)) : "\r");
  return Buffer.from(hostForm.replace(/\n|\{(..)\}/g, byteOf), "latin1");
}

// The parts of two states that differ.
export function differences(one, other) {
  return Object.keys(one).filter((part) => (
    one[part] instanceof Uint8Array ? Buffer.compare(one[part], other[part]) !== 0 : one[part] !== other[part]
  ));
}

// Does something in a folder that is removed afterwards.
export function inFolder(work) {
  const folder = mkdtempSync(join(tmpdir(), "page-"));
  try {
    return work(folder);
  } finally {
    rmSync(folder, { recursive: true });
  }
}
