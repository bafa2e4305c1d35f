// Runs PRGs on the machine of `tbc` and on the page's, and compares registers, memory, what is sent, cycles and the
// end.
//
//     node machine_trial.mjs TBC NAME LIST
//
// LIST is a file with a run on each row: the path of a PRG, then words as `keys=HEX`, `answers=HEX`, `rude=N`,
// `limit=N`. In place of the path may be `@`, with `code=HEX`, a small PRG, and `fill=N`: then all of the low memory
// from $0010 on, or of the high one, is filled by that seed around it, and begins with CLD or SED and a jump to it.
// NAME is what is compared, for the summary.
import { readFileSync, writeFileSync } from "node:fs";
import { join } from "node:path";

import { differences, inFolder, own, proved } from "./sides.mjs";

const AT_ONCE = 50;
const MOST_SHOWN = 10;
const [JMP, CLD, SED] = [0x4c, 0xd8, 0xf8];

// The PRG that has a small one in filled memory.
function filled(code, seed) {
  const at = code.readUInt16LE(0);
  const [first, end] = at >= 0xc000 ? [0xc000, 0xd000] : [0x0010, 0xa000];
  const program = Buffer.alloc(2 + end - first);
  program.writeUInt16LE(first, 0);
  for (let k = 2, state = seed; k < program.length; k++) {
    state = (25173 * state + 13849) & 0xffff;
    program[k] = state >> 8;
  }
  if (at !== first) program.set([seed % 2 ? SED : CLD, JMP, code[0], code[1]], 2);
  program.set(code.subarray(2), 2 + at - first);
  return program;
}

function runOf(row) {
  const [path, ...words] = row.split(" ");
  const run = { row, path };
  for (const word of words) {
    const [name, value] = word.split("=");
    run[name] = ["keys", "answers", "code"].includes(name) ? value : Number(value);
  }
  return run;
}

// Both states of each run.
function bothOf(tbc, runs) {
  return inFolder((folder) => {
    const placed = runs.map((run, k) => {
      if (run.path !== "@") return { ...run, program: readFileSync(run.path) };
      const program = filled(Buffer.from(run.code, "hex"), run.fill);
      const path = join(folder, `${k}.prg`);
      writeFileSync(path, program);
      return { ...run, path, program };
    });
    const ours = placed.map(own);
    const theirs = proved(tbc, placed, ours.map(({ events }) => events));
    return runs.map(({ row }, k) => ({ row, ours: ours[k].state, theirs: theirs[k] }));
  });
}

// What each part would be with the least that is wrong.
const SPOILT = {
  registers: (registers) => registers.replace(/.$/, (digit) => (digit === "0" ? "1" : "0")),
  memory: (memory) => memory.map((byte, at) => (at === 0xcfff ? byte ^ 1 : byte)),
  sent: (sent) => Buffer.concat([sent, Buffer.from("?")]),
  cycles: (cycles) => cycles + 1,
  end: (end) => `${end}?`,
};

// The negative case: in each part something wrong is found, and nothing else.
function findsWhatIsWrong({ theirs }) {
  return Object.entries(SPOILT).every(([part, spoil]) => {
    const found = differences(theirs, { ...theirs, [part]: spoil(theirs[part]) });
    return found.length === 1 && found[0] === part;
  });
}

function report({ row, theirs, ours }) {
  const parts = differences(theirs, ours).map((part) => `\n  ${part}: ${theirs[part]}, ${ours[part]}`.slice(0, 200));
  console.log(`${row.slice(0, 200)}${parts.join("")}`);
}

function main(tbc, name, list) {
  const runs = readFileSync(list, "utf8").trim().split("\n").map(runOf);
  const counts = {};
  let wrong = 0;
  for (let first = 0; first < runs.length; first += AT_ONCE) {
    const results = bothOf(tbc, runs.slice(first, first + AT_ONCE));
    if (first === 0 && !findsWhatIsWrong(results[0])) throw new Error("what is wrong is not found");
    for (const result of results) {
      const end = result.theirs.end.replace(/ at ....$|(closed address) .*/, "$1");
      counts[end] = (counts[end] ?? 0) + 1;
      if (differences(result.theirs, result.ours).length > 0 && wrong++ < MOST_SHOWN) report(result);
    }
  }
  const told = Object.entries(counts).sort().map(([end, count]) => `${count} ${end}`);
  console.log(`${runs.length} runs of ${name}, ${wrong} with a difference: ${told.join(", ")}`);
  return wrong === 0 ? 0 : 1;
}

process.exitCode = main(...process.argv.slice(2));
