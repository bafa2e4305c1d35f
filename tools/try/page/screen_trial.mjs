// Prints the bytes of trials/tb_screen_golden on the page's screen (web/screen.js), and compares the cursor and the
// frame of each with what tools/screen_model.py says, by the characters of a page: node screen_trial.mjs GOLDEN PAGE
import { createHash } from "node:crypto";
import { readFileSync } from "node:fs";
import { join } from "node:path";

import { Screen } from "../../../web/screen.js";

const TERMINAL_COLOURS = [16, 231, 88, 116, 96, 71, 19, 227, 94, 58, 167, 239, 243, 157, 63, 249];
const [LIGHT_BLUE, BLUE] = [14, 6];

// The characters that a page has for the screen codes: each is a reference by its number.
function charactersIn(page) {
  const [, references] = /id="characters" hidden>([^<]*)</.exec(page);
  return Array.from(references.matchAll(/&#(\d+);/g), ([, number]) => String.fromCodePoint(number));
}

function pen(colour, isReversed) {
  return `\x1b[0;38;5;${TERMINAL_COLOURS[colour]};48;5;${TERMINAL_COLOURS[BLUE]}${isReversed ? ";7" : ""}m`;
}

// The text that `tbc play --screen` writes for a screen.
function frame(screen, characters) {
  const rows = screen.rows.map(({ codes, colours }, row) => {
    let used = pen(LIGHT_BLUE, false);
    const cells = codes.map((code, column) => {
      const wanted = pen(colours[column], code >= 128);
      const change = wanted === used ? "" : wanted;
      used = wanted;
      return change + characters[(code & 127) + (screen.hasLetters ? 128 : 0)];
    });
    return `\x1b[${row + 1};1H${pen(LIGHT_BLUE, false)}${cells.join("")}`;
  });
  const cursor = `\x1b[${screen.row + 1};${screen.column + 1}H${pen(screen.colour, screen.isReversed)}`;
  return `\x1b[0m\x1b[2J${rows.join("")}${cursor}`;
}

function answer(bytes, characters) {
  const screen = new Screen();
  for (const byte of bytes) screen.print(byte);
  return `${screen.row} ${screen.column} ${createHash("md5").update(frame(screen, characters)).digest("hex")}`;
}

function main(golden, page) {
  const lines = (name) => readFileSync(join(golden, name), "utf8").trimEnd().split("\n");
  const characters = charactersIn(readFileSync(page, "utf8"));
  const [cases, wanted] = [lines("stdin").map((line) => Buffer.from(line, "hex")), lines("stdout")];
  if (answer([...cases[0], 0x2e], characters) === wanted[0]) throw new Error("what is wrong is not found");
  const wrong = cases.filter((bytes, k) => answer(bytes, characters) !== wanted[k]);
  console.log(`${cases.length} screens, ${wrong.length} with a difference`);
  for (const bytes of wrong.slice(0, 5)) console.log(`  ${bytes.toString("hex").slice(0, 200)}`);
  return wrong.length === 0 && cases.length > 0 ? 0 : 1;
}

process.exitCode = main(...process.argv.slice(2));
