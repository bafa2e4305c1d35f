// Opens pages in Chromium, types into them, and compares what they show with what `tbc` shows.
//
//     node browser_trial.mjs FOLDER PICTURE
//
// FOLDER has for each game a page, NAME.html, and what tools/try/page_browser.sh got of `tbc`: NAME.lines that are
// typed, NAME.frames of `play --screen`, NAME.sent by `run`, NAME.profile; and pages for the other trials. PICTURE is a
// file for a picture of Star Trek.
import { mkdirSync, readFileSync, readdirSync, writeFileSync } from "node:fs";
import { join } from "node:path";

import { Browser } from "./browser.mjs";
import { bytesOf } from "./sides.mjs";

const PHONE = [390, 844];
const [FRAMES, FRAME] = [60, 16]; // as many of so many milliseconds
const PAL_CYCLES = (985248 * FRAMES * FRAME) / 1000;
const LONGEST_SERVICE = 7; // cycles by which a frame may end late

// A clock that goes on by the trial's calls alone.
const CLOCK = `performance.now = () => 0;
  const calls = [];
  requestAnimationFrame = (call) => calls.push(call);
  globalThis.comes = (now) => calls.splice(0).forEach((call) => call(now));`;
const [PICTURED, PICTURED_LINES, PICTURE_SIZE] = ["examples_startrek", 3, [1000, 830]];
const CELLS = "Array.from(document.querySelectorAll('#screen div'), (row) => "
  + "Array.from(row.children, ({ textContent, className }) => [textContent, className]))";
const ROOM_AROUND = `(() => {
  const { left, top, right, bottom } = document.getElementById("screen").getBoundingClientRect();
  return [left, top, innerWidth - right, innerHeight - bottom, innerWidth - document.documentElement.scrollWidth];
})()`;
const HEARD = "Array.from(document.getElementById('log').children, (line) => line.textContent).join('')";
const FIGURES = "Array.from(document.querySelectorAll('#figures tr'), (row) => "
  + "Array.from(row.cells, (cell) => cell.textContent))";
const RUNNING_LINES = "document.querySelectorAll('#lines .runs').length";

let checks = 0;

function check(isSo, what) {
  checks++;
  if (!isSo) throw new Error(what);
}

const textOf = (id) => `document.getElementById("${id}").textContent`;
const hexadecimal = (lines) => Buffer.from(lines.map((line) => `${line.toUpperCase()}\r`).join("")).toString("hex");

// The cells that a page shows, in the form of a frame.
async function shown(page) {
  const rows = await page.value(CELLS);
  return rows.map((row) => row.map(([character, looks]) => {
    const words = looks.split(" ");
    return [character, Number(words[0].slice(1)), words.includes("reversed")];
  }));
}

const isSame = (one, other) => JSON.stringify(one) === JSON.stringify(other);
const isAtRest = (page) => page.value(`document.querySelector('#screen.waits') !== null || ${textOf("state")} !== ""`);

function differingRows(rows, frame) {
  const pairs = rows.map((row, k) => [row, frame[k]]).filter(([row, other]) => !isSame(row, other));
  return pairs.flat().map((row) => row.map(([character, ...looks]) => `${character}${looks}`).join("|")).join("\n");
}

async function showsFrame(page, frame, what) {
  const isThere = async () => await isAtRest(page) && isSame(await shown(page), frame);
  try {
    await page.until(what, isThere);
  } catch (error) {
    throw new Error(`${error.message}\n${differingRows(await shown(page), frame)}`);
  }
  checks++;
}

// Plays a game: after each line the page shows the frame of `play --screen`.
async function play(page, { name, lines, frames }, type, after = () => {}) {
  await page.select("speed", "most");
  await showsFrame(page, frames[0], `${name}: the first screen`);
  for (let k = 0; k + 1 < frames.length && k < lines.length; k++) {
    await type(page, lines[k]);
    await page.press("Enter");
    await showsFrame(page, frames[k + 1], `${name}: the screen after line ${k + 1}`);
    await after(k + 1);
  }
}

const byKeys = (page, line) => page.type(line);
const byPhone = (page, line) => page.send("Input.insertText", { text: line });

// What those hear who don't see the screen is what was sent, but for empty lines. Of graphics nothing is compared.
async function hears(page, { name, sent }) {
  const bytes = bytesOf(sent).filter((byte) => (byte & 0x7f) >= 0x20);
  if (bytes.some((byte) => byte >= 0x60)) return;
  const heard = await page.value(HEARD);
  check(heard === bytes.toString("latin1"), `${name}: what is heard: ${heard}`);
}

// The figures are those of `tbc profile`.
async function profiles(page, { name, profile }) {
  await page.click("profile-tab");
  const wanted = profile.trimEnd().split("\n").slice(1).map((row) => row.trim().split(/ +/));
  await page.until(`${name}: the figures`, async () => (await page.value(FIGURES))[0][1] !== "");
  const found = await page.value(FIGURES);
  check(found.length === wanted.length, `${name}: the figures have ${found.length} rows`);
  wanted.forEach(([line, times, , cycles, share], k) => {
    const isNear = Math.abs(parseFloat(found[k][3]) - parseFloat(share)) < 0.11;
    const isAlike = isNear && isSame(found[k].slice(0, 3), [line, times, cycles]);
    check(isAlike, `${name}: the figures of ${line}: ${found[k]}`);
  });
  await page.click("screen-tab");
}

// The line that runs is marked in the listing, and the words are those of what was typed.
async function lists(page, { name, lines, frames }) {
  await page.click("listing-tab");
  await page.until(`${name}: the line that runs`, async () => await page.value(RUNNING_LINES) === 1);
  await page.click("screen-tab");
  const words = await page.value("document.getElementById('keys').value");
  const taken = lines.slice(0, frames.length - 1);
  const wanted = taken.length === 0 ? "--seed 1" : `--seed 1 --keys ${hexadecimal(taken)}`;
  check(words === wanted, `${name}: the words ${words}`);
}

// Nothing was asked for but the page itself, and the browser has nothing to complain of.
function isByItself(page, path) {
  check(isSame(page.requests, [`file://${path}`]), `it asks for ${page.requests}`);
  check(isSame(page.complaints, []), `complaints: ${page.complaints}`);
}

async function playGame(browser, folder, game) {
  const path = join(folder, `${game.name}.html`);
  const page = await browser.open(path);
  await play(page, game, byKeys);
  await hears(page, game);
  await profiles(page, game);
  await lists(page, game);
  isByItself(page, path);
  await page.close();
}

async function takePicture(browser, folder, game, picture) {
  const page = await browser.open(join(folder, `${game.name}.html`), { size: PICTURE_SIZE });
  await page.send("Emulation.setEmulatedMedia", { features: [{ name: "prefers-reduced-motion", value: "reduce" }] });
  await play(page, game, byKeys, async (count) => {
    if (count === PICTURED_LINES) writeFileSync(picture, await page.picture(PICTURE_SIZE));
  });
  await page.close();
}

async function playOnPhone(browser, folder, game) {
  const page = await browser.open(join(folder, `${game.name}.html`), { size: PHONE, isPhone: true });
  const room = await page.value(ROOM_AROUND);
  check(room.every((space) => space >= 0), `on a phone the screen is cut: ${room}`);
  await page.value("document.getElementById('line').focus()");
  await play(page, game, byPhone);
  await page.close();
}

// The negative cases: a wrong cell is found, a request is seen where no policy forbids it, and the policy forbids it.
async function findsWhatIsWrong(browser, folder, { name, frames }) {
  const path = join(folder, `${name}.html`);
  const page = await browser.open(path);
  await showsFrame(page, frames[0], "the first screen");
  for (const spoil of ["textContent = 'x'", "className = 'c7'", "className += ' reversed'"]) {
    await page.value(`document.querySelector('#screen div:nth-child(20) span').${spoil}`);
    check(!isSame(await shown(page), frames[0]), `a wrong cell is not found: ${spoil}`);
    await page.value("document.querySelector('#screen div:nth-child(20) span').className = 'c14'");
  }
  await page.close();
  const text = readFileSync(path, "utf8").replace("<h1>", '<img src="http://127.0.0.1:9/"><h1>');
  const open = join(folder, "open.html");
  for (const [isForbidden, those] of [[false, text.replace(/<meta http-equiv[^>]*>/, "")], [true, text]]) {
    writeFileSync(open, those);
    const other = await browser.open(open);
    await other.until("the picture was asked for", () => other.requests.length > 1 || other.complaints.length > 0);
    const isRefused = other.complaints.some((complaint) => complaint.includes("Content Security Policy"));
    check(isRefused === isForbidden, `a request is ${isForbidden ? "not " : ""}refused: ${other.complaints}`);
    await other.close();
  }
}

// A new seed, the same one, and words that are pasted.
async function restarts(browser, folder, game, seeded) {
  const page = await browser.open(join(folder, `${game.name}.html`));
  await play(page, game, byKeys);
  await page.click("restart");
  await play(page, game, byKeys);
  await page.click("copy");
  const copied = await page.value("navigator.clipboard.readText()");
  check(copied === `--seed 1 --keys ${hexadecimal(game.lines)}`, `what is copied: ${copied}`);
  await page.value(`document.getElementById('keys').value = '${copied.replace("1", "77")}'`);
  await page.value("document.getElementById('replaying').requestSubmit()");
  await showsFrame(page, seeded.at(-1), "what a replay shows");
  await page.click("reseed");
  await page.until("a new seed", async () => {
    const [, seed] = /^--seed (\d+)$/.exec(await page.value("document.getElementById('keys').value")) ?? [];
    return seed !== undefined && seed !== "77";
  });
  await page.close();
}

// RUN/STOP, by its button and by Escape, and what is typed and mended.
async function stops(browser, folder) {
  for (const stop of [(page) => page.click("stop"), (page) => page.press("Escape")]) {
    const page = await browser.open(join(folder, "loops.html"));
    await page.until("it runs", async () => (await page.value(textOf("screen"))).includes("1"));
    await stop(page);
    await page.until("it stops", async () => (await page.value(textOf("screen"))).includes("!0 AT 20"));
    await page.until("it ends", async () => (await page.value(textOf("state"))) === "The program has ended.");
    await page.close();
  }
  const page = await browser.open(join(folder, "examples_guess.html"));
  await page.until("it waits", () => isAtRest(page));
  await page.type("5x");
  await page.press("Backspace");
  await page.type("a");
  await page.until("what is typed is shown", async () => (await page.value(textOf("screen"))).includes("? 5A "));
  await page.value("document.activeElement.blur()");
  await page.press("Enter");
  await page.until("what is typed is taken", async () => (await page.value(textOf("screen"))).includes("!6 AT 50"));
  checks += 6;
  await page.close();
}

// What a PRG's page leaves out, and a machine that goes wrong.
async function goesWrong(browser, folder) {
  const page = await browser.open(join(folder, "wrong.html"));
  const state = "The machine went wrong: closed address D034 at D034";
  await page.until(state, async () => (await page.value(textOf("state"))) === state);
  for (const id of ["tabs", "reseed"]) {
    check(await page.value(`document.getElementById("${id}").hidden`), `${id} is shown`);
  }
  await page.close();
}

// The cycles of so many frames are those of a PAL machine.
async function isAsFast(browser, folder) {
  const page = await browser.open(join(folder, "sieve.html"), { prelude: CLOCK });
  for (let k = 1; k <= FRAMES; k++) await page.value(`comes(${k * FRAME})`);
  await page.click("profile-tab");
  await page.value(`comes(${FRAMES * FRAME})`);
  const cycles = Number(await page.value("document.querySelector('#figures tr:last-child').cells[2].textContent"));
  const late = cycles - PAL_CYCLES;
  check(late >= 0 && late <= LONGEST_SERVICE * FRAMES, `${cycles} cycles in place of ${PAL_CYCLES}`);
  await page.close();
}

// Surroundings and size.
async function choices(browser, folder) {
  const page = await browser.open(join(folder, "sieve.html"));
  const look = (of, name) => page.value(`getComputedStyle(document.${of})["${name}"]`);
  await page.select("surroundings", "dark");
  const dark = await look("body", "backgroundColor");
  await page.select("surroundings", "light");
  check(dark !== await look("body", "backgroundColor"), "light surroundings are as dark ones");
  const width = async () => parseFloat(await look("getElementById('screen')", "width"));
  const usual = await width();
  await page.click("larger");
  check(await width() > usual, "larger is not larger");
  await page.click("smaller");
  await page.click("smaller");
  check(await width() < usual, "smaller is not smaller");
  await page.close();
}

function gameIn(folder, name) {
  const text = (ending) => readFileSync(join(folder, `${name}.${ending}`), "utf8");
  const lines = text("lines").split("\n").slice(0, -1);
  return { name, lines, frames: JSON.parse(text("frames")), sent: text("sent"), profile: text("profile") };
}

async function main(folder, picture) {
  const names = readdirSync(folder).filter((name) => name.endsWith(".lines")).sort();
  const games = names.map((name) => gameIn(folder, name.slice(0, -".lines".length)));
  const called = (wanted) => games.find(({ name }) => name === wanted);
  const guess = called("examples_guess");
  mkdirSync(join(folder, "browser"));
  const browser = new Browser(join(folder, "browser"));
  try {
    await browser.send("Browser.grantPermissions", { permissions: ["clipboardReadWrite", "clipboardSanitizedWrite"] });
    await findsWhatIsWrong(browser, folder, guess);
    for (const game of games) await playGame(browser, folder, game);
    for (const game of games) await playOnPhone(browser, folder, game);
    await restarts(browser, folder, guess, JSON.parse(readFileSync(join(folder, "seeded.frames"), "utf8")));
    await stops(browser, folder);
    await goesWrong(browser, folder);
    await isAsFast(browser, folder);
    await choices(browser, folder);
    if (picture) await takePicture(browser, folder, called(PICTURED), picture);
  } finally {
    await browser.close();
  }
  console.log(`${games.length} games played in Chromium, each at a large window and at a phone's: ${checks} checks`);
}

await main(...process.argv.slice(2));
