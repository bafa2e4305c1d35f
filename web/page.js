import { CYCLES_A_SECOND, Machine } from "./machine.js";
import { COLUMNS, RETURN, ROWS, Screen, codeOf, isShown } from "./screen.js";

// What happens in the page: the program runs, and what it does is shown.

const FIRST_LINE = 0x0c00; // where the code of a compiled program's lines begins
const [SEEDED, SEED] = [0xc036, 0xc038]; // where such a program keeps the state of RND
const STOP_KEY = 3;
const LINE_BREAKS = [RETURN, 141, 19, 147];
const MOST_HEARD = 100; // lines that the log gets at once, and twice as many stay in it
const LONGEST_FRAME = 100; // milliseconds that one frame may make up for
const FAST_FRAME = 12; // milliseconds that the machine runs in each frame where it is as fast as it goes
const STEPS_BETWEEN_LOOKS = 5000; // at the clock
const FIGURES_EVERY = 250; // milliseconds
const A_ZOOM = 1.2;

const byId = (id) => document.getElementById(id);

function element(name, properties, ...children) {
  const made = Object.assign(document.createElement(name), properties);
  made.append(...children);
  return made;
}

function bytesOfDigits(digits) {
  return Uint8Array.from(digits.match(/../g) ?? [], (pair) => parseInt(pair, 16));
}

function digitsOfBytes(bytes) {
  return bytes.map((byte) => byte.toString(16).padStart(2, "0")).join("");
}

// The bytes of what is typed: small letters are capitals, and what is not ASCII is left out.
function bytesTyped(text) {
  const codes = Array.from(text, (character) => character.codePointAt(0)).filter((code) => code >= 32 && code < 127);
  return codes.map((code) => (code >= 97 && code <= 122 ? code - 32 : code));
}

const PROGRAM = bytesOfDigits(byId("program").textContent.replace(/\s/g, ""));
const CHARACTERS = Array.from(byId("characters").textContent);
const OWN_SEED = byId("seed").value; // no digits where there is no source
const LINES = Array.from(byId("lines").children, (row) => ({ row, address: parseInt(row.dataset.at, 16) }));

// By address, the place in LINES plus 1 of the line whose code begins there, or 0.
const LINE_AT = new Uint16Array(0x10000);
LINES.forEach(({ address }, place) => { LINE_AT[address] = place + 1; });

const characterOf = (code, hasLetters) => CHARACTERS[(code & 0x7f) + (hasLetters ? 128 : 0)];

// Shows a screen in an element: a row in each div, a character in each span, whose classes tell its looks.
class Display {
  constructor(place) {
    this.place = place;
    this.cells = [];
    for (let row = 0; row < ROWS; row++) {
      const cells = Array.from({ length: COLUMNS }, () => element("span"));
      place.append(element("div", {}, ...cells));
      this.cells.push(cells.map((cell) => ({ cell, text: "", looks: "" })));
    }
  }

  draw(screen) {
    screen.rows.forEach(({ codes, colours }, row) => {
      codes.forEach((code, column) => {
        const isCursor = row === screen.row && column === screen.column;
        const looks = `c${colours[column]}${code >= 128 ? " reversed" : ""}${isCursor ? " cursor" : ""}`;
        this.show(this.cells[row][column], characterOf(code, screen.hasLetters), looks);
      });
    });
  }

  show(shown, text, looks) {
    if (shown.text !== text) shown.cell.textContent = shown.text = text;
    if (shown.looks !== looks) shown.cell.className = shown.looks = looks;
  }
}

// What is sent, as text for those who hear it. A line is told when it is whole, or when the program waits or ends.
class Log {
  constructor(place) {
    this.place = place;
    place.replaceChildren();
    this.text = "";
  }

  add(byte, hasLetters) {
    if (isShown(byte)) this.text += characterOf(codeOf(byte), hasLetters);
    else if (LINE_BREAKS.includes(byte)) this.text += "\n";
  }

  tell(isAll) {
    const end = isAll ? this.text.length : this.text.lastIndexOf("\n") + 1;
    const lines = this.text.slice(0, end).split("\n").filter((line) => line !== "");
    this.text = this.text.slice(end);
    this.place.append(...lines.slice(-MOST_HEARD).map((line) => element("div", { textContent: line })));
    while (this.place.childElementCount > 2 * MOST_HEARD) this.place.firstChild.remove();
  }
}

// What each line took so far; place 0 is what comes before the first line.
class Profile {
  constructor() {
    this.times = new Array(LINES.length + 1).fill(0);
    this.cycles = new Array(LINES.length + 1).fill(0);
    this.times[0] = 1;
    this.place = 0;
    this.since = 0;
  }

  begin(place, cycles) {
    this.settle(cycles);
    this.place = place;
    this.times[place]++;
  }

  // Counts for the line that runs what it took since.
  settle(cycles) {
    this.cycles[this.place] += cycles - this.since;
    this.since = cycles;
  }
}

// One run of the program, from its start on.
class Run {
  constructor(seed, lines) {
    this.seed = seed;
    this.waiting = lines; // typed lines that no wait has taken yet, each with its return
    this.screen = new Screen();
    this.log = new Log(byId("log"));
    this.profile = new Profile();
    this.machine = new Machine(PROGRAM, (byte) => this.receive(byte));
    this.isSeeded = seed === OWN_SEED;
  }

  receive(byte) {
    this.screen.print(byte);
    this.log.add(byte, this.screen.hasLetters);
  }

  // Does so many instructions at most, up to a cycle. Answers whether it could go on.
  advance(steps, cycle) {
    const { machine } = this;
    for (let k = 0; k < steps && machine.cycles < cycle; k++) {
      const place = LINE_AT[machine.pc];
      if (place > 0) this.begin(place);
      if (!machine.go() && !this.takeLine()) return false;
    }
    return machine.cycles < cycle;
  }

  begin(place) {
    if (!this.isSeeded && this.machine.pc === FIRST_LINE) {
      this.machine.memory.set([this.seed & 0xff, this.seed >> 8], SEED);
      this.machine.memory[SEEDED] = 1;
      this.isSeeded = true;
    }
    this.profile.begin(place, this.machine.cycles);
  }

  // Where the program waits, gives it the next line that was typed. Its return moves no cursor.
  takeLine() {
    if (this.machine.status !== "waits" || this.waiting.length === 0) return false;
    const line = this.waiting.shift();
    for (const byte of line) if (byte !== RETURN) this.screen.print(byte);
    this.machine.type(line);
    return true;
  }

  // The STOP key is down until the program has looked at it.
  get isStopDown() {
    return this.machine.answersTaken < this.machine.answers.length;
  }

  stop() {
    if (!this.isStopDown && this.machine.status !== "returned") this.machine.answers.push(STOP_KEY);
  }

  // What runs it again.
  get words() {
    const keys = digitsOfBytes(this.machine.keys);
    return [...(this.seed === "" ? [] : ["--seed", this.seed]), ...(keys === "" ? [] : ["--keys", keys])].join(" ");
  }

  // What is to be seen: the screen, and on it what is typed while the program waits.
  seen(typed) {
    if (this.machine.status !== "waits") return this.screen;
    const screen = this.screen.copy();
    for (const byte of bytesTyped(typed)) screen.print(byte);
    return screen;
  }
}

const display = new Display(byId("screen"));
const keys = byId("keys");
const line = byId("line");
let run;
let before = performance.now();
let figuresAt = 0;

function start(seed, lines = []) {
  run = new Run(seed, lines);
  line.value = "";
  focusLine();
}

// Lets the machine run for one frame.
function runFrame(now) {
  const budget = Math.min(now - before, LONGEST_FRAME);
  before = now;
  if (byId("speed").value === "pal") {
    run.advance(Infinity, run.machine.cycles + (budget * CYCLES_A_SECOND) / 1000);
    return;
  }
  const end = performance.now() + FAST_FRAME;
  while (run.advance(STEPS_BETWEEN_LOOKS, Infinity) && performance.now() < end);
}

function frame(now) {
  runFrame(now);
  const { status, wrong } = run.machine;
  display.draw(run.seen(line.value));
  byId("screen").classList.toggle("waits", status === "waits");
  byId("stop").setAttribute("aria-pressed", run.isStopDown);
  run.log.tell(status !== "running");
  const state = { returned: "The program has ended.", wrong: `The machine went wrong: ${wrong}` }[status] ?? "";
  if (byId("state").textContent !== state) byId("state").textContent = state;
  if (document.activeElement !== keys) keys.value = run.words;
  showListing();
  if (now >= figuresAt) {
    figuresAt = now + FIGURES_EVERY;
    showFigures();
  }
  requestAnimationFrame(frame);
}

// The listing, with the line that runs.
function showListing() {
  if (byId("listing-panel").hidden) return;
  const current = LINES[run.profile.place - 1]?.row;
  if (current?.classList.contains("runs")) return;
  for (const { row } of LINES) row.classList.toggle("runs", row === current);
  current?.scrollIntoView({ block: "nearest" });
}

// The rows of the profile: before the first line, the lines, and the sum.
function figureRows() {
  const statements = LINES.map(({ row }) => [row.value, row.textContent.replace(/^\s*\d+ ?/, "")]);
  return [["start", ""], ...statements, ["sum", ""]].map(([name, statement]) => {
    const cells = [name, "", "", ""].map((textContent) => element("td", { textContent }));
    const row = element("tr", {}, ...cells, element("td", { className: "source", textContent: statement }));
    byId("figures").append(row);
    return { row, cells };
  });
}

const FIGURE_ROWS = figureRows();

function showFigures() {
  if (byId("profile-panel").hidden) return;
  const { profile, machine } = run;
  profile.settle(machine.cycles);
  const sum = profile.times.slice(1).reduce((all, times) => all + times, 0);
  const figures = [...profile.times.map((times, place) => [times, profile.cycles[place]]), [sum, machine.cycles]];
  FIGURE_ROWS.forEach(({ row, cells }, place) => {
    const [times, cycles] = figures[place];
    const share = machine.cycles === 0 ? 0 : (100 * cycles) / machine.cycles;
    [times, cycles, `${share.toFixed(1)}%`].forEach((text, k) => { cells[k + 1].textContent = text; });
    row.classList.toggle("runs", place === profile.place);
  });
}

function choose(tab) {
  for (const other of byId("tabs").children) {
    other.setAttribute("aria-selected", other === tab);
    other.tabIndex = other === tab ? 0 : -1;
    byId(other.getAttribute("aria-controls")).hidden = other !== tab;
  }
  figuresAt = 0;
}

// By the arrow keys from tab to tab.
function chooseByKey(event) {
  const step = { ArrowLeft: -1, ArrowRight: 1 }[event.key];
  if (step === undefined) return;
  const tabs = Array.from(byId("tabs").children);
  const tab = tabs[(tabs.indexOf(event.target) + step + tabs.length) % tabs.length];
  choose(tab);
  tab.focus();
}

// Runs it again by the words that `words` gives.
function replay(words) {
  const [, seed = run.seed] = /--seed +(\d+)/.exec(words) ?? [];
  const [, digits = ""] = /--keys +(\S+)/.exec(words) ?? [];
  const typed = Array.from(bytesOfDigits(digits));
  const lines = [];
  while (typed.length > 0) lines.push(typed.splice(0, typed.indexOf(RETURN) + 1 || typed.length));
  start(OWN_SEED === "" ? "" : String(seed & 0xffff), lines);
}

function newSeed() {
  return String(1 + (crypto.getRandomValues(new Uint16Array(1))[0] % 0xffff));
}

function zoom(by) {
  const style = document.documentElement.style;
  style.setProperty("--zoom", Number(style.getPropertyValue("--zoom") || 1) * by);
}

function copyKeys() {
  keys.value = run.words;
  keys.select();
  if (navigator.clipboard) navigator.clipboard.writeText(keys.value).catch(() => {});
  else document.execCommand("copy");
}

// Keys that are pressed anywhere go to the line that is typed, but for those that a control takes.
function keyDown(event) {
  const { key, target } = event;
  if (key === "Escape") run.stop();
  if (target.matches("input, select") || event.ctrlKey || event.metaKey || event.altKey) return;
  if (target.matches("button") && (key === " " || key === "Enter")) return;
  if (key === "Enter") byId("typing").requestSubmit();
  else if (key.length === 1) line.focus();
}

// On a phone this would bring up its keyboard.
function focusLine() {
  if (!matchMedia("(pointer: coarse)").matches) line.focus();
}

function onSubmit(form, action) {
  byId(form).addEventListener("submit", (event) => {
    event.preventDefault();
    action();
  });
}

function onClick(actions) {
  for (const [id, action] of Object.entries(actions)) byId(id).addEventListener("click", action);
}

document.addEventListener("keydown", keyDown);
byId("tabs").addEventListener("keydown", chooseByKey);
for (const tab of byId("tabs").children) tab.addEventListener("click", () => choose(tab));
onSubmit("typing", () => {
  run.waiting.push([...bytesTyped(line.value), RETURN]);
  line.value = "";
});
onSubmit("replaying", () => replay(keys.value));
onClick({
  screen: () => line.focus(),
  stop: () => run.stop(),
  restart: () => start(run.seed),
  reseed: () => start(newSeed()),
  smaller: () => zoom(1 / A_ZOOM),
  larger: () => zoom(A_ZOOM),
  copy: copyKeys,
});
byId("surroundings").addEventListener("change", ({ target }) => {
  document.documentElement.style.colorScheme = target.value;
});
byId("tabs").hidden = LINES.length === 0;
byId("reseed").hidden = OWN_SEED === "";
start(OWN_SEED);
requestAnimationFrame(frame);
