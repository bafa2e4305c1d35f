// The screen of docs/SCREEN.md: what the bytes that a program sends do to it. Codes from 128 on are reversed.

export const COLUMNS = 40;
export const ROWS = 25;
export const RETURN = 13;

const LIGHT_BLUE = 14;
const BLANK = 32;
const QUOTE = 34;
const REVERSED = 128;
const LAST = COLUMNS - 1;
const [SHIFTED_RETURN, DELETE, INSERT] = [141, 20, 148];

// The colours in the machine's order, by the byte that chooses each.
const COLOURS = [144, 5, 28, 159, 156, 30, 31, 158, 129, 149, 150, 151, 152, 153, 154, 155];

// The screen code of a byte that shows a character.
export function codeOf(byte) {
  if (byte === 255) return 94;
  if (byte >= 192) return byte - 128;
  if (byte >= 160) return byte - 64;
  if (byte >= 96) return byte - 32;
  return byte >= 64 ? byte - 64 : byte;
}

export const isShown = (byte) => (byte & 0x7f) >= 32;

export class Screen {
  constructor() {
    this.colour = LIGHT_BLUE;
    this.isReversed = false;
    this.isQuoted = false;
    this.room = 0; // how many bytes INST still makes room for
    this.hasLetters = false; // the character set with small letters
    this.clear();
  }

  // A screen that shows the same.
  copy() {
    const rows = this.rows.map((row) => ({ ...row, codes: row.codes.slice(), colours: row.colours.slice() }));
    return Object.assign(Object.create(Screen.prototype), this, { rows });
  }

  print(byte) {
    if (byte === RETURN || byte === SHIFTED_RETURN) this.return();
    else if (isShown(byte)) this.character(byte);
    else if (this.showsControls(byte)) this.show(REVERSED | (byte & 0x1f) | (byte >= 128 ? 64 : 0));
    else this.control(byte);
    if (this.room > 0) this.isQuoted = false;
  }

  // Whether a control byte is shown as a reversed character.
  showsControls(byte) {
    if (byte === DELETE) return this.room > 0;
    if (byte === INSERT) return this.isQuoted;
    return this.isQuoted || this.room > 0;
  }

  character(byte) {
    if (byte === QUOTE) this.isQuoted = !this.isQuoted;
    this.show(codeOf(byte) | (this.isReversed ? REVERSED : 0));
  }

  control(byte) {
    const colour = COLOURS.indexOf(byte);
    if (colour >= 0) this.colour = colour;
    else CONTROLS[byte]?.(this);
  }

  // A row of blanks. `goesOn` tells whether it is the second one of a line.
  blankRow(goesOn = false) {
    return { codes: new Array(COLUMNS).fill(BLANK), colours: new Array(COLUMNS).fill(this.colour), goesOn };
  }

  clear() {
    this.rows = Array.from({ length: ROWS }, () => this.blankRow());
    this.home();
  }

  home() {
    this.row = this.column = 0;
  }

  // The first and the last row of the cursor's line.
  get first() {
    return this.rows[this.row].goesOn ? this.row - 1 : this.row;
  }

  get last() {
    return this.rows[this.row + 1]?.goesOn ? this.row + 1 : this.row;
  }

  // Scrolls by the line at the top.
  scroll() {
    const count = this.rows[1].goesOn ? 2 : 1;
    this.rows.splice(0, count);
    for (let k = 0; k < count; k++) this.rows.push(this.blankRow());
    this.row -= count;
  }

  // Gives the cursor's line of one row a second one.
  lengthen() {
    if (this.row === ROWS - 1) this.scroll();
    this.rows.splice(this.row + 1, 0, this.blankRow(true));
    this.rows.length = ROWS;
  }

  // To the line below, in the same column.
  nextLine() {
    if (this.last === ROWS - 1) {
      this.row = this.last;
      this.scroll();
      this.row = this.last + 1;
    } else {
      this.row = this.last + 1;
    }
  }

  return() {
    this.isReversed = this.isQuoted = false;
    this.room = 0;
    this.column = 0;
    this.nextLine();
  }

  show(code) {
    if (this.room > 0) this.room--;
    this.put(this.row, this.column, code, this.colour);
    if (this.column < LAST) {
      this.column++;
      return;
    }
    if (this.first === this.last) this.lengthen();
    this.right();
  }

  put(row, column, code, colour) {
    this.rows[row].codes[column] = code;
    this.rows[row].colours[column] = colour;
  }

  right() {
    if (this.column < LAST) {
      this.column++;
      return;
    }
    this.column = 0;
    if (this.row < this.last) this.row++;
    else this.nextLine();
  }

  // One place to the left, if there is one.
  left() {
    if (this.row === 0 && this.column === 0) return false;
    if (this.column > 0) {
      this.column--;
    } else {
      this.row--;
      this.column = LAST;
    }
    return true;
  }

  down() {
    if (this.row < this.last) this.row++;
    else this.nextLine();
  }

  up() {
    if (this.row > 0) this.row--;
  }

  // The cells of the cursor's line from the cursor on, each a row and a column.
  restOfLine() {
    const cells = [];
    for (let row = this.row, column = this.column; row <= this.last; row++, column = 0) {
      for (; column < COLUMNS; column++) cells.push([row, column]);
    }
    return cells;
  }

  move([row, column], [toRow, toColumn]) {
    this.put(toRow, toColumn, this.rows[row].codes[column], this.rows[row].colours[column]);
  }

  delete() {
    if (!this.left()) return;
    const cells = this.restOfLine();
    for (let k = 1; k < cells.length; k++) this.move(cells[k], cells[k - 1]);
    this.put(...cells.at(-1), BLANK, this.colour);
  }

  insert() {
    const isAtEnd = this.row === this.last && this.column === LAST;
    if (isAtEnd || this.rows[this.last].codes[LAST] !== BLANK) {
      if (this.first !== this.last) return;
      this.lengthen();
    }
    const cells = this.restOfLine();
    for (let k = cells.length - 1; k > 0; k--) this.move(cells[k - 1], cells[k]);
    this.put(this.row, this.column, BLANK, this.colour);
    this.room = Math.min(this.room + 1, 255);
  }
}

const CONTROLS = {
  14: (screen) => { screen.hasLetters = true; },
  17: (screen) => screen.down(),
  18: (screen) => { screen.isReversed = true; },
  19: (screen) => screen.home(),
  [DELETE]: (screen) => screen.delete(),
  29: (screen) => screen.right(),
  142: (screen) => { screen.hasLetters = false; },
  145: (screen) => screen.up(),
  146: (screen) => { screen.isReversed = false; },
  147: (screen) => screen.clear(),
  [INSERT]: (screen) => screen.insert(),
  157: (screen) => screen.left(),
};
