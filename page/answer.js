// What was asked: the lines that an answer has, and what is shown of them.
// The lines that an answer's rows name, and how many rows each has. Rows come in pieces, cut anywhere.
class Rows {
  constructor() {
    this.numbers = new Uint32Array(1024);
    this.firsts = new Uint32Array(1025);
    this.lines = 0;
    this.values = 0;
    this.number = 0;
    this.state = 0; // 0 within the number in front, 1 after it, 2 up to the end of the row
  }
  add() {
    if (!this.lines || this.numbers[this.lines - 1] !== this.number) {
      if (this.lines === this.numbers.length) {
        const numbers = new Uint32Array(2 * this.lines), firsts = new Uint32Array(2 * this.lines + 1);
        numbers.set(this.numbers);
        firsts.set(this.firsts);
        [this.numbers, this.firsts] = [numbers, firsts];
      }
      this.numbers[this.lines] = this.number;
      this.firsts[this.lines++] = this.values;
    }
    this.firsts[this.lines] = ++this.values;
  }
  push(bytes) {
    for (let at = 0; at < bytes.length;) {
      if (this.state === 2) {
        at = bytes.indexOf(10, at) + 1;
        if (!at) return;
        this.state = this.number = 0;
        continue;
      }
      const byte = bytes[at++];
      if (this.state === 0 && byte >= 48 && byte <= 57) this.number = 10 * this.number + byte - 48;
      else if (this.state === 0 && this.number) this.state = 1;
      else {
        // A path; neither the word for a refused line nor the count.
        if (this.state === 1 && byte === 36) this.add();
        this.state = 2;
      }
    }
  }
  // The line of a row, both from 0.
  lineOf(row) {
    let low = 0, high = this.lines;
    while (high - low > 1) {
      const middle = (low + high) >> 1;
      if (this.firsts[middle] <= row) low = middle;
      else high = middle;
    }
    return low;
  }
}

// Bytes of a text up to about `most` as a string, and whether that is all.
function beginning(bytes, most) {
  if (bytes.length <= most) return { text: decoder.decode(bytes), isWhole: true };
  let end = most;
  while (end && (bytes[end] & 0xC0) === 0x80) end--;
  return { text: decoder.decode(bytes.subarray(0, end)), isWhole: false };
}

// The ranges of a line's bytes that are shown: all, or its beginning and what stands around the first marks, some `most` bytes.
function keptRanges(length, marks, most) {
  if (length <= most) return [[0, length]];
  const kept = [[0, marks.length ? Math.min(60, most >> 2) : most]];
  let left = most - kept[0][1];
  for (const [from, to] of marks) {
    if (left <= 0) break;
    const last = kept[kept.length - 1], begin = Math.max(0, from - 36);
    const end = Math.min(length, Math.min(to, from + Math.max(80, left)) + 12);
    left -= end - Math.max(begin, last[1]);
    if (begin <= last[1] + 8) last[1] = Math.max(last[1], end);
    else kept.push([begin, end]);
  }
  if (left > 0) kept[kept.length - 1][1] = Math.min(length, kept[kept.length - 1][1] + left);
  return kept;
}

// A line as a list: texts, { open } where the node of that number begins, { close } where one ends, { cut } for what is left
// out.
function tokensOf(bytes, marks, most) {
  const seen = new Set(), tokens = [], ends = [];
  const spans = marks.slice(0, NODES).map(([from, to, path], index) => [from, to, index, path])
    .filter(it => !seen.has(it[3]) && seen.add(it[3]));
  spans.sort((a, b) => a[0] - b[0] || b[1] - a[1]);
  const kept = keptRanges(bytes.length, spans, most);
  let at = 0, range = 0;
  const write = to => {
    while (at < to) {
      while (range < kept.length && kept[range][1] <= at) range++;
      const [begin, end] = kept[range] || [to, to];
      if (at < begin) {
        if (!(tokens[tokens.length - 1] || {}).cut) tokens.push({ cut: true });
        at = Math.min(begin, to);
        continue;
      }
      let stop = Math.min(end, to);
      if (stop < to) while (stop < bytes.length && (bytes[stop] & 0xC0) === 0x80) stop++;
      let first = at;
      while (first < stop && (bytes[first] & 0xC0) === 0x80) first++;
      tokens.push(decoder.decode(bytes.subarray(first, stop)));
      at = stop;
    }
  };
  const leave = upTo => {
    while (ends.length && ends[ends.length - 1] <= upTo) {
      write(ends.pop());
      tokens.push({ close: true });
    }
  };
  for (const [from, to, index] of spans) {
    leave(from);
    write(from);
    tokens.push({ open: index });
    ends.push(to);
  }
  leave(bytes.length);
  write(bytes.length);
  return tokens;
}

const VALUE_BYTES = 400, WHOLE_BYTES = 1 << 18, NODES = 300;

// A line of the answer with its marks: some `most` bytes of it, or all, and then its values too.
function lineOf(index, most) {
  const number = answer.numbers[index], bytes = lineBytes(number);
  const marks = answer.query === '$' ? [] : marksOf(number, answer.query), shown = marks.slice(0, NODES);
  const item = { number, all: answer.firsts[index + 1] - answer.firsts[index], paths: shown.map(it => it[2]) };
  item.tokens = tokensOf(bytes, marks, most);
  if (most === WHOLE_BYTES) item.values = shown.map(([from, to]) => beginning(bytes.subarray(from, to), VALUE_BYTES).text);
  return item;
}

// Rows of the answer: number, path and value in a spelling.
function valuesFrom(from, count, shown) {
  const items = [];
  let line = -1, bytes, marks;
  for (let row = from; row < Math.min(from + count, answer.values); row++) {
    const at = answer.lineOf(row);
    if (at !== line) {
      line = at;
      bytes = lineBytes(answer.numbers[line]);
      marks = marksOf(answer.numbers[line], answer.query);
    }
    const [begin, end, path] = marks[row - answer.firsts[line]];
    items.push({ number: answer.numbers[line], path, ...beginning(spelled(bytes.subarray(begin, end), shown), VALUE_BYTES) });
  }
  return items;
}

const cellOf = it => it.replace(/\\(.)/g, (_, c) => ({ t: '\t', n: '\n', r: '\r' })[c] || c);

// Where each row of some bytes begins, and the end of the last.
function placesOf(bytes) {
  let places = new Float64Array(1025), rows = 0;
  for (let at = 0; at < bytes.length;) {
    at = bytes.indexOf(10, at) + 1;
    if (++rows === places.length) { const more = new Float64Array(2 * rows); more.set(places); places = more; }
    places[rows] = at;
  }
  return { bytes, places, rows };
}

// Rows of the table, whose cells have tabs between them.
function cellsFrom(from, count) {
  const items = [];
  for (let row = from; row < Math.min(from + count, table.rows); row++) {
    const { text } = beginning(table.bytes.subarray(table.places[row], table.places[row + 1] - 1), 4 * VALUE_BYTES);
    const [number, ...cells] = text.split('\t').map(cellOf);
    items.push({ number: Number(number), cells });
  }
  return items;
}

// Rows of the survey: in how many lines, how many, path and kind.
const pathsFrom = (from, count) => Array.from({ length: Math.min(count, survey.rows - from) }, (_, i) =>
  decoder.decode(survey.bytes.subarray(survey.places[from + i], survey.places[from + i + 1] - 1)).split('\t'));

const LISTS = {
  lines: (from, most, how) => Array.from({ length: Math.min(most, answer.lines - from) }, (_, i) => lineOf(from + i, how.most)),
  values: (from, count, { spelling }) => valuesFrom(from, count, spelling === 'spelled' ? 0 : SHOWN[spelling]),
  table: cellsFrom,
  paths: pathsFrom,
};
