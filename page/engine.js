// The engine in a worker: the module, the file that it holds, and its calls, which are those of c/jpq.h.
const DONE = 0, MEMORY = 16, FORMAT = 5, NONE = 6;
const WORDS = {
  1: 'the handle is not open', 3: 'the query, the condition or a column is refused',
  5: 'the file begins with the mark of another format', 11: 'cannot read', 12: 'the file has 4 GiB or more', 14: 'the script is too large', 16: 'out of memory',
};
// What jpq_filter writes of what matches.
const SHOWN = { lines: 1, rows: 2, csv: 3, tsv: 4, canonicalLines: 5, canonical: 7, values: 8, text: 9 };
const PIECE = 1 << 20; // bytes of an answer that are read at once
const UNITS = { json: 1, elements: 2 }; // what jpq_values takes for a value
const FOLD = 1000n; // names of an object in a survey, as jpgrep takes it
const MOST_PATTERNS = 20;
const utf8 = new TextEncoder(), decoder = new TextDecoder('utf-8', { ignoreBOM: true });
let compiled, engine, handle = 0n, room = 0n, depth = 512;
let file = 0n, size = 0, answer = null, table = null, survey = null;
const latest = {};

const memory = () => new Uint8Array(engine.memory.buffer);

function take(count) {
  const at = engine.page_room(BigInt(count || 1));
  if (!at) throw new Error(WORDS[MEMORY]);
  return at;
}

function put(bytes) {
  const at = take(bytes.length);
  memory().set(bytes, Number(at));
  return at;
}

// A call with texts, or bytes, as bytes in the module's memory, which are freed after the call.
function withTexts(texts, call) {
  const bytes = texts.map(it => typeof it === 'string' ? utf8.encode(it) : it), places = bytes.map(put);
  try {
    return call(...bytes.flatMap((it, i) => [places[i], BigInt(it.length)]));
  } finally {
    places.forEach(it => engine.page_free(it));
  }
}

function expectDone(status) {
  if (status !== DONE) throw new Error(WORDS[status] || `the engine answered ${status}`);
}

// Gives what the last call left in pieces, as bytes that are good until the next call.
function readPieces(each) {
  for (;;) {
    const count = Number(engine.jpq_read(handle, room, BigInt(PIECE)));
    if (!count) return;
    each(memory().subarray(Number(room), Number(room) + count));
  }
}

function readAll() {
  const bytes = new Uint8Array(Number(engine.jpq_left(handle)));
  let at = 0;
  readPieces(piece => { bytes.set(piece, at); at += piece.length; });
  return bytes;
}

const ask = script => expectDone(withTexts([script], (at, n) => engine.jpq_ask(handle, at, n)));

// Searches a text that is in the module's memory.
function filterAt(at, length, where, queries, shown, numbered) {
  const isNumbered = numbered ? 1 : 0;
  return withTexts([where, queries], (...texts) => engine.jpq_filter(handle, at, BigInt(length), ...texts, shown, isNumbered));
}

// Surveys such a text.
function surveyAt(at, length, where) {
  return withTexts([where], (...text) => engine.jpq_survey(handle, at, BigInt(length), ...text, FOLD));
}

const filter = (where, queries, shown, numbered) => expectDone(filterAt(file, size, where, queries, shown, numbered));

function lineBytes(number) {
  expectDone(engine.jpq_line(handle, BigInt(number)));
  return readAll();
}

// Where the nodes that the query selects stand in a line, in the order of the nodelist: [from, to, path].
function marksOf(number, query) {
  expectDone(withTexts([query], (at, n) => engine.jpq_marks(handle, BigInt(number), at, n)));
  return decoder.decode(readAll()).split('\n').slice(0, -1).map(row => {
    const [from, to, path] = row.split('\t');
    return [Number(from), Number(to), path];
  });
}

// A value in another spelling.
function spelled(bytes, shown) {
  if (!shown) return bytes;
  const at = put(bytes);
  try {
    expectDone(filterAt(at, bytes.length, '', '$', shown, false));
  } finally {
    engine.page_free(at);
  }
  return readAll().slice(0, -1);
}

// The fault of a query or a condition, or null: its number, its place in bytes, and what the grammar has there.
function callFault(text, isCondition) {
  const words = take(96);
  try {
    const which = isCondition ? 1 : 0;
    const fault = withTexts([text], (at, n) => engine.jpq_fault(at, n, which, words, words + 8n, words + 16n, 80n));
    if (!fault) return null;
    if (fault === MEMORY) throw new Error(WORDS[MEMORY]);
    const view = new DataView(engine.memory.buffer, Number(words), 96), count = Number(view.getBigUint64(8, true));
    const expected = decoder.decode(memory().slice(Number(words) + 16, Number(words) + 16 + count));
    return { fault, bytes: Number(view.getBigUint64(0, true)), expected: fault === 2 ? expected : '' };
  } finally {
    engine.page_free(words);
  }
}

// The same with its place in UTF-16 units. More brackets than the stack has room for are a fault of their own.
function faultOf(text, isCondition) {
  const brackets = [...text.matchAll(/[[(]/g)];
  if (depth < 512 && brackets.length > depth) return { fault: 0, place: brackets[depth].index, depth };
  const found = callFault(text, isCondition);
  if (!found) return null;
  const before = decoder.decode(utf8.encode(text).slice(0, found.bytes));
  return { fault: found.fault, expected: found.expected, place: before.length };
}

// The patterns of a query or a condition that are not valid, and so match nothing: the first of them.
function patternsOf(text, isCondition) {
  const found = [], most = utf8.encode(text).length, told = take(8 + most), at = Number(told);
  const which = isCondition ? 1 : 0, room = BigInt(most);
  const call = (at, n) => engine.jpq_pattern(at, n, which, BigInt(found.length), told, told + 8n, room);
  try {
    while (found.length < MOST_PATTERNS) {
      const status = withTexts([text], call);
      if (status === NONE) break;
      expectDone(status);
      const count = Number(new DataView(engine.memory.buffer).getBigUint64(at, true));
      found.push(decoder.decode(memory().slice(at + 8, at + 8 + count)));
    }
    return found;
  } finally {
    engine.page_free(told);
  }
}

// Has the file's lines be the values of its texts, and answers how many texts or elements are left out, as they are refused; or
// null, with the file as it is, where it begins like one of another format.
function takeValues(units) {
  const told = take(8);
  try {
    expectDone(engine.jpq_open(file, 0n, 0, -1, handle));
    const status = engine.jpq_values(handle, file, BigInt(size), units, told);
    if (status === FORMAT) return null;
    expectDone(status);
    const refused = Number(new DataView(engine.memory.buffer).getBigUint64(Number(told), true));
    engine.page_free(file);
    [file, size] = [0n, Number(engine.jpq_left(handle))];
    file = take(size);
    engine.jpq_read(handle, file, BigInt(size));
    return refused;
  } finally {
    engine.page_free(told);
  }
}

// How many brackets may nest: the parser calls itself for each, and a browser's stack is small. Each try has an instance of its
// own, as one that ran out of stack is not called again. A third is left for what compiles otherwise later.
async function findDepth() {
  const whole = [engine, handle, room];
  const forms = [n => '('.repeat(n) + '@' + ')'.repeat(n), n => '@[?'.repeat(n) + '@' + ']'.repeat(n),
    n => '!('.repeat(n) + '@' + ')'.repeat(n), n => 'length(value(@[?'.repeat(n / 3) + '@' + ']))==1'.repeat(n / 3)];
  const isDeep = async n => {
    await start();
    const text = put(utf8.encode('['.repeat(512) + ']'.repeat(512)));
    try {
      expectDone(engine.jpq_open(text, 1024n, 0, -1, handle));
      for (const condition of forms.map(it => it(n))) {
        ask(`query $[?${condition}]`);
        expectDone(filterAt(text, 1024, condition, '$', SHOWN.rows, false));
        expectDone(surveyAt(text, 1024, condition));
        patternsOf(condition, true);
      }
      return true;
    } catch (fault) {
      if (!isTrap(fault)) throw fault;
      return false;
    }
  };
  let low = 0, high = 511;
  if (await isDeep(high)) low = 512;
  while (high - low > 16) {
    const middle = (low + high) >> 1;
    if (await isDeep(middle)) low = middle;
    else high = middle;
  }
  [engine, handle, room] = whole;
  return low === 512 ? 512 : Math.floor(low * 2 / 3);
}

async function start() {
  engine = (await WebAssembly.instantiate(compiled, {})).exports;
  handle = put(new Uint8Array(32));
  room = take(PIECE);
}

const isTrap = fault => fault instanceof WebAssembly.RuntimeError || fault instanceof RangeError;
