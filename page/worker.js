// What the page sends, and what is done with it.
// How many brackets and braces a beginning of a text leaves open, beside those in strings.
function bracketsOpen(text) {
  let open = 0;
  for (const [it] of text.matchAll(/"(?:[^"\\]|\\.)*"?|[[{\]}]/g)) open += '[{'.includes(it) ? 1 : ']}'.includes(it) ? -1 : 0;
  return open;
}

// The option that reads a file which is hardly JSON Lines, or '': its first line that is not blank begins an array or an object
// that goes on in the next one, or is an array, and there is no other line.
function likelyUnits(refused, summary) {
  const head = decoder.decode(memory().slice(Number(file), Number(file) + Math.min(size, WHOLE_BYTES))).trimStart();
  if (!'[{'.includes(head[0])) return '';
  const [lines, , blank] = summary.match(/\d+/g), isOnly = head[0] === '[' && lines - blank === 1 && !refused.length;
  const goesOn = bracketsOpen(head.slice(0, Math.max(0, head.indexOf('\n')))) > 0;
  return !goesOn && !isOnly ? '' : head[0] === '[' ? 'elements' : 'json';
}

async function open({ name, blob, units: wanted }) {
  const began = performance.now();
  if (file) engine.page_free(file);
  engine.jpq_close(handle);
  [file, size, answer, table, survey] = [0n, 0, null, null, null];
  if (blob.size >= 2 ** 32 - 1) throw new Error(WORDS[12]);
  file = take(blob.size);
  const reader = blob.stream().getReader();
  for (let told = 0;;) {
    const { value, done } = await reader.read();
    if (done) break;
    if (size + value.length > blob.size) throw new Error('the file grew while it was read');
    memory().set(value, Number(file) + size);
    size += value.length;
    if (size - told > 1 << 24) { told = size; postMessage({ kind: 'reading', part: size / blob.size }); }
  }
  const read = performance.now(), leftOut = wanted ? takeValues(UNITS[wanted]) : null;
  expectDone(engine.jpq_open(file, BigInt(size), 0, -1, handle));
  const loadMs = performance.now() - read;
  const isForeign = filterAt(file, Math.min(size, 16), '', '$', 0, false) === FORMAT;
  ask('check');
  const refused = [];
  let summary = '';
  for (const row of decoder.decode(readAll()).split('\n')) {
    if (row.startsWith('= ')) summary = row.slice(2);
    else if (row.includes('\t!')) { const [number, why] = row.split('\t!'); refused.push([Number(number), why]); }
  }
  const units = leftOut === null ? '' : wanted, proposed = units || isForeign ? '' : likelyUnits(refused, summary);
  const times = { readMs: read - began, loadMs, memory: engine.memory.buffer.byteLength };
  postMessage({ kind: 'opened', name, bytes: blob.size, size, summary, refused, isForeign, units, leftOut, proposed, ...times });
}

function answerTo({ id, where, query }) {
  if (id !== latest.ask) return;
  const faults = { where: where ? faultOf(where, true) : null, query: query ? faultOf(query, false) : null };
  if (faults.where || faults.query) return postMessage({ kind: 'refused', id, faults });
  const began = performance.now(), rows = new Rows();
  rows.query = query || '$';
  if (where) filter(where, rows.query, SHOWN.rows, true);
  else ask('query ' + rows.query);
  readPieces(piece => rows.push(piece));
  const ms = performance.now() - began, { lines, values } = rows;
  ask('');
  answer = rows;
  const patterns = { where: where ? patternsOf(where, true) : [], query: patternsOf(rows.query, false) };
  postMessage({ kind: 'answered', id, lines, values, ms, patterns, memory: engine.memory.buffer.byteLength });
}

// The fault of a column: that of its query, or that it is not singular.
function columnFault(columns) {
  for (const [index, text] of columns.entries()) {
    const isColumn = () => filterAt(file, 0, '', text, SHOWN.tsv, false) === DONE;
    const fault = faultOf(text, false) || (isColumn() ? null : { fault: 7, place: 0 });
    if (fault) return { ...fault, index };
  }
  return null;
}

// Columns for a table where none are named: a query of names and indexes alone is one, and so are the first values of a line.
function suggestedColumns() {
  if (!answer) return [];
  if (/^\$(\.[A-Za-z_]\w*|\[\d+\]|\['[^'\\]*'\])+$/.test(answer.query)) return [answer.query];
  const found = [];
  const look = (value, path, depth) => {
    for (const [name, it] of Object.entries(value)) {
      if (!/^[A-Za-z_]\w*$/.test(name)) continue;
      if (it === null || typeof it !== 'object') found.push([depth, `${path}.${name}`]);
      else if (depth < 2 && !Array.isArray(it)) look(it, `${path}.${name}`, depth + 1);
    }
  };
  if (answer.lines) look(JSON.parse(decoder.decode(lineBytes(answer.numbers[0])).replace(/^\uFEFF/, '')) ?? {}, '$', 1);
  return found.sort((a, b) => a[0] - b[0]).slice(0, 6).map(it => it[1]);
}

function tableOf({ id, where, columns: typed }) {
  const columns = typed || suggestedColumns();
  const faults = { where: where ? faultOf(where, true) : null, columns: columnFault(columns) };
  if (faults.where || faults.columns) return postMessage({ kind: 'tableRefused', id, faults });
  if (columns.length) filter(where, columns.join('\n'), SHOWN.tsv, true);
  else ask('');
  table = placesOf(readAll());
  ask('');
  postMessage({ kind: 'table', id, columns, rows: table.rows });
}

// The paths of the lines for which a condition holds. Of a condition that is refused the answer to the question tells.
function surveyOf({ id, where }) {
  if (id !== latest.paths || (where && faultOf(where, true))) return;
  const began = performance.now();
  const status = surveyAt(file, size, where);
  if (status !== FORMAT) expectDone(status);
  survey = placesOf(readAll());
  ask('');
  postMessage({ kind: 'paths', id, rows: survey.rows, ms: performance.now() - began });
}

// The row of the columns' names.
function headOf(form, columns) {
  const quoted = it => /[",\r\n]/.test(it) ? '"' + it.replace(/"/g, '""') + '"' : it;
  const escaped = it => it.replace(/[\t\n\r\\]/g, c => '\\' + ({ '\t': 't', '\n': 'n', '\r': 'r' }[c] || c));
  return columns.map(form === 'csv' ? quoted : escaped).join(form === 'csv' ? ',' : '\t') + '\n';
}

// The file of a form.
function save({ form, where, query, columns: typed }) {
  const columns = typed || suggestedColumns();
  const parts = [], asked = query || '$', isTable = form === 'csv' || form === 'tsv';
  if ((where && faultOf(where, true)) || (isTable ? columnFault(columns) : faultOf(asked, false))) throw new Error(WORDS[3]);
  if (form === 'rows' && !where) ask('query ' + asked);
  else if (form === 'rows') filter(where, asked, SHOWN.rows, true);
  else if (isTable) {
    parts.push(headOf(form, columns));
    filter(where, columns.join('\n'), SHOWN[form], false);
  } else filter(where, asked, form === 'canonical' && asked === '$' ? SHOWN.canonicalLines : SHOWN[form], false);
  readPieces(piece => parts.push(piece.slice()));
  ask('');
  postMessage({ kind: 'saved', form, blob: new Blob(parts) });
}

// A browser compiles a function when it is first called: a first small run makes the next ones quick.
function warm() {
  const text = utf8.encode('{"a": [1.5, "b\\n", true, {"c": null}], "d": "e"}\n'.repeat(400) + '{\n');
  [file, size] = [put(text), text.length];
  expectDone(engine.jpq_open(file, BigInt(size), 0, -1, handle));
  ask('check\nquery $..[?@ > 1]\nquery $.d[?search(@, "e+")]\nquery $.d');
  filter('@.d == "e"', '$.d', SHOWN.rows, true);
  marksOf(1, '$..c');
}

const calls = {
  async start({ wasm }) {
    const began = performance.now();
    compiled = await WebAssembly.compile(wasm);
    await start();
    warm();
    depth = await findDepth();
    postMessage({ kind: 'started', depth, ms: performance.now() - began });
  },
  open,
  ask: answerTo,
  table: tableOf,
  paths: surveyOf,
  save,
  list({ id, view, from, count, ...how }) {
    const held = { lines: answer, values: answer, table, paths: survey }[view];
    const items = held ? LISTS[view](from, count, how) : [];
    postMessage({ kind: 'list', id, view, from, items });
  },
  whole({ id, index }) { if (answer) postMessage({ kind: 'whole', id, index, item: lineOf(index, WHOLE_BYTES) }); },
  line: ({ number }) => postMessage({ kind: 'line', number, ...beginning(lineBytes(number), WHOLE_BYTES) }),
};

let queue = Promise.resolve();
onmessage = ({ data }) => {
  latest[data.kind] = data.id;
  queue = queue.then(async () => {
    // The messages that came meanwhile are heard first, so that of many questions the last alone is answered.
    await new Promise(go => setTimeout(go));
    try {
      await calls[data.kind](data);
    } catch (fault) {
      postMessage({ kind: 'failed', of: data.kind, id: data.id, isTrap: isTrap(fault), message: fault.message });
    }
  });
};
