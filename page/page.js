// The page: what is typed and clicked goes to the worker as questions, and what the worker answers is shown.
const FOREIGN = 'This begins like gzip, zstd, xz, zip or bzip2 data, or like UTF-16: unpack or recode it first.';
const LEFT_OUT = 'The command below prints what is refused: it is left out here.';
const NO_MEMORY64 = 'This browser has no 64-bit memory for WebAssembly. Chrome and Edge have it from version 133 on, '
  + 'Firefox from 134 on.';
const FILES = {
  lines: 'lines.jsonl', rows: 'rows.txt', values: 'values.jsonl', canonical: 'canonical.jsonl', text: 'values.txt',
  csv: 'table.csv', tsv: 'table.tsv',
};
const VIEWS = ['lines', 'values', 'table', 'paths', 'refused'];
// What the tests look at, too.
const state = { view: 'lines', answered: null, opened: null, table: null, paths: null, saved: null, failed: null, started: null };
let worker, script, wasm, blob, name = '', isOpen = false, areColumnsTyped = false;
let asked = 0, shownAsk = 0, shownTable = 0, shownPaths = 0;
let surveyed = null; // the condition of the paths that are shown or asked for
const send = message => worker.postMessage(message);
const text = id => $(id).value.replace(/[\r\n]/g, ' ').trim();
const unitsOn = () => ['json', 'elements'].find(it => $(it).checked) || '';
const question = () => ({ query: text('query'), where: $('hasWhere').checked ? text('where') : '' });
// A semicolon in quotes parts no columns.
const COLUMN = /(?:'(?:[^'\\]|\\.)*'|"(?:[^"\\]|\\.)*"|[^;])+/g;
const columns = () => ($('columns').value.match(COLUMN) || []).map(it => it.trim()).filter(it => it);

async function unpack(id) {
  const packed = Uint8Array.from(atob($(id).textContent), it => it.charCodeAt(0));
  return new Response(new Blob([packed]).stream().pipeThrough(new DecompressionStream('gzip'))).arrayBuffer();
}

function startWorker() {
  if (worker) worker.terminate();
  const url = URL.createObjectURL(new Blob([script], { type: 'text/javascript' }));
  worker = new Worker(url);
  worker.onmessage = ({ data }) => heard[data.kind](data);
  worker.onerror = event => heard.failed({ of: 'start', message: event.message || 'the worker failed' });
  URL.revokeObjectURL(url);
  isOpen = false;
  send({ kind: 'start', wasm });
}

function openFile(given, as) {
  [blob, name, isOpen] = [given, as, false];
  asked++;
  shownTable++;
  Object.assign(state, { opened: null, answered: null, table: null });
  clearPaths();
  $('told').textContent = `reading ${name}`;
  if (state.started) send({ kind: 'open', name, blob, units: unitsOn() });
}

const openExample = async () => openFile(new Blob([await unpack('log')]), 'log.jsonl');

function ask() {
  showCommand();
  const given = question();
  $('where').disabled = !$('hasWhere').checked;
  history.replaceState(null, '', '#' + new URLSearchParams({ q: given.query, w: given.where }));
  if (!isOpen) return;
  state.answered = null;
  send({ kind: 'ask', id: ++asked, ...given });
  if (state.view === 'table') askTable();
  if (state.view === 'paths') askPaths(300);
}

function clearPaths() {
  clearTimeout(askPaths.timer);
  shownPaths++;
  [surveyed, state.paths, lists.paths.count] = [null, null, 0];
  $('paths').replaceChildren();
}

// Asks for the paths where others are shown than those of the condition, once no key was pressed for some time.
function askPaths(wait) {
  const { where } = question();
  if (!isOpen || where === surveyed) return;
  [surveyed, state.paths] = [where, null];
  $('paths').classList.add('stale');
  clearTimeout(askPaths.timer);
  askPaths.timer = setTimeout(() => send({ kind: 'paths', id: ++shownPaths, where }), wait);
}

function askTable() {
  if (!isOpen) return;
  state.table = null;
  showCommand();
  send({ kind: 'table', id: ++shownTable, where: question().where, columns: areColumnsTyped ? columns() : null });
}

function showCommand() {
  const asked = { view: state.view, ...question(), columns: columns(), spelling: $('spelling').value, units: unitsOn() };
  $('command').textContent = commandOf(asked, name || 'FILE');
}

// How many characters a row of text has, and how many rows of text a line is given: as many as one of middle length takes.
const textWidth = () => Math.max(20, Math.floor(($('lines').clientWidth || innerWidth) / 7.9) - 14);
function textRows() {
  const { size, summary } = state.opened;
  return Math.max(1, Math.min(4, Math.ceil(size / Math.max(1, parseInt(summary)) / textWidth())));
}

const askedOf = view => ({ table: shownTable, paths: shownPaths })[view] ?? shownAsk;

// Asks for rows, unless another file is being read. A line is shown up to some bytes, which leave a row of text room for words
// that are not broken.
const wants = view => (from, count) => state.opened && send({
  kind: 'list', id: askedOf(view), view, from, count,
  spelling: $('spelling').value, most: Math.floor(textWidth() * (textRows() - 0.15)),
});
const lists = {
  lines: new Scroll($('lines'), { label: 'Lines that match', wants: wants('lines'), row: lineRow }),
  values: new Scroll($('values'), { label: 'Values', wants: wants('values'), row: valueRow }),
  table: new Scroll($('table'), { label: 'Rows of the table', wants: wants('table'), row: cellRow }),
  paths: new Scroll($('paths'), { label: 'Paths', wants: wants('paths'), row: pathRow }),
  refused: new Scroll($('refused'), {
    label: 'Refused lines', row: refusedRow,
    wants: (from, count) => state.opened && lists.refused.show(from, state.opened.refused.slice(from, from + count)),
  }),
};

// What is said of a file that is hardly JSON Lines, and a button that opens it as what it is.
function adviceOn({ isForeign, proposed, refused }) {
  const out = make('div', { className: 'bad', textContent: isForeign ? FOREIGN : '' });
  if (!proposed) return out;
  const why = refused.length ? 'The first line goes on in the next one. ' : 'The only line is an array. ';
  const button = make('button', { type: 'button', id: 'propose', textContent: `Open with --${proposed}` });
  button.onclick = () => { $(proposed).focus(); $(proposed).click(); };
  out.append(why, button);
  return out;
}

// Shows the answer in the view that is open.
function showAnswer() {
  const { view, answered } = state;
  if (view === 'lines' || view === 'values') {
    if (!answered || answered.faults) return;
    const count = view === 'lines' ? answered.lines : answered.values;
    if (count) lists[view].begin(count, view === 'lines' ? 8 + 20 * textRows() : 28);
    else $(view).replaceChildren(emptyNote('No line has such a value.'));
  }
  if (view === 'refused' && state.opened) {
    if (state.opened.refused.length) lists.refused.begin(state.opened.refused.length, 28);
    else $('refused').replaceChildren(emptyNote(state.opened.leftOut ? LEFT_OUT : 'Each line is valid or blank.'));
  }
}

const heard = {
  started(it) {
    state.started = it;
    if (blob) openFile(blob, name);
    else if (!state.opened && !state.failed) openExample();
  },
  reading({ part }) { $('told').replaceChildren('reading ', make('progress', { value: part })); },
  opened(it) {
    isOpen = true;
    state.opened = it;
    const refused = it.refused.length + it.leftOut, unit = it.units === 'json' ? 'text' : 'element';
    const summary = it.units ? `${many(parseInt(it.summary), unit)}, ${refused.toLocaleString('en')} refused` : it.summary;
    const told = ` ${bytesText(it.bytes)}, ${summary}, loaded in ${timeText(it.loadMs)}`;
    $('told').replaceChildren(make('b', { textContent: it.name }), told, adviceOn(it));
    $('foot').textContent = `Nothing leaves this page. Memory: ${bytesText(it.memory)}.`;
    $('refusedCount').textContent = refused.toLocaleString('en');
    $('refusedCount').className = refused ? 'bad' : '';
    $('saveButton').disabled = false;
    $('panel').hidden = true;
    if (state.view === 'refused') showAnswer();
    if (state.stopped) state.stopped = false;
    else ask();
  },
  refused({ id, faults }) {
    if (id !== asked) return;
    const { query, where } = question();
    showFault('query', faults.query, query, false);
    showFault('where', faults.where, where, true);
    $('lines').classList.add('stale');
    $('values').classList.add('stale');
    state.answered = { faults };
  },
  answered(it) {
    if (it.id !== asked) return;
    shownAsk = it.id;
    for (const name of ['query', 'where']) {
      showFault(name, null);
      showPatterns(name, it.patterns[name]);
    }
    $('lines').classList.remove('stale');
    $('values').classList.remove('stale');
    const [lines, values] = [many(it.lines, 'line'), many(it.values, 'value')].map(textContent => make('b', { textContent }));
    $('status').replaceChildren(lines, ', ', values, ` in ${timeText(it.ms)}`);
    $('foot').textContent = `Nothing leaves this page. Memory: ${bytesText(it.memory)}.`;
    state.answered = it;
    showAnswer();
  },
  list({ id, view, from, items }) {
    if (id !== askedOf(view)) return;
    lists[view].show(from, items);
  },
  whole({ id, item }) { if (id === shownAsk) showWhole(item); },
  line({ number, text: bytes, isWhole }) {
    const shown = make('div', { className: 't whole', textContent: bytes + (isWhole ? '' : ' …') });
    openPanel(`Line ${number.toLocaleString('en')}, refused`, shown);
  },
  table({ id, rows, columns: names }) {
    if (id !== shownTable) return;
    showFault('columns', null);
    if (!areColumnsTyped) $('columns').value = names.join('; ');
    showCommand();
    $('table').classList.remove('stale');
    const head = cellsOf('line', names);
    head.classList.add('head');
    if (rows) lists.table.begin(rows, 28, head);
    else $('table').replaceChildren(emptyNote(names.length ? 'No line matches.' : 'Name columns, as $.time; $.user.name'));
    state.table = { rows, columns: names };
  },
  paths({ id, rows, ms }) {
    if (id !== shownPaths) return;
    $('paths').classList.remove('stale');
    const cells = ['path', 'kind', 'in lines', 'values'].map(textContent => make('span', { textContent }));
    if (rows) lists.paths.begin(rows, 28, make('div', { className: 'row survey head' }, ...cells));
    else $('paths').replaceChildren(emptyNote('No line matches.'));
    state.paths = { rows, ms };
  },
  tableRefused({ id, faults }) {
    if (id !== shownTable) return;
    if (faults.where) showFault('where', faults.where, question().where, true);
    const text = faults.columns ? columns()[faults.columns.index] : '';
    showFault('columns', faults.columns, text, false);
    $('table').classList.add('stale');
    state.table = { faults };
  },
  saved({ form, blob: made }) {
    state.saved = made;
    const link = make('a', { href: URL.createObjectURL(made), download: FILES[form] });
    link.click();
    setTimeout(() => URL.revokeObjectURL(link.href), 60000);
  },
  failed({ of, message, isTrap }) {
    state.failed = message;
    if (of === 'start') return tellUnable(message);
    const words = isTrap ? `The engine stopped (${message}). It was started anew.` : message;
    $(of === 'open' ? 'told' : 'status').textContent = words;
    if (!isTrap) return;
    // Nothing calls an instance that stopped: its memory may be half written. The file is opened again, and nothing is asked.
    state.started = null;
    state.stopped = of !== 'open';
    if (of === 'open') blob = null;
    startWorker();
  },
};

function tellUnable(message) {
  const canRun = WebAssembly.validate(Uint8Array.of(0, 97, 115, 109, 1, 0, 0, 0, 5, 3, 1, 4, 1));
  $('told').replaceChildren(make('span', { className: 'bad', textContent: canRun ? message : NO_MEMORY64 }));
}

function select(view) {
  state.view = view;
  hideTip();
  for (const it of VIEWS) {
    const isOn = it === view, tab = $('tab' + it[0].toUpperCase() + it.slice(1));
    $(it).hidden = !isOn;
    tab.setAttribute('aria-selected', isOn);
    tab.tabIndex = isOn ? 0 : -1;
  }
  $('valuesOptions').hidden = view !== 'values';
  $('tableOptions').hidden = view !== 'table';
  showCommand();
  if (view === 'table') askTable();
  else if (view === 'paths') askPaths(0);
  else showAnswer();
}

// The path of a node becomes the query.
function takePath(path) {
  $('query').value = path;
  hideTip();
  ask();
}

function save(form) {
  state.saved = null;
  send({ kind: 'save', form, ...question(), columns: areColumnsTyped || columns().length ? columns() : null });
}

function readLink() {
  const given = new URLSearchParams(location.hash.slice(1));
  $('query').value = given.get('q') ?? '$.order[?@ > 250]';
  $('where').value = given.get('w') ?? '';
}
