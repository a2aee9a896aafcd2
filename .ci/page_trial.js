// What a trial has the page do. Each function ends by calling `done` with what it found; the page's own names are at hand.
const textOf = (row, selector) => row.querySelector(selector).textContent;
const rowsIn = id => [...document.querySelectorAll(`#${id} .row:not(.head)`)];

// Looks again and again until something is found, or the page says that something failed.
function until(found, done) {
  const it = state.failed ? { failed: state.failed } : found();
  if (it) done(it);
  else setTimeout(() => until(found, done), 4);
}

async function hashed(blob) {
  const bytes = await blob.arrayBuffer(), sum = new Uint8Array(await crypto.subtle.digest('SHA-256', bytes));
  return [bytes.byteLength, [...sum].map(it => it.toString(16).padStart(2, '0')).join('')];
}

const trial = {
  isReady: done => until(() => state.answered, () => done(1)),
  opened: done => until(() => state.opened && { ...state.opened }, done),
  loaded: done => until(() => state.opened && state.answered && { ...state.opened }, done),
  asked(query, where, done) {
    $('query').value = query;
    $('where').value = where;
    ask();
    until(() => state.answered && { ...state.answered }, done);
  },
  // How many bytes a file has that is saved, and their checksum.
  saved(form, done) {
    heard.saved = ({ blob }) => { state.saved = blob; };
    save(form);
    until(() => state.saved, it => hashed(it).then(done));
  },
  tabled(where, columns, done) {
    $('query').value = '';
    $('where').value = where;
    $('columns').value = columns;
    areColumnsTyped = true;
    ask();
    select('table');
    until(() => state.table && { ...state.table }, done);
  },
  // The rows of the survey, all of them.
  surveyed(where, done) {
    const { list } = heard, isAll = it => it.view === 'paths' && it.items.length === state.paths?.rows;
    $('query').value = '';
    $('where').value = where;
    ask();
    select('paths');
    heard.list = it => {
      list(it);
      if (!isAll(it)) return;
      heard.list = list;
      done(it.items.map(row => row.join('\t') + '\n').join(''));
    };
    until(() => state.paths, () => wants('paths')(0, state.paths.rows));
  },
  // Opens a file anew with a switch changed, by whatever is clicked.
  switched(id, done) {
    state.opened = state.answered = null;
    $(id).click();
    trial.loaded(done);
  },
  // Waits until so many paths are shown.
  pathsMade(count, done) {
    until(() => state.paths?.rows === count && !$('paths').classList.contains('stale'), () => done(1));
  },
  // The queries that the paths of the survey stand for.
  queries: (paths, done) => done(paths.map(queryOf)),
  // What the rows of a view show that are in the document.
  shown(view, done) {
    const marksOf = row => [...row.querySelectorAll('mark')].filter(it => !it.querySelector('.cut'));
    const cells = {
      lines: row => marksOf(row).map(it => [textOf(row, '.n'), it.dataset.path, it.textContent]),
      values: row => [[textOf(row, '.n'), textOf(row, '.path'), textOf(row, '.t')]],
      table: row => [[...row.querySelectorAll('.n, .cell')].map(it => it.textContent)],
      refused: row => [[textOf(row, '.n'), textOf(row, 'code')]],
      paths: row => [[...[...row.querySelectorAll('span')].map(it => it.textContent), row.querySelector('.path').title]],
    }[view];
    select(view);
    until(() => rowsIn(view).length || document.querySelector(`#${view} .empty`),
      () => setTimeout(() => done(rowsIn(view).flatMap(cells)), 30));
  },
  // The bytes of a refused line that is shown, as text.
  refused(index, done) {
    $('panel').hidden = true;
    openRow(rowsIn('refused')[index]);
    until(() => !$('panel').hidden && [$('panelBody').textContent], done);
  },
  // Whether few rows are in the document, and the number of the first or the last line that is seen.
  scrolled(view, place, done) {
    const pane = $(view);
    const look = () => {
      const rows = rowsIn(view), box = pane.getBoundingClientRect();
      const isSeen = it => it.getBoundingClientRect().top < box.bottom - 2 && it.getBoundingClientRect().bottom > box.top + 2;
      const seen = rows.filter(isSeen);
      done([rows.length < 200, Number(textOf(place ? seen[seen.length - 1] : seen[0], '.n'))]);
    };
    select(view);
    setTimeout(() => { pane.scrollTop = place * pane.scrollHeight; setTimeout(look, 400); }, 200);
  },
  focused(index, done) {
    select('lines');
    lists.lines.focus(index);
    const row = () => document.activeElement;
    until(() => row().dataset.index && [Number(row().dataset.index), textOf(row(), '.n')], done);
  },
  // Where the list is after it was scrolled away from the row with the focus.
  left(place, done) {
    $('lines').scrollTop = place;
    setTimeout(() => done([$('lines').scrollTop, $('lines').contains(document.activeElement)]), 400);
  },
  dropped(text, done) {
    const dataTransfer = new DataTransfer();
    dataTransfer.items.add(new File([text], 'dropped.jsonl'));
    for (const kind of ['dragenter', 'drop']) document.body.dispatchEvent(new DragEvent(kind, { dataTransfer, bubbles: true }));
    until(() => $('drop').hidden && state.opened?.name === 'dropped.jsonl' && state.opened.summary, done);
  },
  pasted(text, done) {
    $('paste').click();
    $('pasted').value = text;
    $('pasteDialog').querySelector('[value=open]').click();
    until(() => state.opened?.name === 'pasted.jsonl' && state.opened.summary, done);
  },
  press(key, done) {
    document.activeElement.dispatchEvent(new KeyboardEvent('keydown', { key, bubbles: true, cancelable: true }));
    done(1);
  },
  // The controls without a name for those who do not see them.
  unnamed(done) {
    const hasName = it => it.textContent.trim() || it.ariaLabel || it.labels?.length || it.getAttribute('aria-labelledby');
    done([...document.querySelectorAll('button, input, select, textarea')].filter(it => !hasName(it)).map(it => it.id));
  },
  // Tries in all ways to reach a server, and says which way did.
  reached(url, done) {
    const got = [], add = (tag, given) => document.body.appendChild(make(tag, given));
    const fetched = fetch(url).then(() => got.push('fetch'), () => 0);
    const pictured = new Promise(go => { add('img', { onload: () => go(got.push('picture')), onerror: go, src: url }); });
    const sockets = [() => new WebSocket(url.replace('http', 'ws')), () => new EventSource(url)];
    for (const call of [() => navigator.sendBeacon(url, 'x'), ...sockets]) {
      try { call(); } catch { /* refused at once */ }
    }
    add('script', { src: url });
    add('iframe', { src: url });
    add('link', { rel: 'stylesheet', href: url });
    Promise.all([fetched, pictured]).then(() => setTimeout(() => done(got), 500));
  },
  // Begins to measure how late each letter is shown.
  timed(done) {
    Object.assign(state, { opened: null, answered: null });
    window.delays = [];
    $('query').value = '';
    const painted = event => {
      const channel = new MessageChannel();
      channel.port1.onmessage = () => window.delays.push(performance.now() - event.timeStamp);
      channel.port2.postMessage(0);
    };
    $('query').addEventListener('input', event => requestAnimationFrame(() => painted(event)));
    done(1);
  },
};
