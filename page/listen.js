// Keys, clicks and files.
const TRY = [
  ['$.message', ''], ['$..price', ''], ['$.order[?@ > 250]', ''], ["$.order.items[?@.price > 50]['title','price']", ''],
  ['', '@.level == "error" && @.service == "payments"'], ['$..[?search(@, "tea(pot)? ")]', ''],
];

async function copy(button, words) {
  const label = button.textContent;
  try { await navigator.clipboard.writeText(words); } catch { return showTip(button, words); }
  button.textContent = 'Copied';
  setTimeout(() => { button.textContent = label; }, 1200);
}

function openMenu(isOpen) {
  $('saveMenu').hidden = !isOpen;
  $('saveButton').setAttribute('aria-expanded', isOpen);
  if (isOpen) $('saveMenu').querySelector('button').focus();
}

// The keys of a menu, or of tabs: to the next or the last of some buttons.
function walk(event, buttons, next, last) {
  const step = { [next]: 1, [last]: -1 }[event.key];
  if (!step) return null;
  event.preventDefault();
  return buttons[(buttons.indexOf(document.activeElement) + step + buttons.length) % buttons.length];
}

function later(call) {
  clearTimeout(later.timer);
  later.timer = setTimeout(call, state.opened && state.opened.size > 2e7 ? 180 : 40);
}

function tryChip(query, where) {
  $('query').value = query;
  $('where').value = where;
  $('hasWhere').checked = true;
  ask();
}

function listenToQuestion() {
  $('query').oninput = $('where').oninput = () => { showCommand(); later(ask); };
  $('hasWhere').onchange = ask;
  $('columns').oninput = () => { areColumnsTyped = $('columns').value !== ''; showCommand(); later(askTable); };
  $('spelling').onchange = () => { showCommand(); showAnswer(); };
  $('ask').onsubmit = event => { event.preventDefault(); ask(); };
  for (const [query, where] of TRY) {
    const chip = make('button', { type: 'button', textContent: query || `where ${where}` });
    chip.onclick = () => tryChip(query, where);
    $('chips').append(chip);
  }
}

const openText = text => openFile(new Blob([text]), 'pasted.jsonl');

function listenToPasting() {
  $('paste').onclick = () => { $('pasteDialog').showModal(); $('pasted').focus(); };
  $('pasteDialog').onclose = () => {
    if ($('pasteDialog').returnValue === 'open') openText($('pasted').value);
    $('pasted').value = '';
  };
  addEventListener('paste', event => {
    if (event.target.closest?.('input, textarea, select')) return;
    const [file] = event.clipboardData.files, text = event.clipboardData.getData('text');
    if (file) openFile(file, file.name);
    else if (text) openText(text);
  });
}

// One of the two switches is on at most. What is open is opened anew.
function listenToUnits() {
  for (const [id, other] of [['json', 'elements'], ['elements', 'json']]) {
    $(id).onchange = () => {
      if ($(id).checked) $(other).checked = false;
      showCommand();
      if (blob) openFile(blob, name);
    };
  }
}

function listenToFiles() {
  $('choose').onclick = () => $('file').click();
  $('file').onchange = () => { const [file] = $('file').files; if (file) openFile(file, file.name); $('file').value = ''; };
  $('example').onclick = openExample;
  let dragged = 0;
  const show = step => { dragged += step; $('drop').hidden = dragged <= 0; };
  addEventListener('dragenter', event => { if ([...event.dataTransfer.types].includes('Files')) show(1); });
  addEventListener('dragleave', () => { if (dragged) show(-1); });
  addEventListener('dragover', event => event.preventDefault());
  addEventListener('drop', event => {
    event.preventDefault();
    show(-dragged);
    const [file] = event.dataTransfer.files;
    if (file) openFile(file, file.name);
  });
}

function listenToTabs() {
  const tabs = [...$('tabs').children], open = tab => { if (tab) { tab.focus(); select(tab.getAttribute('aria-controls')); } };
  $('tabs').onclick = event => open(event.target.closest('[role=tab]'));
  $('tabs').onkeydown = event => open(walk(event, tabs, 'ArrowRight', 'ArrowLeft'));
}

function listenToBar() {
  const close = () => { openMenu(false); $('saveButton').focus(); };
  $('saveButton').onclick = () => openMenu($('saveMenu').hidden);
  $('saveMenu').onclick = event => {
    const it = event.target.closest('[data-form]');
    if (!it) return;
    save(it.dataset.form);
    close();
  };
  $('saveMenu').onkeydown = event => {
    walk(event, [...$('saveMenu').querySelectorAll('button')], 'ArrowDown', 'ArrowUp')?.focus();
    if (event.key === 'Escape') close();
  };
  document.addEventListener('click', event => { if (!event.target.closest('.save')) openMenu(false); });
  $('copyCommand').onclick = () => copy($('copyCommand'), $('command').textContent);
  $('copyLink').onclick = () => copy($('copyLink'), location.href);
  $('panelClose').onclick = closePanel;
}

function closePanel() {
  $('panel').hidden = true;
  const list = lists[state.view];
  if (list.count) list.focus(list.focused);
}

// All of a line, or the bytes of a refused one, in the panel.
function openRow(row) {
  if (state.view === 'refused') send({ kind: 'line', number: row.number });
  else send({ kind: 'whole', id: shownAsk, index: Number(row.dataset.index) });
}

// The next mark of a row, or the one before.
function stepMark(row, step) {
  const marks = [...row.querySelectorAll('mark')], at = marks.indexOf(document.activeElement);
  const to = marks[at < 0 ? (step > 0 ? 0 : marks.length - 1) : at + step] || row;
  to.focus({ preventScroll: true });
  if (to === row) hideTip();
}

const pathIn = it => it.dataset.path || it.textContent;

// The path of what was clicked becomes the query, where it has one.
function takeClicked(event) {
  const it = event.target.closest('mark, button.path');
  if (it) takePath(pathIn(it));
  return Boolean(it);
}

function pressedInRow(event, view) {
  const row = event.target.closest('.row'), step = { ArrowRight: 1, ArrowLeft: -1 }[event.key];
  if (!row || (!step && event.key !== 'Enter')) return;
  event.preventDefault();
  if (step) stepMark(row, step);
  else if (event.target.matches('mark')) takePath(event.target.dataset.path);
  else if (view === 'values' || view === 'paths') takePath(pathIn(row.querySelector('.path')));
  else openRow(row);
}

function listenToRows() {
  for (const view of ['lines', 'values', 'paths', 'refused']) {
    $(view).onclick = event => {
      const row = event.target.closest('.row');
      if (!takeClicked(event) && row && (view === 'lines' || view === 'refused')) openRow(row);
    };
    $(view).addEventListener('keydown', event => pressedInRow(event, view));
  }
  $('panelBody').onclick = takeClicked;
  const tell = event => {
    const mark = event.target.closest('mark');
    if (mark) showTip(mark, mark.dataset.path);
    else hideTip();
  };
  for (const id of ['lines', 'panelBody']) {
    $(id).onmouseover = tell;
    $(id).addEventListener('focusin', tell);
    $(id).onmouseleave = hideTip;
  }
}

function listenToKeys() {
  document.addEventListener('keydown', event => {
    const isTyping = /^(INPUT|TEXTAREA|SELECT)$/.test(event.target.tagName), list = lists[state.view];
    if (event.key === '/' && !isTyping) { event.preventDefault(); $('query').focus(); $('query').select(); }
    if (event.key === 'Escape' && !$('panel').hidden && !isTyping) closePanel();
    if (event.key !== 'ArrowDown' || !['query', 'where'].includes(event.target.id)) return;
    event.preventDefault();
    if (list.count) list.focus(list.first || 0);
  });
}

// In a window of another width other parts of a line are shown.
function listenToWidth() {
  let width = innerWidth, timer;
  addEventListener('resize', () => {
    if (innerWidth === width) return;
    width = innerWidth;
    clearTimeout(timer);
    timer = setTimeout(() => {
      const { first } = lists.lines;
      if (state.view !== 'lines' || !lists.lines.count) return;
      showAnswer();
      lists.lines.lead(first);
    }, 120);
  });
}

async function begin() {
  const parts = [listenToQuestion, listenToPasting, listenToFiles, listenToUnits, listenToTabs, listenToBar, listenToRows];
  for (const listen of [...parts, listenToKeys, listenToWidth]) listen();
  addEventListener('hashchange', () => { readLink(); ask(); });
  readLink();
  showCommand();
  try {
    [script, wasm] = await Promise.all([unpack('engine'), unpack('wasm')]);
    startWorker();
  } catch (fault) {
    tellUnable(fault.message);
  }
}

begin();
