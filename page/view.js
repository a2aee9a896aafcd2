// What an answer looks like: lines with marks, values, cells, and the panel of a whole line.
// A line of tokens as text and marks.
function painted(tokens, paths) {
  const out = make('div', { className: 't' }), stack = [out];
  for (const token of tokens) {
    const top = stack[stack.length - 1];
    if (typeof token === 'string') top.append(token);
    else if (token.close) stack.pop();
    else if (token.cut) top.append(make('span', { className: 'cut', textContent: ' … ' }));
    else {
      const mark = make('mark', { tabIndex: -1 });
      mark.dataset.path = paths[token.open];
      top.append(mark);
      stack.push(mark);
    }
  }
  if (!out.querySelector('mark')) out.classList.add('whole');
  return out;
}

const numberOf = number => make('span', { className: 'n', textContent: number });

const pathButton = path => make('button', { className: 'path', type: 'button', textContent: path, title: path });

function lineRow(item) {
  const text = painted(item.tokens, item.paths), row = make('div', { className: 'row line' }, numberOf(item.number), text);
  row.item = item;
  row.setAttribute('aria-label', `line ${item.number}, ${many(item.all, 'value')}: ${text.textContent.slice(0, 200)}`);
  return row;
}

function valueRow({ number, path, text, isWhole }) {
  const short = text.replaceAll('\n', '⏎');
  const row = make('div', { className: 'row value' }, numberOf(number), Object.assign(pathButton(path), { tabIndex: -1 }),
    make('span', { className: 't whole', textContent: isWhole ? short : short + '…' }));
  row.setAttribute('aria-label', `line ${number}, ${path}: ${text.slice(0, 200)}`);
  return row;
}

// A number and cells in a row, as those of a table and its head.
function cellsOf(first, cells) {
  const made = cells.map(it => make('span', { className: 'cell', textContent: it, title: it }));
  const row = make('div', { className: 'row cells' }, numberOf(first), ...made);
  row.style.setProperty('--cells', cells.length);
  return row;
}

function cellRow({ number, cells }) {
  const row = cellsOf(number, cells);
  row.setAttribute('aria-label', `line ${number}: ${cells.join(', ')}`);
  return row;
}

// A path of the survey, indented, with a kind of values there.
function pathRow([lines, count, path, kind]) {
  const steps = stepsOf(path), button = make('button', { className: 'path', type: 'button', tabIndex: -1, title: path });
  button.textContent = steps.at(-1) || '$';
  button.dataset.path = queryOf(path);
  const cells = [kind, lines, count].map(textContent => make('span', { textContent }));
  const row = make('div', { className: 'row survey' }, button, ...cells);
  row.style.setProperty('--depth', steps.length);
  row.setAttribute('aria-label', `${path}, ${kind}: ${lines === '-' ? '' : `in lines: ${lines}, `}values: ${count}`);
  return row;
}

function refusedRow([number, why]) {
  const words = make('span', { textContent: WHY[why] || why });
  const row = make('div', { className: 'row refusal' }, numberOf(number), make('code', { textContent: why }), words);
  row.number = number;
  row.setAttribute('aria-label', `line ${number} is refused: ${WHY[why] || why}. Enter shows its bytes`);
  return row;
}

const emptyNote = words => make('p', { className: 'empty', textContent: words });

// The panel below the list: all of a line.
function openPanel(title, ...inner) {
  $('panelTitle').textContent = title;
  $('panelBody').replaceChildren(...inner);
  $('panel').hidden = false;
  $('panelBody').scrollTop = 0;
}

function showWhole(item) {
  const cell = it => make('td', {}, it);
  const rows = item.paths.map((path, i) => make('tr', {}, cell(pathButton(path)), cell(item.values[i])));
  const more = item.all - rows.length;
  if (more > 0) rows.push(make('tr', {}, cell(`and ${more.toLocaleString('en')} more, which the download has`)));
  const table = item.paths.length ? [make('table', {}, make('tbody', {}, ...rows))] : [];
  openPanel(`Line ${item.number.toLocaleString('en')}, ${many(item.all, 'value')}`, painted(item.tokens, item.paths), ...table);
}

// A caret under the character of a fault, what is wrong there, and what was probably meant.
function showFault(name, fault, text, isCondition) {
  const input = $(name), out = $(name + 'Fault');
  input.setAttribute('aria-invalid', fault ? 'true' : 'false');
  out.replaceChildren();
  if (!fault) return;
  const { message, help } = faultWords(fault, text, isCondition);
  const paint = showFault.paint ||= document.createElement('canvas').getContext('2d');
  paint.font = getComputedStyle(input).font;
  const shift = input.value.indexOf(text), place = fault.place + Math.max(0, shift);
  const left = Math.max(0, paint.measureText(input.value.slice(0, place)).width - input.scrollLeft);
  const caret = make('span', { className: 'caret', textContent: '^' });
  caret.style.marginLeft = `${Math.min(left, Math.max(0, out.clientWidth - 16))}px`;
  caret.setAttribute('aria-hidden', 'true');
  const words = make('span', { className: 'message', textContent: ` ${message}` });
  out.append(caret, words);
  if (out.scrollWidth > out.clientWidth) words.replaceChildren('\n' + message);
  if (help) out.append(make('span', { className: 'help', textContent: `help: ${help}` }));
  Object.assign(out.dataset, { place: fault.place, message, help });
}

// Below what was typed, its patterns that match nothing.
function showPatterns(name, patterns) {
  $(name + 'Fault').append(...patterns.map(it => make('span', { className: 'warning', textContent: patternWords(it) })));
}

// The path of a mark, beside it.
function showTip(mark, words) {
  const box = mark.getClientRects()[0], it = $('tip');
  if (!box) return;
  it.textContent = words;
  it.hidden = false;
  it.style.left = `${Math.max(6, Math.min(box.left, innerWidth - it.offsetWidth - 8))}px`;
  it.style.top = `${box.top > 34 ? box.top - it.offsetHeight - 4 : box.bottom + 4}px`;
}

const hideTip = () => { $('tip').hidden = true; };
