// Words and numbers as they are shown, and the command that does the same.
const WHY = {
  utf8: 'its bytes are not UTF-8', grammar: 'it is no JSON', depth: 'values nest more than 512 deep',
  surrogate: 'half of a surrogate pair is missing',
  number: 'an exponent has more than 15 digits', duplicate: 'an object has two equal names', truncated: 'its end may be lost',
};

const $ = id => document.getElementById(id);

function make(tag, given = {}, ...inner) {
  const it = Object.assign(document.createElement(tag), given);
  it.append(...inner);
  return it;
}

const many = (count, word) => `${count.toLocaleString('en')} ${word}${count === 1 ? '' : 's'}`;

function bytesText(count) {
  if (count < 1e3) return `${count} B`;
  if (count < 1e6) return `${(count / 1e3).toFixed(1)} kB`;
  return count < 1e9 ? `${(count / 1e6).toFixed(1)} MB` : `${(count / 1e9).toFixed(2)} GB`;
}

const timeText = ms => ms < 10 ? `${ms.toFixed(1)} ms` : ms < 1000 ? `${Math.round(ms)} ms` : `${(ms / 1000).toFixed(2)} s`;

// A word as a shell reads it.
const shellWord = word => /^[A-Za-z0-9._\/+,:@%-]+$/.test(word) ? word : `'${word.replaceAll("'", "'\\''")}'`;

// What is said of a pattern, in the words of jpgrep, which shows control characters escaped.
function patternWords(pattern) {
  const escaped = c => ({ '\t': '\\t', '\n': '\\n', '\r': '\\r' }[c] || `\\u{${c.codePointAt().toString(16).padStart(2, '0')}}`);
  return `'${pattern.replace(/\p{Cc}/gu, escaped)}' is not a valid I-Regexp (RFC 9485), so it matches nothing`;
}

// A path of a survey as steps, and as a query: of the members of a folded object it selects all.
const stepsOf = path => path.match(/\[(?:\*{1,2}|'(?:[^'\\]|\\.)*')\]/g) || [];
const queryOf = path => '$' + stepsOf(path).map(it => it === '[**]' ? '[*]' : it).join('');

// The command that writes what is shown. A condition that begins with a hyphen is attached to its option.
function commandOf({ view, query, where, columns, spelling, units }, name) {
  const words = units ? ['jpgrep', `--${units}`] : ['jpgrep'], file = shellWord(name.startsWith('-') ? `./${name}` : name);
  if (view === 'refused') return [...words, '--refused', file].join(' ');
  words.push('-s');
  if (view === 'values') words.push('-n', spelling === 'canonical' ? '-opj' : spelling === 'text' ? '-opr' : '-op');
  if (view === 'table') words.push('--csv', '--header');
  if (view === 'paths') words.push('--paths');
  if (where) words.push(where.startsWith('-') ? `-w${shellWord(where)}` : `-w ${shellWord(where)}`);
  if (view === 'table') words.push(...columns.map(it => `-e ${shellWord(it)}`));
  else if (view !== 'paths' && !where) words.push(shellWord(query || '$'));
  else if (view !== 'paths' && query) words.push(`-e ${shellWord(query)}`);
  return [...words, file].join(' ');
}
