// What is said of a query or a condition that is refused, in the words of jpgrep.
const NO_BLANKS = 'no blank stands before or after a query';
const A_PART = 'a part of a text is asked by search, as in search(@.a, "x")';
const AN_END = 'how a text begins or ends is asked by match, as in match(@.a, "x.*")';
const A_LENGTH = 'the length of a text, an array or an object is length(@.a)';
const STRAIGHT_QUOTES = 'quotes are straight, as in "x" or \'x\'';
const FUNCTIONS = {
  length: 'length takes one value, and gives a number, as in length(@.a) > 0',
  count: 'count takes a path, and gives a number, as in count(@.*) > 1',
  value: 'value takes a path, and gives the value of its only node, as in value(@..a) == 1',
  match: 'match takes two values, and is a condition, as in match(@.a, "x.*")',
  search: 'search takes two values, and is a condition, as in search(@.a, "x")',
  ...Object.fromEntries(['contains', 'includes', 'test', 'regex', 'like'].map((name) => [name, A_PART])),
  ...Object.fromEntries(['startswith', 'starts_with', 'startsWith', 'endswith', 'ends_with', 'endsWith'].map((name) => [name, AN_END])),
  size: A_LENGTH,
  len: A_LENGTH,
  '': 'there are five functions: length, count, value, match and search',
};
// What RFC 9535 has for the words by which other languages ask of a value.
const ASKING_WORDS = {
  in: 'a list is asked value by value, as in @.a == 1 || @.a == 2',
  is: 'a value is compared by ==, as in @.a == null; that there is none is !@.a',
  like: A_PART,
  contains: A_PART,
  includes: A_PART,
  matches: 'a pattern is asked by match or search, as in match(@.a, "x.*")',
  between: 'a range is two comparisons, as in @.a >= 1 && @.a <= 9',
};

const isCurly = (text) => /^[\u2018\u2019\u201c\u201d]/.test(text);
const firstWord = (text) => /^[\p{Alphabetic}\p{N}_]*/u.exec(text)[0];
// In letters of either case.
const beginsWord = (text, word) => firstWord(text).replace(/[A-Z]/g, (letter) => letter.toLowerCase()) === word;

// What other languages write where this text begins, and what RFC 9535 has for it: operators (section 2.3.5.1).
function helpWithOperator(before, rest) {
  if (rest.startsWith('=~')) return 'a pattern is asked by match or search, as in search(@.path, "cart")';
  if (/^=(?!=)/.test(rest)) return before.endsWith('!=') ? 'inequality is !=' : 'equality is ==';
  if (rest.startsWith('<>') || (rest.startsWith('>') && before.endsWith('<'))) return 'inequality is !=';
  if (beginsWord(rest, 'and') || rest.startsWith('&')) return "'and' is &&";
  if (beginsWord(rest, 'or') || rest.startsWith('|')) return "'or' is ||";
  if (beginsWord(rest, 'not')) return "'not' is !";
  const word = Object.keys(ASKING_WORDS).find((word) => beginsWord(rest, word));
  return word ? ASKING_WORDS[word] : '';
}

// What is meant by a word where a value was to stand.
function helpWithValue(word) {
  if (/^(true|false)$/i.test(word)) return 'true and false are written in small letters';
  if (/^null$/i.test(word) || ['None', 'nil', 'undefined'].includes(word)) return 'what has no value is null, as in @.a == null';
  return 'a string stands in quotes, as in "b", and a path begins with @ or $, as in @.b';
}

// The word that an operator of a comparison is followed by, at a place or before it at the end.
function comparedWord(before, rest) {
  const word = rest ? firstWord(rest) : /[\p{Alphabetic}\p{N}_]*$/u.exec(before)[0];
  const head = rest ? before : before.slice(0, before.length - word.length);
  return /^\p{Alphabetic}/u.test(word) && /[=<>]$/.test(head.trimEnd()) ? word : '';
}

// What is meant where an operand of a comparison was to begin (RFC 9535, section 2.3.5.1).
function helpWithOperand(before, rest) {
  if (/^[[{]/.test(rest)) return 'there are no array or object literals: compare their elements';
  if (/^\.[0-9]/.test(rest)) return 'a number begins with a digit, as in 0.5';
  if (isCurly(rest)) return STRAIGHT_QUOTES;
  const word = comparedWord(before, rest);
  if (word) return helpWithValue(word);
  return helpWithOperator(before, rest) || (/^[\p{Alphabetic}._]/u.test(rest) ? 'a path begins with @ or $, as in @.a' : '');
}

// What is meant by what follows a name without quotes, and cannot (RFC 9535, section 2.5.1.1).
function helpAfterName(before, rest) {
  if (!/[\p{Alphabetic}\p{N}_]$/u.test(before)) return '';
  if (rest.startsWith('(')) return 'a function takes what it is asked of in parentheses, as in length(@.a)';
  return rest.startsWith('-') ? "a name with a hyphen stands in brackets and quotes, as in $['content-type']" : '';
}

// What is meant where a segment was to begin, or the text to end (RFC 9535, section 2.5).
function helpWithSegment(before, rest, isCondition) {
  if (!rest.trimStart() && /\s$/.test(before + rest)) return NO_BLANKS;
  const help = helpAfterName(before, rest);
  if (!help && /^\s*\|(?!\|)/.test(rest)) return "there are no pipes: length and count are asked in a condition, as in -w 'length(@.a) > 1'";
  if (help || isCondition || !/^\s*[=!<>&|]/.test(rest)) return help;
  return "a condition is given by -w, as in -w '@.status == 200'";
}

// What is meant where a query was to begin with `$` (RFC 9535, section 2.2).
function helpWithRoot(rest) {
  if (rest.trimStart().startsWith('$')) return NO_BLANKS;
  if (rest.startsWith('@')) return 'a query begins with $; a condition, which may begin with @, is given by -w';
  if (/\.(json|jsonl|ndjson|log|gz)$/.test(rest)) return "the query comes first, and then the files, as in jpgrep '$.a' log.jsonl";
  return 'a query begins with $, as in $.a.b';
}

// What is meant where a name or a selector was to begin (RFC 9535, sections 2.3 and 2.5.1.1).
function helpWithName(before, rest) {
  if (rest.startsWith(']')) return 'all elements or members are [*], as in $.items[*]';
  if (before.endsWith('.') && /^[[0-9]/.test(rest)) return 'an index stands in brackets, without a dot before them, as in $.items[0]';
  if (isCurly(rest)) return STRAIGHT_QUOTES;
  if (/^['"]/.test(rest)) return "a name in quotes stands in brackets, as in $['a b']";
  return /^[\p{Alphabetic}_]/u.test(rest) ? "a name in brackets stands in quotes, as in $['name']" : '';
}

// What is meant by what follows an operand or a test, and cannot.
function helpAfterOperand(before, rest) {
  const help = helpAfterName(before, rest) || helpWithOperator(before, rest);
  return help || (/^[=!<>]/.test(rest) ? 'a comparison has two sides, and its opposite is @.a != 1 or !(@.a == 1)' : '');
}

function helpWithSyntax(expected, before, rest, isCondition) {
  switch (expected) {
    case "'$'": return helpWithRoot(rest);
    case 'a segment or the end': return helpWithSegment(before, rest, isCondition);
    case "a name or '*'": case 'a selector': case 'a name, since a comparison takes a singular query':
    case 'a name in quotes or an index, since a comparison takes a singular query': return helpWithName(before, rest);
    case 'a query, a literal or a function': case "a query, a function or '('": return helpWithOperand(before, rest);
    case 'an escape of JSON': return 'in a string a backslash is written twice, as in "[0-9]\\\\."';
    case 'a singular query before an operator':
      return 'a comparison takes names and indexes alone; of others count or value makes a value';
    case "'&&'": return "'and' is &&";
    case "'||'": return "'or' is ||";
    case "a comparison or ']'": case "a comparison or ')'": case 'a comparison': case 'a comparison or the end': case 'the end':
    case "',' or ']'": case "')'": return helpAfterOperand(before, rest);
    default: return '';
  }
}

// What is wrong, in words.
function messageOf({ fault, expected, depth }, text, name, less) {
  const most = 65535 - 4 * less;
  switch (fault) {
    case 0: return `more than ${depth} brackets and parentheses, for which the stack of this browser has no room`;
    case 1: {
      const isLong = new TextEncoder().encode(text).length > most;
      return isLong ? `more than ${most} bytes` : `more than ${512 - less} brackets and parentheses`;
    }
    case 2: return expected ? `syntax: expected ${expected}` : 'syntax';
    case 3: return 'integer beyond 2^53 - 1';
    case 4: return 'exponent of more than 15 digits';
    case 5: return `unknown function '${name}'`;
    case 6: return `function '${name}' does not fit here, or its arguments do not fit it`;
    default: return 'a column of a table has names and indexes alone, so that it is one value';
  }
}

// A fault in words, with what was probably meant. A condition is read between `$[?` and `]`, within the limits of a query.
function faultWords(found, text, isCondition) {
  const before = text.slice(0, found.place), rest = text.slice(found.place), name = rest.split('(')[0];
  const message = messageOf(found, text, name, isCondition ? 1 : 0);
  if (found.fault === 2) return { message, help: helpWithSyntax(found.expected, before, rest, isCondition) };
  if (found.fault !== 5 && found.fault !== 6) return { message, help: '' };
  return { message, help: Object.hasOwn(FUNCTIONS, name) ? FUNCTIONS[name] : FUNCTIONS[''] };
}
