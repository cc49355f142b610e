#!/usr/bin/env node
// Writes client/js/quaestor.js, the one file that a page loads: `node client/squeeze.mjs`, or `make client`. It is the
// files of client/src one after another without comments and needless blanks, and with a letter or two for each private
// member and for the names in LOCAL; all else is as it was written. `--check` compares, and writes nothing.
//
// It is no reader of JavaScript: the sources end each statement by `;` or `}`, so that lines can be joined, have no
// template in a template, and a name in LOCAL is nowhere that of a member or an option. The tests are of what it writes.
import { readFileSync, writeFileSync } from 'node:fs';

const FILES = ['errors', 'query', 'core', 'session'];
const LOCAL = [
  'advice', 'ask', 'ASK', 'before', 'behind', 'bytesOf', 'byValue', 'choice', 'CHOICE', 'collection', 'compare', 'conditions', 'copy',
  'decisive', 'document', 'ENTRY', 'escape', 'escaped', 'fail', 'filter', 'HEAD', 'held', 'inner', 'isNegated', 'isOne', 'isRecord',
  'isThere', 'isWhole', 'isWithin', 'item', 'keep', 'KEY', 'Kind', 'last', 'message', 'missing', 'module', 'nameOf', 'NONE', 'numberIn',
  'once', 'options', 'others', 'PAGE', 'path', 'paths', 'pathText', 'place', 'quoted', 'rank', 'refusal', 'refused', 'relation',
  'RELATIONS', 'reply', 'ROWS', 'rows', 'segments', 'size', 'TABLE', 'TEXT', 'texts', 'toBytes', 'told', 'toText', 'valueText', 'way',
  'what', 'WHY', 'WORD', 'word', 'words', 'write',
];
const LETTERS = [...'ABCDEFGHIJKLMNOPQRSTUVWXYZabcdefghijklmnopqrstuvwxyz'];
const folder = new URL('./', import.meta.url), shipped = new URL('js/quaestor.js', folder);

// Blanks, comments, texts, templates, regular expressions (behind a sign that ends no value), words, signs.
const TOKEN = /\s+|\/\/.*|\/\*[^]*?\*\/|'(?:[^'\\]|\\.)*'|`(?:[^`\\]|\\.)*`|(?<=[(,=:[!&|?{};>]\s*)\/(?:[^/\\[\n]|\\.|\[(?:[^\]\\]|\\.)*\])+\/[a-z]*|#?[\w$]+|[^]/g;

function squeezed(text) {
  const taken = new Set(text.match(/\b\w\b/g)), free = [...LETTERS.filter((it) => !taken.has(it)), ...LETTERS.map((it) => '$' + it)];
  const uses = (word) => text.match(new RegExp(`\\b${word}\\b`, 'g'))?.length ?? 0;
  const names = new Map(LOCAL.sort((a, b) => uses(b) - uses(a)).map((it, i) => [it, free[i]])), members = new Map();
  for (const word of LOCAL) if (new RegExp(`(?<!\\.\\.)\\.${word}\\b|[{,]\\s*${word}:`).test(text)) throw new Error(`${word} is the name of a member`);
  const short = (word) => {
    if (word[0] !== '#') return names.get(word) ?? word;
    if (!members.has(word)) members.set(word, '#' + LETTERS[members.size]);
    return members.get(word);
  };
  // The word by which the statement begins, at each depth of brackets.
  const began = [''];
  let out = '', hasGap = false;
  for (const [token] of text.matchAll(TOKEN)) {
    if (/^(\s|\/\/|\/\*)/.test(token)) { hasGap = true; continue; }
    const it = token[0] === '`' ? token.replace(/\$\{[^}]*\}/g, (code) => code.replace(/#?[\w$]+/g, short)) : /^[#\w$]/.test(token) ? short(token) : token;
    // A blank parts two words, and signs that would else be read as one.
    if (hasGap && ((/[\w$]$/.test(out) && /^[\w$#]/.test(it)) || (out.at(-1) === it && /[+-]/.test(it)))) out += ' ';
    hasGap = false;
    if (/^[}\])]$/.test(it)) {
      out = out.replace(it === '}' ? /[,;]$/ : /,$/, '');
      began.pop();
    }
    if (it === 'const' && out.endsWith(';') && began.at(-1) === 'const') {
      out = out.slice(0, -1) + ',';
      continue;
    }
    if (began.at(-1) === '' || out.endsWith(';') || (out.endsWith('}') && it === 'const')) began[began.length - 1] = it;
    if (/^[{[(]$/.test(it)) began.push('');
    out += it;
  }
  return out.replace(/\(([\w$]+)\)=>/g, '$1=>');
}

export function bundle() {
  const isLocal = new RegExp(`^export (?=(async )?(const|function|class) (${LOCAL.join('|')})\\b)`, 'gm');
  const parts = FILES.map((name) => readFileSync(new URL(`src/${name}.js`, folder), 'utf8').replace(/^import .*;\n/gm, '').replace(isLocal, ''));
  return '// Made from client/src by client/squeeze.mjs\n' + squeezed(parts.join('')) + '\n';
}

if (process.argv[1] === new URL(import.meta.url).pathname) {
  const made = bundle();
  if (process.argv[2] !== '--check') writeFileSync(shipped, made);
  else if (readFileSync(shipped, 'utf8') !== made) {
    console.error('client/js/quaestor.js is not what client/src makes: make client');
    process.exit(1);
  }
  console.log(`client/js/quaestor.js has ${made.length} bytes`);
}
