// The vectors of decisions (client/vectors/sessions.txt) through a core: a list of differences. It runs in node and in
// a browser alike.
const KEY = 'r/shop/p1', OTHER = 'r/shop/other';
const LEVELS = ['session', 'causal', 'strong'];
export const WHY = ['none', 'strong', 'flagged', 'older', 'expired', 'below_floor'];

// A page of 2^10 bits and one hash, in which all bits are set, or none.
export function pageOf(front, moment, flagged) {
  const bytes = new Uint8Array(30 + 128).fill(flagged ? 255 : 0, 30);
  bytes.set([81, 83, 70, 49, 1, 10]);
  const view = new DataView(bytes.buffer);
  [front, front, moment].forEach((n, i) => view.setBigUint64(6 + 8 * i, BigInt(n)));
  return bytes;
}

export function decide(core, line) {
  const [given, wanted] = line.split(' = ');
  const of = Object.fromEntries(given.split(' ').map((part) => part.split('=')));
  const level = LEVELS.indexOf(of.level);
  core.begin();
  core.hold(of.page === '-' ? new Uint8Array(0) : pageOf(...of.page.split(','), of.flagged === 'True'));
  core.wrote(Number(of.written));
  core.choose(OTHER, level);
  core.read(Number(of.read_any), false);
  core.choose(KEY, level);
  core.read(Number(of.read_key), of.listed === 'True');
  const { why, readAt } = core.choose(KEY, level, { commit: Number(of.copy), until: Number(of.until) });
  const found = `${WHY[why]} commit=${why === 0 ? readAt : '-'}`;
  return found === wanted ? null : `${line}: found ${found}`;
}

export function differences(core, text) {
  const lines = text.split('\n').filter((line) => line);
  return { lines: lines.length, differences: lines.map((line) => decide(core, line)).filter((it) => it) };
}
