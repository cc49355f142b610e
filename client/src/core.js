// The decisions of one session by the proved core (crates/client_web), in memory of its own: the floors and as many
// rows as there are places for keys, what is asked and told of a key, a key's text, and last the page.
// Numbers are below 2^53; places and lengths have 64 bits. What a host of the core owes is listed in docs/PROVED.md,
// "The core for other languages".

// A longer text is that of no target which a server takes.
const ROWS = 512, TEXT = 16384, ENTRY = 25;
export const NONE = new Uint8Array(0);

// Bytes as a text of one unit each, for btoa and for storage.
export const toText = (bytes) => bytes.reduce((text, it) => text + String.fromCharCode(it), '');
export const toBytes = (text) => Uint8Array.from(text, (it) => it.charCodeAt());

export function coreOf(module) {
  const { memory, __heap_base, ...x } = new WebAssembly.Instance(module).exports;
  const floors = (Number(__heap_base.value) + 15) & ~15, ask = floors + 64, choice = ask + 32, head = choice + 64, key = head + 32, rows = key + TEXT;
  const page = rows + ROWS * Number(x.client_web_row_bytes());
  const [ASK, CHOICE, HEAD, KEY, PAGE, ...TABLE] = [ask, choice, head, key, page, floors, rows, ROWS].map(BigInt);
  let bytes, words, held, size, last, length;

  const write = (data) => {
    const missing = page + data.length - memory.buffer.byteLength;
    if (missing > 0) memory.grow(Math.ceil(missing / 65536));
    // Memory that has grown is another buffer.
    bytes = new Uint8Array(memory.buffer);
    words = new BigUint64Array(memory.buffer);
    bytes.set(data, page);
    return BigInt(data.length);
  };
  const keep = (data) => { size = write((held = data)); };
  const word = (at, i) => Number(words[at / 8 + i]);

  const core = {
    page: () => held,
    begin() { x.client_web_new(...TABLE); },

    // Why the server is asked (`why`, 0 where it is not), and what that rests on; `copy` is {commit, until}, or absent
    // before one is looked for.
    choose(text, level, copy) {
      if (text !== last) {
        last = undefined;
        let i = 0;
        // Browsers take some microseconds for a call of TextEncoder, and most texts are ASCII.
        for (; i < text.length && i < TEXT && text.charCodeAt(i) < 128; i++) bytes[key + i] = text.charCodeAt(i);
        if (i < text.length) {
          const { read, written } = new TextEncoder().encodeInto(text, bytes.subarray(key, rows));
          if (read < text.length) throw new TypeError('the query is too long');
          i = written;
        }
        last = text;
        length = BigInt(i);
      }
      const at = ask / 8; // no list and no `...` here, which would take as long as the choice
      words[at] = BigInt(copy?.commit ?? 0);
      words[at + 1] = BigInt(copy?.until ?? 0);
      words[at + 2] = BigInt(level + (copy ? 2 ** 32 : 0));
      const why = x.client_web_choose(TABLE[0], TABLE[1], TABLE[2], PAGE, size, KEY, length, ASK, CHOICE);
      if (why > 5) throw new TypeError('the level is session, causal or strong');
      return { why, front: word(choice, 2), floor: word(choice, 3), readAt: word(choice, 4), listed: bytes[choice + 40] === 1 };
    },

    // The numbers of a page, or null where the bytes are none.
    head(data) {
      const refused = x.client_web_head(PAGE, write(data), HEAD);
      write(held);
      return refused ? null : { front: word(head, 0), commits: word(head, 1), moment: word(head, 2) };
    },
    // Holds a page from now on; none by no bytes.
    hold(data) {
      keep(data);
      x.client_web_new_page(...TABLE);
    },
    wrote(commit) { x.client_web_note_write(TABLE[0], BigInt(commit)); },
    // The key of the last choice was read; `listed`: it was flagged, and asked for again.
    read(commit, listed) {
      x.client_web_note_read(...TABLE, CHOICE, BigInt(commit));
      if (listed) x.client_web_list(...TABLE, CHOICE);
    },

    // The state in its one spelling, with the entries in the order of their marks.
    save() {
      const entries = [], head = new DataView(new ArrayBuffer(16));
      last = undefined;
      for (let i = 0; i < ROWS; i++) {
        if (!x.client_web_entry(...TABLE, BigInt(i), KEY, BigInt(ENTRY))) entries.push(toText(bytes.subarray(key, key + ENTRY)));
      }
      head.setBigUint64(0, x.client_web_least(TABLE[0]));
      head.setBigUint64(8, BigInt(entries.length));
      return 'QSS1' + toText(new Uint8Array(head.buffer)) + entries.sort().join('');
    },
    // Takes up a saved state and its page; false, and a new session, where either is none.
    load(state, saved) {
      keep(NONE);
      const isOne = !x.client_web_load(PAGE, write(toBytes(state)), ...TABLE) && (!saved.length || !!core.head(saved));
      isOne ? keep(saved) : core.begin();
      return isOne;
    },
  };
  keep(NONE);
  core.begin();
  return core;
}
