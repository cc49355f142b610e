// Types of quaestor.js. docs/CLIENT.md says what the levels promise.

/** `session`: own writes, and of each key never an earlier commit; `causal`: of all keys; `strong`: ask the server. */
export type Level = 'session' | 'causal' | 'strong';
/** Why the server was asked; `cached` where it was not. */
export type Why = 'cached' | 'strong' | 'flagged' | 'older' | 'expired' | 'below_floor';
export type Value = string | number | bigint | boolean | null;
export type Path = string | string[];
export type Relation = '=' | '!=' | '<' | '<=' | '>' | '>=' | 'has';

/** A filter; it is never changed. */
export class Filter {
  and(...others: Filter[]): Filter;
  or(...others: Filter[]): Filter;
  not(): Filter;
  /** The normal form, by which spellings share a key. */
  normal(): Filter;
  toString(): string;
}
/** A comparison of the value at a path. Dots part the segments; a key with a dot needs an array of segments. */
export function where(path: Path, relation: Relation, value: Value): Filter;
export function where(path: Path, relation: 'in', values: Value[]): Filter;
export function where(path: Path, relation: 'exists'): Filter;
/** Every document. */
export const all: Filter;

export interface Options {
  /** `session` where it is not given. */
  level?: Level;
  /** A page older than so many seconds is fetched again before a read; 5. Infinity: by `refresh()` alone. */
  refresh?: number;
  /** The core: its address, or the module compiled; `client_web.wasm` beside this file where it is not given. */
  wasm?: string | URL | WebAssembly.Module;
  /** In place of the platform's `fetch`. */
  fetch?: typeof fetch;
  /** Where the state outlives a reload: `sessionStorage` where it is not given; null for nowhere. */
  storage?: Pick<Storage, 'getItem' | 'setItem'> | null;
  /** Whether tabs share pages by a BroadcastChannel; true. */
  share?: boolean;
  /** Tells sessions of one tab apart: each has a state of its own. */
  name?: string;
}
export interface ReadOptions { level?: Level }
export interface QueryOptions extends ReadOptions {
  /** Paths, each with ` desc` behind it or not, or `[path, 'desc']`; at most 4. */
  order?: string | (string | [Path, 'asc' | 'desc'])[];
  /** 0 to 10,000. */
  skip?: number;
  /** 1 to 1,000; 100. */
  take?: number;
  kind?: 'objects' | 'ids';
}
export interface Read<T> {
  value: T;
  /** The write that put the document; undefined for a query, or where there is none. */
  version?: number;
  /** The commit at which the copy was read. */
  commit: number;
  /** The commit of which it is the result: not before the page's front. */
  readAt: number;
  why: Why;
}
export interface Row<T> { id: string; version: number; doc: T }
export interface Page { front: number; commits: number; moment: number }
/** At most one of them. */
export interface Conditions {
  /** Only where the document was not written since this commit: the `commit` of a read. */
  ifCommit?: number;
  ifAbsent?: boolean;
  ifPresent?: boolean;
}

/** The `detail` of the event `page`: a page came, from the server or another tab; `newer`: it is held from now on. */
export interface PageCame extends Page { from: 'server' | 'tab'; newer: boolean; bytes: number }
/** The `detail` of the event `read`: a read was answered. `age` and `cache` are the fields Age and X-Cache of the copy. */
export interface ReadDone extends Read<unknown> { key: string; age: string | null; cache: string | null }

/** A session; its events are `page` and `read`. */
export class Session extends EventTarget {
  /** The page that is held. */
  readonly page: Page | null;
  /** Whether the session of before a reload was taken up. A kept state that is none is refused, and the session a new one. */
  readonly isKept: boolean;
  /** Of reads that name none. */
  level: Level;
  /** A page that was asked for longer ago is fetched again before a read. */
  refreshSeconds: number;
  /** Reads a document; `value` is undefined where there is none. */
  get<T = unknown>(collection: string, id: string, options?: ReadOptions): Promise<Read<T | undefined>>;
  /** Reads the result of a query: rows, or ids by `kind: 'ids'`. */
  query<T = unknown>(collection: string, filter?: Filter, options?: QueryOptions & { kind?: 'objects' }): Promise<Read<Row<T>[]>>;
  query(collection: string, filter: Filter | undefined, options: QueryOptions & { kind: 'ids' }): Promise<Read<string[]>>;
  /** Writes a document, always or under a condition; `commit` is the write's. */
  put(collection: string, id: string, document: object, conditions?: Conditions): Promise<{ commit: number }>;
  remove(collection: string, id: string, conditions?: Conditions): Promise<{ commit: number }>;
  /** Fetches a page: no read is older than its front from then on. */
  refresh(): Promise<Page>;
  /** The least commit at which the session still takes an answer, for a document, or for a query by its options. */
  floor(collection: string, idOrFilter: string | Filter, options?: QueryOptions): number;
  /** Forgets all that was read and written, for a server that lost its store. */
  forget(): void;
  /** Keeps the state where it outlives a reload; it is called by itself after each change. */
  save(): void;
  /** Keeps the state, and takes no more pages from other tabs. */
  close(): void;
}
/** Opens a session with the server at `base`, or takes up the one that a reload left. The first read fetches a page. */
export function open(base?: string | URL, options?: Options): Promise<Session>;

/** The text of a query's key, and the target by which caches hold its result. */
export function keyOf(collection: string, filter?: Filter, options?: QueryOptions): { text: string; target: string };

export class QuaestorError extends Error {}
/** The network failed: nothing is known of a write that was on its way. */
export class Unreachable extends QuaestorError {}
/** What came is no reply of a Quaestor server. */
export class BadReply extends QuaestorError {}
export class Refused extends QuaestorError { status: number; error: { error: string; [more: string]: unknown } | null }
/** The condition of a write is false; `found` is the version that is there. */
export class PreconditionFailed extends Refused { found: number | null }
/** The store is full. */
export class Full extends Refused {}
/** The server is behind what the session knows. */
export class Behind extends QuaestorError { commit: number; front: number; floor: number }
