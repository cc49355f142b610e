// What may go wrong, as classes that say what to do.

export class QuaestorError extends Error {
  constructor(message, more) { Object.assign(super(message), more).name = new.target.name; }
}
// The network failed, and nothing is known of a write that was on its way: read before writing again.
export class Unreachable extends QuaestorError {}
// What came is no reply of a Quaestor server: look at what is between.
export class BadReply extends QuaestorError {}
// The server is behind what the session knows: it is another one, or lost its store.
export class Behind extends QuaestorError {}
// The server refused: `status`, and `error`, the body.
export class Refused extends QuaestorError {}
// The condition of a write is false; `found` is the version that is there, or null.
export class PreconditionFailed extends Refused {}
// The store has no room for the write.
export class Full extends Refused {}

export async function refusal(reply) {
  const { status, url } = reply, error = await reply.json().catch(() => null);
  if (!error?.error) return new BadReply(`${url}: ${status}, and not of a Quaestor server`);
  const [Kind, advice] = { 412: [PreconditionFailed, 'the document changed: read it again'], 507: [Full, 'the store is full: its operator has to make room'] }[status] ?? [Refused, status < 500 ? 'change the request' : 'try again later'];
  return new Kind(`${status} ${error.error}: ${advice}`, { status, error, found: error.found ?? null });
}

export function behind(commit, front, floor) {
  return new Behind(`the server is at ${commit}, and the session knows ${Math.max(front, floor)}: ask again, or forget()`, { commit, front, floor });
}
