/** Requests of the page, and what their answers stand for. */

const PATIENCE = 20_000; // milliseconds until an attempt is given up

/** A command was refused, and changed nothing. */
export class Refused extends Error {
  constructor(told) {
    super(told.sentence);
    this.refusal = told.refusal;
    this.fault = told.refusal.fault;
    this.diagnosis = told.diagnosis; // of a text that was refused
  }
}

/** The gateway doesn't know who this is: a new link is needed. */
export class Unknown extends Error {}

/** The seat of the page has gone. */
export class NoSeat extends Error {}

/** No answer came. */
export class Unreachable extends Error {}

export const wait = (milliseconds) => new Promise((done) => setTimeout(done, milliseconds));

/** A name for a request, which no other has. */
export function freshId() {
  const bytes = crypto.getRandomValues(new Uint8Array(16));
  return Array.from(bytes, (byte) => byte.toString(16).padStart(2, "0")).join("");
}

/** One request, and the value of its answer. Raises Refused, Unknown, NoSeat, Unreachable. */
export async function request(path, headers, body) {
  const options = {
    method: body === undefined ? "GET" : "POST",
    headers: body === undefined ? headers : { ...headers, "Content-Type": "application/json" },
    body: body === undefined ? undefined : JSON.stringify(body),
    signal: AbortSignal.timeout(PATIENCE),
    cache: "no-store",
  };
  let answer, told;
  try {
    answer = await fetch(path, options);
    told = await answer.json();
  } catch (fault) {
    throw new Unreachable(String(fault));
  }
  return valueOf(answer.status, told);
}

/** What an answer of this status tells, or the error that it stands for. */
function valueOf(status, told) {
  if (status === 401) throw new Unknown(told.sentence);
  if (status === 410) throw new NoSeat(told.sentence);
  if (status >= 502) throw new Unreachable(told.sentence);
  if (told.refusal) throw new Refused(told);
  if (status !== 200) throw new Error(told.sentence || `status ${status}`);
  return told;
}

/** The lines of an answer that comes by and by. */
export async function* linesOf(answer, heard) {
  const reader = answer.body.pipeThrough(new TextDecoderStream()).getReader();
  let held = "";
  for (;;) {
    const { value, done } = await reader.read();
    if (done) return;
    heard();
    const lines = (held + value).split("\n");
    held = lines.pop();
    yield* lines;
  }
}
