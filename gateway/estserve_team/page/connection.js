/** The page's connection to the gateway: who is here, its seat, requests, live events. */

import { Outbox, TakenBack } from "./outbox.js";
import { NoSeat, Unknown, Unreachable, freshId, linesOf, request, wait } from "./requests.js";

const SILENCE = 25_000; // the events' stream tells of itself more often than that
const PROBE = 1_500; // so often it is seen whether the gateway answers again
const PAUSES = [150, 300, 600, 1_200, 2_500];
const KEY = `estserve-token ${location.pathname}`; // each team of a host has its own

export class Connection {
  /** `hear(name, value)` is called with each live event; `tell(state)` with `live`, `waiting`,
   * `out`; `waiting(items)` with the commands that wait for an answer. */
  constructor(hear, tell, waiting) {
    this.hear = hear;
    this.tellPage = tell;
    this.state = "out";
    this.lives = []; // who wait until the gateway answers
    this.outbox = new Outbox(waiting);
    this.seat = null;
    this.wish = null; // the user and the roles of the seat
    this.stream = null;
    // A page that was left is kept by the browser for a while, and so would be its connection.
    addEventListener("pagehide", () => this.stream?.abort());
    addEventListener("pageshow", ({ persisted }) => { if (persisted && this.seat) this.listen(); });
  }

  /** Keeps and tells whether the gateway answers. */
  tell(state, fault) {
    this.state = state;
    if (state === "live") for (const go of this.lives.splice(0)) go();
    this.tellPage(state, fault);
  }

  /** Promises that the gateway answers. */
  untilLive() {
    return new Promise((go) => { this.lives.push(go); });
  }

  headers() {
    const token = localStorage.getItem(KEY);
    return token ? { "X-Estserve-Token": token } : {};
  }

  /** Comes in, with the token of a link or without: who this is. Raises Unknown. */
  async enter(link) {
    const ways = [() => request("api/me", this.headers()), () => this.begin({})];
    if (link) ways.unshift(() => this.begin({ link }));
    let first = null;
    for (const way of ways) {
      try {
        return await this.patiently(way);
      } catch (fault) {
        if (!(fault instanceof Unknown)) throw fault;
        first ??= fault;
      }
    }
    throw first;
  }

  /** Begins a visit, by a link or as whom a proxy names. */
  async begin(body) {
    const told = await request("api/enter", {}, body);
    localStorage.setItem(KEY, told.token);
    return told;
  }

  /** Ends the visit: this browser is known no more. */
  async out() {
    await request("api/out", this.headers(), {});
    localStorage.removeItem(KEY);
  }

  /** Takes a seat as this user with these roles. Raises Refused, Unknown. */
  async login(user, roles) {
    this.wish = { user, roles };
    const told = await this.patiently(() => request("api/login", this.headers(), this.wish));
    this.seat = told.seat;
    this.listen();
    return told;
  }

  /** Leaves the seat. */
  async leave() {
    const seat = this.seat;
    this.seat = this.wish = null;
    this.stream?.abort();
    this.outbox.clear();
    if (seat) await request("api/leave", this.headers(), { seat });
  }

  /** Tries again while no answer comes. */
  async patiently(act) {
    for (let turn = 0; ; turn += 1) {
      try {
        const told = await act();
        this.tell("live");
        return told;
      } catch (fault) {
        if (!(fault instanceof Unreachable)) throw fault;
        this.tell("waiting");
        await wait(PAUSES[Math.min(turn, PAUSES.length - 1)]);
      }
    }
  }

  /** Tries again while no answer comes, and takes the seat anew where it has gone. */
  async persist(act) {
    for (;;) {
      const seat = this.seat;
      try {
        return await this.patiently(act);
      } catch (fault) {
        if (!(fault instanceof NoSeat) || !this.wish) throw fault;
        if (seat === this.seat) await this.renew();
      }
    }
  }

  /** Takes the seat anew, once for all who ask. */
  async renew() {
    const { user, roles } = this.wish;
    this.renewing ??= this.login(user, roles).finally(() => { this.renewing = null; });
    try {
      await this.renewing;
    } catch (fault) {
      this.stream?.abort();
      this.tell("out", fault);
      throw fault;
    }
  }

  /** Asks the program for a command. One that is sent again bears its first id: it is done once.
   * While the gateway doesn't answer it is held. Raises TakenBack too. */
  async ask(command) {
    const [id, item] = [freshId(), this.outbox.add(command)];
    const act = async () => {
      await this.hold(item);
      if (item.isBack) throw new TakenBack();
      item.wasSent = true;
      return request("api/ask", this.headers(), { id, command, seat: this.seat });
    };
    const asked = this.persist(() => act().catch((fault) => {
      if (fault instanceof Unreachable) this.outbox.wait(item);
      throw fault;
    }));
    try {
      return await Promise.race([asked, item.back]);
    } finally {
      this.outbox.end(item);
    }
  }

  /** Waits until the gateway answers, or the command is taken back. */
  async hold(item) {
    const live = () => this.tell("live");
    while (this.state === "waiting" && !item.isBack) {
      this.outbox.wait(item);
      await Promise.race([this.untilLive(), item.back.catch(() => {}), wait(PROBE)]);
      if (this.state !== "waiting" || item.isBack) return;
      await request("api/me", this.headers()).then(live, (fault) => {
        if (!(fault instanceof Unreachable)) live();
      });
    }
  }

  /** Sends something once: whether it was done is not known where no answer comes. */
  once(name, body) {
    return request(`api/${name}`, this.headers(), { ...body, seat: this.seat });
  }

  /** Sends something that may change things. */
  post(name, body) {
    return this.persist(() => request(`api/${name}`, this.headers(), { ...body, seat: this.seat }));
  }

  /** Reads something, as `slots`, with the words of a query. */
  read(name, words = {}) {
    return this.persist(() => {
      const query = new URLSearchParams({ ...words, seat: this.seat });
      return request(`api/${name}?${query}`, this.headers());
    });
  }

  /** Follows the live events of the seat, until it is left or renewed. */
  async listen() {
    this.stream?.abort();
    const stream = (this.stream = new AbortController());
    for (let turn = 0; !stream.signal.aborted; turn += 1) {
      try {
        await this.follow(stream, () => { turn = 0; });
      } catch (fault) {
        if (stream.signal.aborted) return;
        this.tell("waiting");
      }
      await wait(PAUSES[Math.min(turn, PAUSES.length - 1)]);
      await this.read("here").catch(() => {});
    }
  }

  /** One stream of events, to its end. */
  async follow(stream, heard) {
    const part = new AbortController();
    const stop = () => part.abort();
    stream.signal.addEventListener("abort", stop);
    let silence = setTimeout(stop, SILENCE);
    const hear = () => {
      clearTimeout(silence);
      silence = setTimeout(stop, SILENCE);
    };
    const options = { headers: this.headers(), signal: part.signal, cache: "no-store" };
    const answer = await fetch(`api/events?seat=${this.seat}`, options);
    if (answer.status !== 200) throw new Unreachable(`status ${answer.status}`);
    this.tell("live");
    heard();
    await this.pass(answer, hear);
  }

  /** Passes each event of a stream on. */
  async pass(answer, heard) {
    let name = "";
    for await (const line of linesOf(answer, heard)) {
      if (line.startsWith("event: ")) name = line.slice(7);
      else if (line.startsWith("data: ")) this.hear(name, JSON.parse(line.slice(6)));
    }
  }
}
