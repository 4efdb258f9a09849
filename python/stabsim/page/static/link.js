// @ts-check
// The one place that talks to the server: questions with answers, and events that every tab hears.

const KEY = "stabsim token";

// The token of the address, which this tab keeps from then on and the address does not.
function takeToken() {
  const token = new URLSearchParams(location.search).get("token") ?? sessionStorage.getItem(KEY) ?? "";
  sessionStorage.setItem(KEY, token);
  history.replaceState(null, "", location.pathname + location.hash);
  return token;
}

export class Link {
  #socket;
  #waiting = new Map();
  #next = 1;

  // `hear` takes each event; `lose` is called once the server is gone, with its reason if it gave one.
  constructor(hear, lose) {
    this.token = takeToken();
    this.#socket = new WebSocket(`ws://${location.host}/session?token=${this.token}`);
    this.#socket.onmessage = ({ data }) => this.#take(JSON.parse(data), hear);
    this.#socket.onclose = ({ reason }) => {
      for (const { fail } of this.#waiting.values()) fail(new Error("the server is gone"));
      this.#waiting.clear();
      lose(reason);
    };
  }

  // Whether the server can be asked.
  get isOpen() {
    return this.#socket.readyState === WebSocket.OPEN;
  }

  // Whether all that was asked is answered.
  get isIdle() {
    return this.#waiting.size === 0;
  }

  #take(message, hear) {
    if (message.id === undefined) return hear(message);
    const { settle } = this.#waiting.get(message.id);
    this.#waiting.delete(message.id);
    return settle(message);
  }

  // The answer to a question, {ask: .., ..}; a refusal is an answer with `refused`.
  ask(question) {
    return new Promise((settle, fail) => {
      if (!this.isOpen) return fail(new Error("the server is gone"));
      const id = this.#next++;
      this.#waiting.set(id, { settle, fail });
      return this.#socket.send(JSON.stringify({ ...question, id }));
    });
  }
}
