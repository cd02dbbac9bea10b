// The tab's WebSocket to the gateway: sends batches of requests, and tells what the gateway says of the server.
//
// Events: `here` (the server is there; where detail.goesOn is false the page begins anew, and detail.isSame tells
// whether the history is the one that it knew, and detail.isNext whether it is the next generation of that), `version`
// (the document has changed), `people` (others have come, moved or gone), `away` (the server or the gateway is not
// there; detail.why says which).

const RETRY = 700;
/** How many of the pictures that came last are kept: more than the gateway believes. */
const MOST_PICTURES = 600;
const NAME_BYTES = 16;

const hexOf = (bytes) => [...bytes].map((byte) => byte.toString(16).padStart(2, "0")).join("");

/**
 * A batch that was not answered, since the server went away, or was so already and it was not sent; or for a reason
 * that `why` tells.
 */
export class Unanswered extends Error {
  constructor(wasSent = true, why = null) {
    super("not answered");
    this.wasSent = wasSent;
    this.why = why;
  }
}

export class Link extends EventTarget {
  #journal;
  #socket = null;
  #number = 0;
  #waiting = new Map();
  #pictures = new Map();

  #known;

  /**
   * `journal` gets the edits that the gateway tells of; `known` is the end of a history that the page knew before, as
   * {history, end, mark}, or null.
   */
  constructor(journal, known = null) {
    super();
    this.#journal = journal;
    this.#known = known;
  }

  /** Whether the server is there. */
  isHere = false;
  /** How many requests were sent to the server, and how many pictures came, of how many bytes. */
  sent = 0;
  came = 0;
  taken = 0;

  open() {
    const scheme = location.protocol === "https:" ? "wss:" : "ws:";
    const { history, end, mark } = this.#journal.isLive ? this.#journal : this.#known ?? { history: null };
    const known = history === null ? "" : `?live=${encodeURIComponent(history)}&since=${end}&mark=${mark}`;
    this.#socket = new WebSocket(`${scheme}//${location.host}${location.pathname}session${known}`);
    this.#socket.binaryType = "arraybuffer";
    this.#socket.onmessage = ({ data }) => {
      if (typeof data === "string") this.#take(JSON.parse(data));
      else this.#takePicture(data);
    };
    this.#socket.onclose = () => {
      this.#leave("The gateway is away");
      setTimeout(() => this.open(), RETRY);
    };
  }

  /** Sends requests in one piece, and gives their replies in order. */
  async ask(requests) {
    return (await this.#send({ requests })).replies;
  }

  /**
   * The replies to looks at the document as it was `at` a version, and the edits that led there `since` another one,
   * where that is given.
   */
  lookBack(requests, at, since) {
    return this.#send({ requests, at, since });
  }

  #send(message) {
    if (!this.isHere) return Promise.reject(new Unanswered(false));
    const batch = this.#number++;
    this.sent += message.requests.length;
    this.#socket.send(JSON.stringify({ batch, ...message }));
    return new Promise((resolve, reject) => this.#waiting.set(batch, { resolve, reject }));
  }

  /** The PNG of a picture that a reply named: as it came, or else from its address. */
  async picture(name) {
    const found = this.#pictures.get(name);
    if (found) return found;
    const response = await fetch(`picture/${name}.png`);
    if (!response.ok) throw new Unanswered();
    return response.blob();
  }

  #takePicture(data) {
    const name = hexOf(new Uint8Array(data, 0, NAME_BYTES));
    this.came++;
    this.taken += data.byteLength;
    this.#pictures.delete(name);
    this.#pictures.set(name, new Blob([new Uint8Array(data, NAME_BYTES)]));
    if (this.#pictures.size > MOST_PICTURES) this.#pictures.delete(this.#pictures.keys().next().value);
  }

  /** Tells the gateway something that is no request. */
  tell(message) {
    if (this.#socket?.readyState === WebSocket.OPEN) this.#socket.send(JSON.stringify(message));
  }

  #take(message) {
    if (message.say === "away") this.#leave("The server is away", message.why);
    else if (message.say === "here") this.#arrive(message);
    else if (message.say === "edits") this.#takeEdits(message.edits);
    else if (message.say) this.#pass(message.say, message);
    else this.#answer(message);
  }

  #pass(name, detail) {
    this.dispatchEvent(new CustomEvent(name, { detail }));
  }

  #arrive({ version, live, since, goes }) {
    this.#drop();
    this.isHere = true;
    const isSame = live !== null && goes === "on", goesOn = this.#journal.isFollowedBy(since, live, isSame);
    if (!goesOn) this.#journal.begin(since, live, isSame && since === this.#known?.end ? this.#known.mark : "");
    this.#pass("here", { version, live, goesOn, isSame, isNext: goes === "next" });
  }

  #takeEdits(edits) {
    this.#journal.add(edits);
    this.#pass("version", { version: this.#journal.end });
  }

  #answer({ batch, replies, edits, why }) {
    const waiting = this.#waiting.get(batch);
    this.#waiting.delete(batch);
    if (replies) waiting?.resolve({ replies, edits });
    else waiting?.reject(new Unanswered(true, why));
  }

  #leave(head, why = "") {
    this.isHere = false;
    this.#drop();
    this.#pass("away", { head, why });
  }

  // What is waited for is of another session with the server, and no answer to it counts any more.
  #drop() {
    for (const { reject } of this.#waiting.values()) reject(new Unanswered());
    this.#waiting.clear();
  }
}
