// Steps: each is some requests that the server is sent, one step after the other, and that can be taken back and made
// again.

import { Ahead } from "./ahead.js";
import {
  batches, harmOf, isAfter, isTurnedFrom, makeNoted, mended, mending, planBack, truly, unmended,
} from "./changes.js";
import { Unanswered } from "./link.js";
import { carryName, giveName } from "./names.js";
import { Way } from "./way.js";

const MOST = 512;
/** For how long at most the feed is waited for, which tells what others did just before an edit. */
const FEED_PAUSE = 300;
/** For how long at most it is waited for at the end of a drag. */
const FEED_PATIENCE = 3000;
/** How often at most what an edit has put back of others' is given back, while others go on. */
const MENDS = 4;
/** How many edits are known at least, of those that the feed told of. */
const MOST_EDITS = 2000;

/**
 * A request as the server is sent it: with the ids of what was made meanwhile. Null where something that it names was
 * not made.
 */
function asSent(request, made) {
  const { as, instead, name, ...found } = request;
  const isThere = (id) => !(id < 0) || made.has(id);
  const now = (id) => (id < 0 ? made.get(id) : id);
  if (![found.id, found.parent, found.spot?.over].every(isThere)) return null;
  if (found.id !== undefined) found.id = now(found.id);
  if (found.parent !== undefined) found.parent = now(found.parent);
  if (found.spot?.over !== undefined) found.spot = { over: now(found.spot.over) };
  return found;
}

/** The requests of a batch that can be sent, each with what is sent of it. */
const sentOf = (batch, made) => batch.map((request) => [request, asSent(request, made)]).filter(([, found]) => found);

export class Steps {
  #link;
  #picture;
  #tell;
  #journal;
  #last = Promise.resolve();
  #isMaking = false;

  /**
   * `tell` is called with a refusal's reply, with a text where an edit was not answered, or with null where all was
   * done. `journal` has the edits that the feed tells of.
   */
  constructor(link, picture, state, tell, journal = null) {
    this.#link = link;
    this.#picture = picture;
    this.#tell = tell;
    this.#journal = journal?.fork(MOST_EDITS) ?? null;
    this.state = state;
  }

  /** Whether the next work can be done, when it is known; where it can't, it is left out. */
  ready = () => true;

  /**
   * Does some work when all that was begun before it is done.
   * @param {() => Promise<any>} work
   * @returns {Promise<any>}
   */
  inTurn(work) {
    const found = this.#last.then(() => this.ready()).then((isReady) => (isReady ? work() : null));
    this.#last = found.catch(() => {});
    return found;
  }

  /** Sends one edit that is no step; gives its reply, or null where it was refused or not answered. */
  send(request) {
    return this.inTurn(async () => (await this.make([request])).replies[0] ?? null);
  }

  /**
   * Does a step: `plan` gives its requests from the tree as it is when all steps before it are done. Gives what was
   * done, or null. Steps of one `kind` that follow each other soon are taken back together.
   */
  perform(name, plan, kind) {
    return this.inTurn(async () => {
      const requests = this.state.tree && plan(this.state.tree);
      if (!requests?.length) return null;
      const done = await this.make(requests);
      this.note(name, done.changes, kind);
      return done;
    });
  }

  /** Notes changes that were made as a step. */
  note(name, changes, kind) {
    this.state.history.note({ name, kind, changes });
    this.#tellHistory();
  }

  /**
   * Takes back the last step, or makes again the one that was taken back last. Gives in words what was passed over.
   * Where nothing of the step can be taken back now, that is all; the next time the step before it is taken.
   */
  back(isRedo) {
    return this.inTurn(async () => {
      const { history, tree } = this.state;
      for (const step of tree ? history.steps(isRedo) : []) {
        const plan = planBack(tree, step.changes, (id) => history.resolve(id), history.wantedBeside(step));
        if (plan.requests.length) return this.#take(step, plan, isRedo);
        if (step.isPassed) continue;
        history.pass(step);
        this.#tellHistory();
        return { name: step.name, passed: plan.passed };
      }
      return null;
    });
  }

  async #take(step, { requests, passed, kept }, isRedo) {
    const { history } = this.state, putBack = history.take(step, kept, isRedo);
    const done = await this.make(requests, { isBack: true });
    const tooMuch = done.changes.filter(({ hadMore }) => hadMore);
    if (tooMuch.length) await this.make(planBack(this.state.tree, tooMuch, (id) => history.resolve(id)).requests);
    if (done.wasNotSent || done.isLate || tooMuch.length) putBack();
    const changes = done.changes.filter(({ hadMore }) => !hadMore);
    if (!done.wasNotSent) history.noteBack({ name: step.name, changes }, isRedo);
    if (done.isLate || tooMuch.length) history.pass(step);
    this.#tellHistory();
    this.state.select(this.state.tree.tops(done.changes.map(({ id }) => id)));
    return { name: step.name, passed };
  }

  /** Begins the edits of a drag. */
  begin() {
    return new Way(this.#journal?.isLive ? this.#journal : null, this.state.base);
  }

  /**
   * Gives back what the edits of a drag, and those of others that came just before each of them, have put back of each
   * other. Gives the version of the last one.
   */
  async giveBack(way) {
    for (let time = 0; time < MENDS; time++) {
      await this.#journal?.reach(way.version, FEED_PATIENCE);
      const requests = way.mends();
      if (!requests.length) break;
      const { replies } = await this.make(requests, { isOnWay: true });
      if (!replies.length) break;
      way.own(replies);
    }
    return way.version;
  }

  #tellHistory() {
    this.state.dispatchEvent(new Event("history"));
  }

  /** Whether edits are on their way. */
  get isMaking() {
    return this.#isMaking;
  }

  #setMaking(is) {
    this.#isMaking = is;
    this.state.dispatchEvent(new Event("making"));
  }

  /**
   * Sends edits, of which the caller has the turn. Gives the replies of those that were made, and what they changed.
   * What they have put back of others' edits that came just before is mended; on the way of a drag, which ends with
   * `giveBack`, only where a shape was turned or got another parent. Edits that take back a change (`isBack`) are to
   * put back no others at all; `isLate` tells that some did.
   */
  async make(requests, { isOnWay = false, isBack = false } = {}) {
    const { tree, base, isPast } = this.state, seen = tree?.copy(), truth = base?.copy();
    const done = {
      changes: [], replies: [], made: new Map(), refusal: null, harm: [], seen, truth, draft: null,
      isOnWay, isBack, isLate: false, wasNotSent: isPast,
    };
    if (isPast) {
      this.#tell("This is the past, where nothing can be changed. Esc goes back to now.");
      return done;
    }
    if (!isOnWay) done.draft = this.state.drafts.begin(requests);
    this.#setMaking(true);
    try {
      await this.#makeAll(requests, done);
      for (let time = 0; time < MENDS && done.harm.length; time++) await this.#mend(done);
      this.#tell(done.refusal);
    } catch (fault) {
      if (!(fault instanceof Unanswered)) throw fault;
      done.wasNotSent = !fault.wasSent && !done.changes.length;
      this.#tell(fault.wasSent ? "The server went away; whether it did this is not known." : "The server is away.");
    } finally {
      if (done.draft) this.state.drafts.end(done.draft, Math.max(0, ...done.replies.map(({ version }) => version)));
      this.#setMaking(false);
    }
    return done;
  }

  // Where these are edits that mend others, `mends` are the changes that are mended.
  async #makeAll(requests, done, mends = null) {
    const all = batches(requests, MOST), ahead = new Ahead(all, async (batch) => {
      const sent = sentOf(batch, done.made);
      return sent.length ? this.#link.ask(sent.map(([, found]) => found)) : [];
    });
    for (const batch of all) await this.#makeBatch(batch, done, ahead, mends);
  }

  async #makeBatch(batch, done, ahead, mends) {
    const sent = sentOf(batch, done.made), replies = await ahead.answered(batch), edits = [];
    replies.forEach((reply, k) => {
      const [{ as, instead, name }, request] = sent[k];
      if (!reply.ok) {
        done.refusal ??= reply;
        return;
      }
      if (as !== undefined) done.made.set(as, reply.id);
      if (name) giveName({ id: reply.id, shape: request.shape }, name);
      if (instead !== undefined) this.#rename(instead, reply.id, request);
      done.replies.push(reply);
      edits.push([request, reply]);
    });
    this.state.add(edits);
    if (done.draft) this.state.drafts.answer(done.draft, batch.length, done.made);
    if (!edits.length) return;
    const newest = Math.max(...edits.map(([, { version }]) => version));
    this.#picture.see(newest);
    const { seen, truth } = done, changes = seen ? makeNoted(seen, edits) : [], journal = this.#journal;
    await journal?.reach(newest, FEED_PAUSE);
    const found = (journal?.isLive && truth ? truly(truth, edits, changes, journal) : changes).filter(Boolean);
    for (const change of found) {
      const mend = mends?.find(({ verb, id }) => verb === change.verb && id === change.id);
      this.#noteChange(mend ? mending(change, mend, done.isMeant) : change, newest, done);
    }
  }

  // Notes a change, and what of others' edits it has put back unmeant.
  #noteChange(change, newest, done) {
    const harm = harmOf(change, done.isBack), isNow = harm !== null && !isAfter(this.#journal, newest, harm);
    done.isLate ||= done.isBack && harm !== null;
    const noted = isNow ? mended(change, harm) : harm ? unmended(change) : change;
    if (!change.isAstray) done.changes.push(noted);
    const isLeft = done.isOnWay && !change.isAstray && !isTurnedFrom(change, harm ?? {});
    if (isNow && !isLeft) done.harm.push({ request: harm, change, noted });
  }

  // Gives back what edits have put back of others'; and what that has put back of what came since.
  async #mend(done) {
    const { tree } = this.state, harm = done.harm.filter(({ request }) => tree.record(request.id));
    const isMeant = !done.isBack, seen = tree.copy();
    const more = { ...done, seen, changes: [], harm: [], draft: null, isBack: true, isMeant };
    done.harm = [];
    await this.#makeAll(harm.map(({ request }) => request), more, harm.map(({ change }) => change));
    for (const { change, noted } of harm) {
      const isOff = more.harm.some(({ request }) => request.id === change.id && isTurnedFrom(noted, request));
      if (isOff) done.changes = done.changes.map((it) => (it === noted ? unmended(change) : it));
    }
    done.harm = more.harm;
  }

  #rename(instead, id, { spot }) {
    const { history } = this.state;
    history.rename(instead, id);
    carryName(instead, id);
    if (spot?.at === undefined) history.forgetKeys((change) => history.resolve(change.id) === id);
  }
}
