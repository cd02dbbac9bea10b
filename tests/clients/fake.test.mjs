// The client in JavaScript beside servers that are made up here: each sends the bytes that a test names, cut where it names, and ends as it names.
// test_fake.py has the cases that the clients share.

import assert from "node:assert/strict";
import { once } from "node:events";
import { createServer } from "node:net";
import { test } from "node:test";
import { setTimeout as sleep } from "node:timers/promises";

import { Canvas, Ended, Feed, TimedOut, lineOf, pictureOf, replies } from "../../web/client.mjs";

const MADE = '{"body":0,"id":1,"ok":true,"version":1}\n';
const PATCH = '{"body":20,"ok":true,"version":1}\n';
const IMAGE = Buffer.concat([Buffer.from("P6\n3 1\n255\n"), Buffer.from("ff0000ff0000ffffff", "hex")]);
const POINT = '{"body":0,"colour":"ff0000","ok":true,"version":2}\n';
const ALL = Buffer.concat([MADE, PATCH, IMAGE, POINT].map((it) => Buffer.from(it)));
const GROUP = '{"hidden":false,"parent":null,"pose":{"dx":0,"dy":0,"flip":false,"quarter":0},"shape":{"kind":"group"},"spot":"front","verb":"create"}';
const FIRST = `{"damage":[0,0,0,0],"edit":${GROUP},"id":1,"version":1}\n`;

/** Runs a test with the address of a server that treats each connection so. */
async function served(serve, run) {
  const sockets = new Set();
  const server = createServer({ noDelay: true }, (socket) => {
    sockets.add(socket);
    socket.on("error", () => {});
    serve(socket);
  });
  server.listen(0, "127.0.0.1");
  await once(server, "listening");
  try {
    await run(`127.0.0.1:${server.address().port}`);
  } finally {
    for (const socket of sockets) socket.destroy();
    server.close();
  }
}

/** Runs a test with a session of such a server. */
async function beside(serve, run, seconds = 20) {
  await served(serve, async (address) => {
    const canvas = await Canvas.connect(address, seconds);
    try {
      await run(canvas);
    } finally {
      await canvas.close();
    }
  });
}

/** Runs a test with a feed of such a server. */
async function following(serve, wanted, run) {
  await served(serve, async (address) => {
    const feed = await Feed.connect(address, { seconds: 20, ...wanted });
    try {
      await run(feed);
    } finally {
      await feed.close();
    }
  });
}

/** A server that answers the first bytes that come by pieces, one after another, and may end then. */
function answering(pieces, end = () => {}) {
  return (socket) =>
    socket.once("data", async () => {
      for (const piece of pieces) {
        socket.write(piece);
        if (pieces.length > 1) await sleep(1);
      }
      end(socket);
    });
}

/** What a promise is rejected with. */
async function faultOf(promise) {
  try {
    await promise;
  } catch (fault) {
    return fault;
  }
  assert.fail("nothing was thrown");
}

test("replies in one packet, in two that are cut at every place, and byte by byte", async () => {
  const found = async (pieces) => {
    const all = [];
    for await (const it of replies(pieces)) all.push(it);
    return all;
  };
  const wanted = await found([ALL]);
  assert.equal(wanted.length, 3);
  assert.deepEqual(wanted[1], [JSON.parse(PATCH), IMAGE]);
  assert.deepEqual(pictureOf(...wanted[1]), { width: 3, height: 1, version: 1, pixels: IMAGE.subarray(11) });
  for (let cut = 0; cut <= ALL.length; cut += 1) assert.deepEqual(await found([ALL.subarray(0, cut), ALL.subarray(cut)]), wanted, `cut at ${cut}`);
  assert.deepEqual(await found([...ALL].map((byte) => Buffer.from([byte]))), wanted);
  const missing = (cut) => found([ALL.subarray(0, cut)]);
  for (let cut = 1; cut < MADE.length; cut += 1) assert.match((await faultOf(missing(cut))).message, /^the replies end inside the line/);
  for (let cut = 0; cut < IMAGE.length; cut += 1) {
    assert.match((await faultOf(missing(MADE.length + PATCH.length + cut))).message, new RegExp(` ends after ${cut} bytes$`));
  }
});

test("replies that come before they are asked for, and asks before replies", async () => {
  await beside(answering([ALL]), async (canvas) => {
    canvas.send({ verb: "export" });
    await sleep(50);
    assert.deepEqual((await canvas.read())[0], JSON.parse(MADE));
    assert.deepEqual(await canvas.read(), [JSON.parse(PATCH), IMAGE]);
  });
  await beside(answering([MADE, POINT]), async (canvas) => {
    const both = [canvas.read(), canvas.read()];
    canvas.send({ verb: "export" });
    assert.deepEqual((await Promise.all(both)).map(([reply]) => reply), [JSON.parse(MADE), JSON.parse(POINT)]);
  });
});

test("asks beside each other, of a connection that is closed or reset", async () => {
  const ends = [(socket) => socket.end(), (socket) => socket.resetAndDestroy()];
  for (const end of ends) {
    for (const pieces of [[], [MADE.slice(0, 9)]]) {
      await beside(answering(pieces, end), async (canvas) => {
        const asked = [canvas.ask({ verb: "export" }), canvas.ask({ verb: "export" })];
        for (const it of asked) assert.ok((await faultOf(it)) instanceof Ended);
        assert.ok((await faultOf(canvas.ask({ verb: "export" }))) instanceof Ended);
      });
    }
  }
});

test("asks beside each other, of a server that says nothing", async () => {
  await beside(() => {}, async (canvas) => {
    const asked = [canvas.point(0, 0), canvas.point(0, 1)];
    for (const it of asked) assert.ok((await faultOf(it)) instanceof TimedOut);
  }, 0.4);
  await beside(answering([MADE]), async (canvas) => {
    await canvas.ask({ verb: "export" });
    await sleep(600); // nobody waits for a reply
    canvas.send({ verb: "export" });
    await sleep(600);
    assert.ok((await faultOf(canvas.read())) instanceof TimedOut);
  }, 0.4);
});

test("requests that are made together are sent together, as they are", async () => {
  const came = [];
  const listening = (socket) => socket.on("data", (bytes) => {
    came.push(bytes.toString());
    socket.write(POINT.repeat(bytes.toString().split("\n").length - 1));
  });
  await beside(listening, async (canvas) => {
    const points = await Promise.all([1, 2, 3].map((x) => canvas.point(x, 0)));
    assert.deepEqual(points, Array(3).fill(JSON.parse(POINT)));
    assert.deepEqual(came, ['{"verb":"point","x":1,"y":0}\n{"verb":"point","x":2,"y":0}\n{"verb":"point","x":3,"y":0}\n']);
    canvas.sendLine(Buffer.from('{"verb":'));
    canvas.sendLine(Buffer.from('"export"}\n'));
    await canvas.read();
    assert.equal(came.at(-1), '{"verb":"export"}\n');
  });
  assert.equal(lineOf({ verb: "export", name: "a\nb\u2028é" }).toString(), '{"verb":"export","name":"a\\nb\u2028é"}\n');
});

test("more replies than are read wait at the server", async () => {
  const tile = Buffer.concat([Buffer.from('{"body":196623,"ok":true,"version":0}\n'), Buffer.alloc(196_623, 7)]);
  let sent = 0;
  const sending = (socket) => socket.once("data", async () => {
    for (sent = 0; sent < 400; sent += 1) if (!socket.write(tile)) await once(socket, "drain");
  });
  await beside(sending, async (canvas) => {
    for (let count = 0; count < 400; count += 1) canvas.send({ verb: "tile", col: 0, row: 0 });
    for (let before = -1; before !== sent; await sleep(500)) before = sent;
    assert.ok(sent < 200, `${sent} were taken`);
    for (let count = 0; count < 400; count += 1) assert.equal((await canvas.read())[1].length, 196_623);
  });
});

test("times that are no number, and an address of IPv6", async () => {
  assert.ok((await faultOf(Canvas.connect("127.0.0.1:7878", Number.NaN))) instanceof RangeError);
  assert.ok((await faultOf(Feed.connect("127.0.0.1:7878", { seconds: Number.NaN }))) instanceof RangeError);
  const server = createServer();
  server.listen(0, "localhost");
  await once(server, "listening");
  const { address, family, port } = server.address();
  await (await Canvas.connect(`${family === "IPv6" ? `[${address}]` : address}:${port}`, null)).close();
  server.close();
});

test("the end, while somebody waits and after it", async () => {
  let came = "";
  const listening = (socket) => socket.on("data", (bytes) => (came += bytes));
  await beside(listening, async (canvas) => {
    const fault = faultOf(canvas.point(0, 0));
    canvas.send({ verb: "export" });
    assert.equal(await canvas.close(), null);
    assert.ok((await fault) instanceof Ended);
    assert.throws(() => canvas.send({ verb: "export" }), Ended);
    assert.ok((await faultOf(canvas.ask({ verb: "export" }))) instanceof Ended);
    assert.ok((await faultOf(canvas.read())) instanceof Ended);
    assert.equal(await canvas.close(), null);
    await sleep(50);
    assert.equal(came, '{"verb":"point","x":0,"y":0}\n{"verb":"export"}\n'); // what was sent before is on its way
  });
});

test("a feed that is refused, as text, and one whose loop is left", async () => {
  const refusing = answering(['{"error":"all 256 feeds are taken","ok":false}\n'], (socket) => socket.end());
  await following(refusing, {}, async (feed) => assert.equal(String(await faultOf(feed.next())), "FeedRefused: all 256 feeds are taken"));
  await following(answering([FIRST]), {}, async (feed) => {
    for await (const kept of feed) {
      assert.equal(kept.text, GROUP);
      break; // which ends the feed
    }
    assert.deepEqual((await feed.next()).done, true);
  });
});

test("the end of a feed, while somebody waits and after it", async () => {
  let isOpen = false;
  const listening = (socket) => {
    isOpen = true;
    socket.resume().on("close", () => (isOpen = false));
  };
  await following(listening, {}, async (feed) => {
    while (!isOpen) await sleep(5);
    const waiting = feed.next();
    await feed.close();
    assert.deepEqual(await waiting, { done: true, value: undefined });
    assert.deepEqual(await feed.batch(), []);
    await feed.close();
    while (isOpen) await sleep(5);
  });
});
