// The client in JavaScript beside the built program, which the environment's CANVAS names.

import assert from "node:assert/strict";
import { spawn } from "node:child_process";
import { once } from "node:events";
import { mkdtempSync, rmSync, writeFileSync } from "node:fs";
import { createServer } from "node:net";
import { tmpdir } from "node:os";
import { join } from "node:path";
import { createInterface } from "node:readline";
import { after, before, test } from "node:test";
import { setTimeout as sleep } from "node:timers/promises";

import { Canvas, Ended, PROGRAM, Refused } from "../../web/client.mjs";

const SEATS = 63;
const RED = { kind: "rect", w: 2, h: 1, fill: "ff0000" };
let folder, server, address;

async function freePort() {
  const found = createServer();
  found.listen(0, "127.0.0.1");
  await once(found, "listening");
  const { port } = found.address();
  found.close();
  await once(found, "close");
  return port;
}

before(async () => {
  folder = mkdtempSync(join(tmpdir(), "canvas-"));
  const file = join(folder, "document.json");
  writeFileSync(file, '{"format":2,"next":1,"shapes":[]}');
  address = `127.0.0.1:${await freePort()}`;
  server = spawn(PROGRAM, ["serve", address, file], { stdio: ["ignore", "pipe", "inherit"] });
  process.on("exit", () => server.kill("SIGKILL"));
  process.once("SIGTERM", () => process.exit(1));
  const [line] = await once(createInterface(server.stdout), "line");
  assert.equal(line, "listening");
});

after(async () => {
  if (server !== undefined && server.exitCode === null) {
    server.kill();
    await once(server, "exit");
  }
  rmSync(folder, { recursive: true });
});

/** Runs a part of a test in a session, and ends it. */
async function within(run) {
  const canvas = await Canvas.connect(address);
  try {
    return await run(canvas);
  } finally {
    await canvas.close();
  }
}

test("two editors and a viewer see one document", async () => {
  const [ann, ben, viewer] = await Promise.all([1, 2, 3].map(() => Canvas.connect(address)));
  const frame = await ann.create({ kind: "frame", w: 4, h: 2, fill: "0000ff" });
  const [red, other] = await Promise.all([ben.create(RED, { parent: frame.id }), ann.create(RED, { pose: { dx: 100 } })]);
  assert.deepEqual([red.version, other.version].sort(), [frame.version + 1, frame.version + 2]);
  const { width, height, version, pixels } = await viewer.patch(0, 0, 3, 2);
  assert.deepEqual([width, height, version], [3, 2, frame.version + 2]);
  assert.equal(pixels.toString("hex"), "ff0000ff00000000ff0000ff0000ff0000ff");
  const saved = await viewer.export();
  assert.equal(saved.version, frame.version + 2);
  assert.deepEqual(JSON.parse(saved.text).shapes.map(({ id }) => id), [frame.id, red.id, other.id].sort((a, b) => a - b));
  await Promise.all([ann, ben, viewer].map((it) => it.close()));
});

test("many requests at once are answered in order", async () => {
  await within(async (canvas) => {
    const { id } = await canvas.create(RED);
    const made = await Promise.all(Array.from({ length: 500 }, (_, dx) => canvas.pose(id, { dx })));
    made.forEach(({ version }, k) => assert.equal(version, made[0].version + k));
    const tiles = await Promise.all(Array.from({ length: 16 }, (_, k) => canvas.tile(k % 4, k >> 2, k % 7)));
    for (const tile of tiles) assert.deepEqual([tile.width, tile.height, tile.pixels.length, tile.version], [256, 256, 196_608, made.at(-1).version]);
    const mixed = await Promise.allSettled([canvas.delete(1_000_000), canvas.point(499, 0), canvas.tile(0, 0, 7)]);
    assert.deepEqual(mixed.map(({ status }) => status), ["rejected", "fulfilled", "rejected"]);
    assert.deepEqual([mixed[0].reason.code, mixed[1].value.colour, mixed[2].reason.name], [2, "ff0000", "BadLevel"]);
    for (let k = 0; k < 40; k += 1) canvas.send({ verb: "tile", col: k, row: 0 });
    await sleep(100);
    for (let k = 0; k < 40; k += 1) assert.equal((await canvas.read())[1].length, 196_623);
  });
});

test("a server says nothing before it is asked, and what was sent before the end is done", async () => {
  const early = await Canvas.connect(address, 1);
  await assert.rejects(early.read(), { name: "TimedOut" });
  await early.close();
  const { id } = await within((canvas) => canvas.create(RED));
  const last = await Canvas.connect(address);
  last.send({ verb: "delete", id });
  await last.close();
  await within(async (canvas) => {
    for (let tries = 0; tries < 100; tries += 1) {
      const fault = await canvas.show(id, false).then(() => null, (it) => it);
      if (fault instanceof Refused && fault.code === 2) return;
      await sleep(20);
    }
    assert.fail("the shape is still there");
  });
});

test("an HTTP request, a line that is too long, and a full house end a session", async () => {
  const refusals = [["GET / HTTP/1.1\r\n\r\n", 50], [" ".repeat(65_537), 70]];
  for (const [line, code] of refusals) {
    await within(async (canvas) => {
      canvas.sendLine(Buffer.from(line));
      await assert.rejects(canvas.read(), { code });
      await assert.rejects(canvas.read(), Ended);
    });
  }
  const guests = await Promise.all(Array.from({ length: SEATS }, () => Canvas.connect(address)));
  await Promise.all(guests.map((guest) => guest.point(0, 0)));
  await within(async (canvas) => {
    await assert.rejects(canvas.point(0, 0), { code: 19, name: "NoSeats" });
    await assert.rejects(canvas.point(0, 0), Ended);
  });
  await Promise.all(guests.map((guest) => guest.close()));
});

test("a program of its own", async () => {
  const canvas = new Canvas();
  assert.equal((await canvas.create(RED)).id, 1);
  assert.equal((await canvas.patch(0, 0, 3, 1)).pixels.toString("hex"), "ff0000ff0000ffffff");
  assert.equal(await canvas.close(), 0);
  assert.equal(await canvas.close(), 0);
  const cut = new Canvas(["script", "1"]);
  await cut.point(0, 0);
  cut.sendLine(Buffer.from("{"));
  assert.equal(await cut.close(), 4);
  const wrong = new Canvas(["no-such-word"]);
  await assert.rejects(wrong.point(0, 0), Ended);
  assert.equal(await wrong.close(), 2);
});

test("a server that is killed", async () => {
  const canvas = await Canvas.connect(address);
  await canvas.point(0, 0);
  server.kill("SIGKILL");
  await once(server, "exit");
  await assert.rejects(canvas.point(0, 0), Ended);
  await canvas.close();
  await assert.rejects(Canvas.connect(address), { code: "ECONNREFUSED" });
});
