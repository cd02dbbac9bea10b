// A picture of any part of the page at any scale, all of one version.

import { View } from "./view.js";

const LONGEST = 8192;
const MOST_TILES = 480;
const PATIENCE = 30_000;

/** The view that shows a box of the page at a level, and nothing more. */
export function viewOf({ left, top, right, bottom }, level) {
  const view = new View(), scale = 2 ** level;
  view.level = level;
  view.left = Math.floor(left / scale);
  view.top = Math.floor(top / scale);
  view.width = Math.max(1, Math.ceil(right / scale) - view.left);
  view.height = Math.max(1, Math.ceil(bottom / scale) - view.top);
  return view;
}

/** Whether a view is small enough for a picture. */
export function isFit({ width, height, tileSide }) {
  const across = Math.ceil(width / tileSide) + 1, down = Math.ceil(height / tileSide) + 1;
  return width <= LONGEST && height <= LONGEST && across * down <= MOST_TILES;
}

/**
 * The picture of a view as a PNG, and its version, of the document that a picture shows; null where the server does not
 * give it.
 */
export async function snapshot(shown, view) {
  const picture = shown.beside();
  try {
    if (!await isFull(picture, view.tiles()) || picture.refused.length) return null;
    const canvas = new OffscreenCanvas(view.width, view.height);
    picture.draw(canvas.getContext("2d"), view);
    return { blob: await canvas.convertToBlob({ type: "image/png" }), version: picture.versions[0] };
  } finally {
    picture.leave();
  }
}

/** Whether a picture shows all of some tiles before one's patience is over. */
function isFull(picture, tiles) {
  return new Promise((done) => {
    const timer = setTimeout(() => done(false), PATIENCE);
    picture.addEventListener("shown", () => {
      if (!picture.isFull) return;
      clearTimeout(timer);
      done(true);
    });
    picture.look(tiles);
  });
}

