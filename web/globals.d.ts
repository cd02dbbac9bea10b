// What the browser and the page have and Debian's TypeScript does not know.

declare class OffscreenCanvas {
  constructor(width: number, height: number);
  getContext(kind: "2d"): CanvasRenderingContext2D;
  convertToBlob(options?: { type: string }): Promise<Blob>;
}

interface Window {
  /** The page's App, for the console and for tests. */
  app: unknown;
}
