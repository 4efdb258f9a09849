// What the browser has that the oldest compiler which checks the page does not know.

declare class OffscreenCanvas {
  constructor(width: number, height: number);
  width: number;
  height: number;
  getContext(kind: "2d"): CanvasRenderingContext2D;
}
declare class CompressionStream {
  constructor(format: string);
  readable: ReadableStream;
  writable: WritableStream;
}
declare class DecompressionStream extends CompressionStream {}
interface Element {
  role: string | null;
  checkVisibility(options?: object): boolean;
}
interface Array<T> {
  findLast(test: (value: T, index: number) => unknown): T | undefined;
  with(index: number, value: T): T[];
}
