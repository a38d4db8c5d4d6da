// What is used here of `node`, and of browsers beyond the compiler's own list.
declare module "node:fs" {
  const fs: any;
  export default fs;
}
declare module "node:zlib" {
  const zlib: any;
  export default zlib;
}
declare module "node:url" {
  export function fileURLToPath(url: string): string;
}
declare const Buffer: { from(text: string, kind: string): Uint8Array };
declare const process: { argv: string[]; exitCode: number };
declare class CompressionStream {
  constructor(kind: string);
  readable: ReadableStream<Uint8Array>;
  writable: WritableStream<Uint8Array>;
}
declare class DecompressionStream {
  constructor(kind: string);
  readable: ReadableStream<Uint8Array>;
  writable: WritableStream<Uint8Array>;
}
