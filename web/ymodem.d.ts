/** Files over any pair of streams, by YMODEM. The protocol is that of ymodem.wasm. */

/** A serial port of the browser, or anything with two streams of bytes, neither of which is locked. */
export interface Port {
  readonly readable: ReadableStream<Uint8Array>;
  readonly writable: WritableStream<Uint8Array>;
}

/** What is known of a file. */
export interface About {
  /** 1 to 255 bytes of UTF-8, without control characters and slashes, and neither "." nor "..". */
  name: string;
  /** Bytes. */
  length: number;
  /** Seconds since 1970, where the sender told them. */
  time?: number;
  /** The mode as Unix has it, where the sender told it. */
  mode?: number;
  /** A received file, where no sink took it. */
  file?: File;
}

/** Takes a received file: a stream of a file handle, or an object of your own. The file is acknowledged once `close` has returned. */
export interface Sink {
  write(bytes: Uint8Array): unknown;
  close(): unknown;
  abort?(reason?: unknown): unknown;
}

export interface Progress {
  /** The file under way. */
  file: About;
  /** How many files are done. */
  files: number;
  /** How many bytes of this file went. */
  bytes: number;
  /** How many it has. */
  length: number;
}

/** A frame or a reply, as it went. */
export interface Frame {
  /** Whether it was written here. */
  isOurs: boolean;
  kind: "block" | "eot" | "cancel" | "reply" | "noise" | "quiet";
  /** Of a block: 0 to 255. */
  number?: number;
  /** As "block 17" or "ACK C"; empty where what came is neither. */
  text: string;
  /** Bytes. */
  length: number;
}

/** A function here that throws stops the transfer, too: "page-failed". */
export interface Options {
  onProgress?(progress: Progress): void;
  onFrame?(frame: Frame): void;
  /** Stops the transfer: the other end is told by CAN CAN. */
  signal?: AbortSignal;
  /** What the line said just before, where it belongs to the transfer: the C of a receiver that a terminal has shown. */
  heard?: Uint8Array;
}

export interface ReceiveOptions extends Options {
  /** Answers what takes the file, or nothing: then it is kept in memory, and handed out as `file`. Throws to refuse it. */
  onFile?(about: About): Sink | undefined | void | Promise<Sink | undefined | void>;
}

/** How a transfer ended well. */
export interface Done {
  files: About[];
  /** What came behind the transfer: it belongs to a terminal. */
  rest: Uint8Array;
}

/** A file to send: of an input or a drop, or a name and its bytes. Of a time whole seconds are sent, a mode only beside a time, and of a File neither. */
export type Item = File | { name: string; data: Blob | BufferSource | string; time?: number; mode?: number };

export type Code =
  | "aborted"
  | "bad-header"
  | "cancelled"
  | "closed"
  | "device"
  | "host-failed"
  | "no-module"
  | "no-reply"
  | "no-webassembly"
  | "out-of-step"
  | "page-failed"
  | "source-failed"
  | "too-many-errors"
  | "too-many-files";

/** Why a transfer did not take place, or did not end well. */
export class YmodemError extends Error {
  readonly code: Code;
  /** The files that were done before. */
  readonly files: About[];
  /** At "bad-header": of a file to send it comes before anything is written. */
  readonly fault: "" | "name-empty" | "name-long" | "name-unsafe" | "no-length" | "length-large";
  /** Whether the other end ever said anything that counts. */
  readonly answered: boolean;
  readonly rest: Uint8Array;
}

/** Takes files until the other end says that there are no more. */
export function receive(port: Port, options?: ReceiveOptions): Promise<Done>;

/** Sends files, in order. One is `[file]`: what is no list is a TypeError. */
export function send(port: Port, files: Iterable<Item>, options?: Options): Promise<Done>;

/** Whether this browser runs the module, over streams of 2022. */
export function supported(): boolean;

/** Makes the module ready; without this call, `ymodem.wasm` beside this file is loaded at the first transfer. */
export function load(source?: WebAssembly.Module | BufferSource | Response | string | URL): Promise<WebAssembly.Module>;

/** A port over a WebSocket that carries bytes, as of websockify and ser2net. */
export function openWebSocket(address: string | URL): Promise<Port & { close(): void }>;
