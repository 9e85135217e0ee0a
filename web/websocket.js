/* A port over a WebSocket. */

import { YmodemError } from "./errors.js";

/** A port over a WebSocket, as websockify and ser2net offer one: bytes in messages, of any size. */
export function openWebSocket(address) {
  return new Promise((resolve, reject) => {
    const socket = new WebSocket(address);
    socket.binaryType = "arraybuffer";
    let incoming;
    const readable = new ReadableStream({
      start: (controller) => (incoming = controller),
      cancel: () => socket.close(),
    });
    const writable = new WritableStream({
      write: (bytes) => {
        if (socket.readyState !== WebSocket.OPEN) throw new YmodemError("closed", "the connection is closed");
        socket.send(bytes);
      },
      close: () => socket.close(),
      abort: () => socket.close(),
    });
    socket.onmessage = ({ data }) => incoming.enqueue(typeof data === "string" ? new TextEncoder().encode(data) : new Uint8Array(data));
    socket.onopen = () => resolve({ readable, writable, close: () => socket.close() });
    socket.onclose = () => {
      try {
        incoming.close();
      } catch {
        // it was cancelled
      }
      reject(new YmodemError("closed", `no connection to ${address}`));
    };
  });
}
