// Reads the history that the page carries: base64 of text compressed by gzip. It goes through piece by piece, so that
// neither the whole text nor a second copy of the posts stands in memory.
import { TraceReader } from "./trace.js";

// base64 letters of a piece: a multiple of 4
const PIECE = 1 << 20;

function bytesOf(base64) {
  const letters = atob(base64);
  const bytes = new Uint8Array(letters.length);
  for (let i = 0; i < letters.length; i += 1) bytes[i] = letters.charCodeAt(i);
  return bytes;
}

function pieces(text) {
  let at = 0;
  return new ReadableStream({
    pull(controller) {
      if (at >= text.length) {
        controller.close();
        return;
      }
      controller.enqueue(bytesOf(text.slice(at, at + PIECE)));
      at += PIECE;
    },
  });
}

// Reads the text in an element, which it takes off the page. `expected` is the length of the text of the history.
export async function readTrace(element, expected) {
  const reader = new TraceReader(expected);
  const text = element.textContent;
  element.remove();
  const stream = pieces(text).pipeThrough(new DecompressionStream("gzip")).getReader();
  for (;;) {
    const { done, value } = await stream.read();
    if (done) break;
    reader.push(value);
  }
  reader.finish();
  return reader;
}
