// Runs `ick` beside the page: the module, its memory, and a call of one of its functions for each message.
'use strict';

const QUOTED = 1 << 16; // a message has at most so many bytes besides the statement that it quotes
const KEPT = 1 << 26; // a memory that grew beyond this isn't used again: heap.c joins no blocks
const OUT_OF_MEMORY = 'OUT OF MEMORY\n', OUT_OF_STACK = 'OUT OF STACK\n';

const bytesOf = (text) => new TextEncoder().encode(text);

let module, ick;

// Begins with a new memory.
async function renew() {
  ick = null;
  ick = (await WebAssembly.instantiate(module)).exports;
}

// Returns the address of so many bytes in the module's memory.
function room(length) {
  const address = ick.malloc(BigInt(Math.max(length, 1)));
  if (address === 0n) throw new RangeError('no memory');
  return address;
}

function copyIn(bytes) {
  const address = room(bytes.length);
  new Uint8Array(ick.memory.buffer).set(bytes, Number(address));
  return address;
}

const copyOut = (address, length) =>
  new Uint8Array(ick.memory.buffer).slice(Number(address), Number(address) + length);

// Returns the function for a message, and its texts: `ick-outcomes` if there are bytes for its LISTING, `ick-step` if
// there are commands, `ick-stages` if stages are asked for, or else `ick`.
function callOf({ argv, file, listing, input, commands, stages }) {
  if (listing) return [ick.ick_outcomes_serve, [argv, file, listing, input]];
  if (commands) return [ick.ick_step_serve, [argv, file, input, commands]];
  if (stages) return [ick.ick_stages_serve, [argv, file, input]];
  return [ick.ick_serve, [argv, file, input]];
}

// Calls a program with its arguments, where FILE has the bytes `file`. Returns the status, at most `most` bytes of the
// output, the length of the whole output, and the error text.
function serve(message) {
  const { file, most } = message, mostErrors = file.length + QUOTED;
  const [call, given] = callOf(message), places = given.map(copyIn);
  const output = room(most), errors = room(mostErrors), lengths = room(16);
  const slices = given.flatMap((bytes, at) => [places[at], BigInt(bytes.length)]);
  const status = call(...slices, output, BigInt(most), errors, BigInt(mostErrors), lengths);
  const counts = new DataView(ick.memory.buffer, Number(lengths), 16);
  const [written, said] = [0, 8].map((at) => Number(counts.getBigUint64(at, true)));
  const answer = {
    status, written, output: copyOut(output, Math.min(written, most)),
    errors: copyOut(errors, Math.min(said, mostErrors)),
  };
  // An error text takes memory too. Nothing else can fail here.
  if (status === 4 && said === 0) answer.errors = bytesOf(OUT_OF_MEMORY);
  for (const address of [...places, output, errors, lengths]) ick.free(address);
  return answer;
}

// Tells what ran out, if that is why a call threw. The browser's own stack can be full, or that of the module, which
// grows down to the address 0. A further access is out of bounds, and reaches no data.
function shortageOf(error) {
  if (/call stack|recursion|out of bounds/i.test(error.message)) return OUT_OF_STACK;
  return error instanceof RangeError ? OUT_OF_MEMORY : null;
}

// Answers for a call that didn't return. It may have left anything in the memory.
async function recover(error) {
  await renew();
  const text = shortageOf(error);
  if (text === null) throw error;
  return { status: 4, written: 0, output: new Uint8Array(), errors: bytesOf(text) };
}

async function answer(data) {
  if (data.module) {
    module = await WebAssembly.compile(data.module);
    await renew();
    return {};
  }
  try {
    const found = serve(data);
    if (ick.memory.buffer.byteLength > KEPT) await renew();
    return found;
  } catch (error) {
    return recover(error);
  }
}

onmessage = async ({ data }) => {
  const began = performance.now();
  try {
    const found = await answer(data);
    postMessage({ ...found, milliseconds: performance.now() - began });
  } catch (error) {
    postMessage({ failed: String(error) });
  }
};
