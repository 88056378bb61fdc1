// Calls into the module that holds the proved programs.

const ENTRIES = { mitigate: 'mit_web_call', lab: 'lab_web_call' };
const LEAST_ROOM = 1 << 20, MOST_ROOM = 1 << 28; // bytes for the text of an answer; room that is not used costs nothing
const WRITE_FAULT = 6;

/** The programs that a module offers: 'mitigate', and 'lab' where it is in it. */
export function programsOf(module) {
  const names = WebAssembly.Module.exports(module).map((entry) => entry.name);
  return Object.keys(ENTRIES).filter((program) => names.includes(ENTRIES[program]));
}

/** One call over files in memory with so much room for its text, or where there is not so much memory with half of it,
    and so on, down to `least`: {status, bytes, room}. Each call has an instance of its own, so that a trap leaves
    nothing half written, and its memory goes back. */
export function callWithRoom(module, program, words, files, wanted, least = wanted) {
  const instance = new WebAssembly.Instance(module, {}).exports, utf8 = new TextEncoder();
  // anew: growth detaches
  const bytesAt = (place, length) => new Uint8Array(instance.memory.buffer, Number(place), length);
  const put = (bytes) => {
    const place = instance.web_room(BigInt(Math.max(bytes.length, 1)));
    if (place === 0n) throw new RangeError('no memory');
    bytesAt(place, bytes.length).set(bytes);
    return place;
  };
  // a list of pieces as two slices: their lengths, and their bytes in a row
  const row = (pieces) => {
    const bytes = pieces.map((piece) => (typeof piece === 'string' ? utf8.encode(piece) : piece));
    const all = new Uint8Array(bytes.reduce((sum, piece) => sum + piece.length, 0));
    bytes.reduce((at, piece) => (all.set(piece, at), at + piece.length), 0);
    const lengths = new Uint8Array(BigUint64Array.from(bytes, (piece) => BigInt(piece.length)).buffer);
    return [put(lengths), BigInt(bytes.length), put(all), BigInt(all.length)];
  };
  const slices = [words, Object.keys(files), Object.values(files)].flatMap(row);
  let room = wanted, out = instance.web_room(BigInt(room));
  for (; out === 0n && room > least; out = instance.web_room(BigInt(room))) room = Math.max(room / 2, least);
  if (out === 0n) throw new RangeError('no memory');
  const end = put(new Uint8Array(16));
  instance[ENTRIES[program]](...slices, out, BigInt(room), end);
  const told = new DataView(instance.memory.buffer, Number(end), 16), length = Number(told.getBigUint64(8, true));
  return { status: told.getUint32(0, true), bytes: bytesAt(out, length).slice(), room };
}

/** One call with as much room as there can be, so that no answer is made twice: {status, text}. */
export function call(module, program, words, files) {
  const { status, bytes, room } = callWithRoom(module, program, words, files, MOST_ROOM, LEAST_ROOM);
  if (status === WRITE_FAULT) throw new RangeError(`the answer takes more than ${room >> 20} MB`);
  return { status, text: new TextDecoder().decode(bytes) };
}
