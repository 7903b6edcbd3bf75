// A folder in one file: zip archives, written without compression, and read with or without it. The contents are counted before
// any of them is unpacked.

// A file has no more bytes than the program reads from one, and all files of an archive together have at most four times as many.
export const MOST_BYTES = 67108864;
export const MOST_UNPACKED = 4 * MOST_BYTES;
export const MOST_FILES = 1000;
// The signatures of a file, of its entry and of the end, and the bytes of the longest end.
const FILE = 0x04034b50, ENTRY = 0x02014b50, END = 0x06054b50, LONGEST_END = 22 + 65535;
const AT_ONCE = 64;

const TABLE = Uint32Array.from({ length: 256 }, (_, byte) => {
  let value = byte;
  for (let bit = 0; bit < 8; bit += 1) value = value & 1 ? 0xedb88320 ^ (value >>> 1) : value >>> 1;
  return value;
});

// The checksum of bytes, or of those after others with a known one.
export const checksum = (bytes, before = 0) => {
  let value = ~before;
  for (let place = 0; place < bytes.length; place += 1) value = TABLE[(value ^ bytes[place]) & 255] ^ (value >>> 8);
  return ~value >>> 0;
};

// Numbers with their widths in bytes, the least significant byte first.
const bytesOf = (value, width) => Array.from({ length: width }, (_, place) => (value >>> (8 * place)) & 255);
const packed = (...numbers) => Uint8Array.from(numbers.flatMap(([value, width]) => bytesOf(value, width)));

// The archive of some files, each a name with its text.
export const zipOf = files => {
  const chunks = [], listed = [];
  let offset = 0;
  const push = (list, ...added) => list.push(...added);
  for (const [name, text] of Object.entries(files)) {
    const named = new TextEncoder().encode(name), bytes = new TextEncoder().encode(text);
    // Version, names in UTF-8, stored, midnight of 1 January 1980, then the checksum, both sizes and the name's length.
    const sizes = [[checksum(bytes), 4], [bytes.length, 4], [bytes.length, 4], [named.length, 2], [0, 2]];
    const common = packed([20, 2], [0x800, 2], [0, 2], [0, 2], [33, 2], ...sizes);
    push(chunks, packed([FILE, 4]), common, named, bytes);
    push(listed, packed([ENTRY, 4], [20, 2]), common, packed([0, 2], [0, 2], [0, 2], [0, 4], [offset, 4]), named);
    offset += 4 + common.length + named.length + bytes.length;
  }
  const count = Object.keys(files).length, size = listed.reduce((sum, chunk) => sum + chunk.length, 0);
  const end = packed([END, 4], [0, 2], [0, 2], [count, 2], [count, 2], [size, 4], [offset, 4], [0, 2]);
  return new Blob([...chunks, ...listed, end], { type: 'application/zip' });
};

// The bytes of a stream as a blob, with their number and their checksum; null if they are more than allowed: no more than that
// is ever unpacked.
const gathered = async (stream, most) => {
  const reader = stream.getReader(), blobs = [], chunks = [];
  let length = 0, sum = 0;
  for (let chunk = await reader.read(); !chunk.done; chunk = await reader.read()) {
    length += chunk.value.length;
    if (length > most) {
      await reader.cancel();
      return null;
    }
    sum = checksum(chunk.value, sum);
    chunks.push(chunk.value);
    if (chunks.length === AT_ONCE) blobs.push(new Blob(chunks.splice(0)));
  }
  return { blob: new Blob([...blobs, ...chunks]), length, sum };
};

// What was packed.
export const inflated = (blob, most) => gathered(blob.stream().pipeThrough(new DecompressionStream('deflate-raw')), most);

const fault = what => new Error(what);
const damagedAt = name => fault(`${name} is damaged`);

const viewOf = async (blob, start, end) => new DataView(await blob.slice(Math.max(0, start), end).arrayBuffer());

// The directory of an archive. Raises Error if there is none.
const listOf = async file => {
  const end = await viewOf(file, file.size - LONGEST_END, file.size);
  let place = end.byteLength - 22;
  while (place >= 0 && end.getUint32(place, true) !== END) place -= 1;
  if (place < 0) throw fault('it is no archive of the kind zip');
  const start = end.getUint32(place + 16, true);
  return { count: end.getUint16(place + 10, true), list: await viewOf(file, start, start + end.getUint32(place + 12, true)) };
};

// An entry of the directory, and the start of the next one; null if there is none.
const entryAt = (list, place) => {
  if (place + 46 > list.byteLength || list.getUint32(place, true) !== ENTRY) return null;
  const [method, named, extra, comment] = [10, 28, 30, 32].map(at => list.getUint16(place + at, true));
  const [sum, packedLength, length, start] = [16, 20, 24, 42].map(at => list.getUint32(place + at, true)), next = place + 46 + named + extra + comment;
  if (next > list.byteLength) return null;
  const name = new TextDecoder().decode(new Uint8Array(list.buffer, place + 46, named));
  return { name, method, sum, packedLength, length, start, next };
};

// The files of an archive, counted and summed before one is unpacked. Raises Error if they are more, or longer, than allowed.
const entriesOf = async (file, { files, bytes }) => {
  const { count, list } = await listOf(file), entries = [];
  let unpacked = 0, packedTogether = 0;
  for (let place = 0, each = 0; each < count; each += 1) {
    const entry = entryAt(list, place);
    if (!entry) throw fault(`its list is damaged after ${entries.length.toLocaleString('en')} files`);
    place = entry.next;
    if (entry.name.endsWith('/')) continue;
    unpacked += entry.length;
    packedTogether += entry.packedLength;
    entries.push(entry);
    if (entries.length > files) throw fault(`there are more than ${MOST_FILES.toLocaleString('en')}`);
  }
  if (unpacked > bytes) throw fault(`its files have more than ${MOST_UNPACKED.toLocaleString('en')} bytes together`);
  // Files that share bytes could unpack to more than the archive's length suggests.
  if (packedTogether > file.size) throw fault('its list is damaged');
  return entries;
};

// The contents of a file in an archive. Raises Error.
const packedOf = async (file, { name, method, start, packedLength }) => {
  if (method !== 0 && method !== 8) throw fault(`${name} is packed in a way that is not known here`);
  const head = await viewOf(file, start, start + 30);
  if (head.byteLength < 30 || head.getUint32(0, true) !== FILE) throw damagedAt(name);
  const begin = start + 30 + head.getUint16(26, true) + head.getUint16(28, true);
  if (begin + packedLength > file.size) throw damagedAt(name);
  return file.slice(begin, begin + packedLength);
};

const unpackedOf = async (file, entry) => {
  // An empty file has no checksum, and need not be read.
  if (!entry.length && !entry.packedLength && !entry.sum) return { blob: new Blob([]), length: 0, sum: 0 };
  const blob = await packedOf(file, entry);
  try {
    return entry.method ? await inflated(blob, entry.length) : await gathered(blob.stream(), entry.length);
  } catch (broken) {
    throw damagedAt(entry.name);
  }
};

// The files of an archive: each a name with its blob, or with null if it has more bytes than a file may have; and their total
// bytes. Raises Error if it is not an archive, or is damaged, or its files are more or longer together than `room` allows.
export const unzip = async (file, room = { files: MOST_FILES, bytes: MOST_UNPACKED }) => {
  const files = [], entries = await entriesOf(file, room);
  for (const entry of entries) {
    const { name, length, sum } = entry, unpacked = length > MOST_BYTES ? null : await unpackedOf(file, entry);
    if (length <= MOST_BYTES && (!unpacked || unpacked.length !== length || unpacked.sum !== sum)) throw damagedAt(name);
    files.push([name, unpacked && unpacked.blob]);
  }
  return { files, length: entries.reduce((all, { length }) => all + length, 0) };
};
