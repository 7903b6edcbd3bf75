// The text of a file, part by part, so that a long file needs no more memory than a short one, and its encoding. A source has
// `size`, and `read`, which returns the bytes from one place up to another.

const LOOKED_AT = 200, PART = 1 << 15;

export const sourceOf = bytes => ({ size: bytes.length, read: (start, end) => bytes.subarray(start, end) });

// Only in a Worker.
export const sourceOfBlob = blob => {
  const reader = new FileReaderSync();
  return { size: blob.size, read: (start, end) => new Uint8Array(reader.readAsArrayBuffer(blob.slice(start, end))) };
};

const bytesIn = function* ({ size, read }) {
  for (let start = 0; start < size; start += PART) yield read(start, Math.min(start + PART, size));
};

const isUtf16 = (bytes, byte) => {
  const some = bytes.subarray(0, LOOKED_AT), count = half => some.filter((each, place) => each === 0 && place % 2 === half).length;
  return count(byte) > some.length / 4 && count(1 - byte) === 0;
};

// The encoding of a text other than UTF-8: by its byte order mark, or by the places of its zeros.
const utf16Of = bytes => {
  const mark = bytes[0] * 256 + bytes[1];
  if (mark === 0xfffe || isUtf16(bytes, 1)) return 'utf-16le';
  return mark === 0xfeff || isUtf16(bytes, 0) ? 'utf-16be' : '';
};

// The text in an encoding. A byte order mark stays in UTF-8, which the program reads too. Raises TypeError if `fatal` and the
// bytes are invalid.
export const textsIn = function* (source, encoding, fatal = false) {
  const decoder = new TextDecoder(encoding, { ignoreBOM: encoding === 'utf-8', fatal });
  for (const bytes of bytesIn(source)) yield decoder.decode(bytes, { stream: true });
  yield decoder.decode();
};

const isUtf8 = source => {
  try {
    for (const text of textsIn(source, 'utf-8', true)) if (text === null) break;
    return true;
  } catch (fault) {
    if (fault instanceof TypeError) return false;
    throw fault;
  }
};

const hasZeros = source => {
  for (const bytes of bytesIn(source)) if (bytes.includes(0)) return true;
  return false;
};

// Bytes with zeros are not text, and are read like the program reads them: UTF-8 keeps the digits, and an invalid byte is not
// part of a number either.
export const encodingOf = source => {
  const utf16 = utf16Of(source.read(0, Math.min(LOOKED_AT, source.size)));
  return utf16 || (isUtf8(source) || hasZeros(source) ? 'utf-8' : 'windows-1252');
};
