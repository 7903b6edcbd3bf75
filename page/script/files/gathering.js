// The dropped or chosen files, each a name with its blob, including those in folders and archives.

import { MOST_BYTES, MOST_FILES, MOST_UNPACKED, unzip } from './archive.js';

const isArchive = ({ name }) => name.slice(-4).toLowerCase() === '.zip';

const checkCount = count => {
  if (count > MOST_FILES) throw new Error(`there are more than ${MOST_FILES.toLocaleString('en')}`);
};

// All of them; null for a blob that has more bytes than a file may have. Raises Error with the text to show.
export const blobsOf = async given => {
  const found = [];
  let left = MOST_UNPACKED;
  checkCount(given.length);
  for (const file of given) {
    if (!isArchive(file)) found.push([file.name, file.size > MOST_BYTES ? null : file]);
    else {
      if (file.size > MOST_BYTES) throw new Error(`${file.name} has more than ${MOST_BYTES.toLocaleString('en')} bytes`);
      const { files, length } = await unzip(file, { files: MOST_FILES - found.length, bytes: left });
      left -= length;
      found.push(...files);
    }
    checkCount(found.length);
  }
  return found;
};

const named = (file, path) => new File([file], path);

// The files in a folder, which a browser provides in one of two ways. To a page from disk Chromium provides only the first.
const belowHandle = async (handle, path) => {
  if (handle.kind === 'file') return [named(await handle.getFile(), path)];
  const found = [];
  for await (const [name, below] of handle.entries()) {
    found.push(...await belowHandle(below, `${path}/${name}`));
    if (found.length > MOST_FILES) break;
  }
  return found;
};

const belowEntry = async entry => {
  if (entry.isFile) return [named(await new Promise((done, fail) => entry.file(done, fail)), entry.fullPath.slice(1))];
  const reader = entry.createReader(), found = [];
  for (let some = null; (some === null || some.length) && found.length <= MOST_FILES;) {
    some = await new Promise((done, fail) => reader.readEntries(done, fail));
    found.push(...(await Promise.all(some.map(belowEntry))).flat());
  }
  return found;
};

// The dropped files. All properties of an item are read before anything is awaited: it is empty afterwards.
export const droppedFiles = async items => {
  const dropped = [...items].filter(item => item.kind === 'file').map(item => {
    const entry = item.webkitGetAsEntry && item.webkitGetAsEntry();
    if (!entry || !entry.isDirectory) return Promise.resolve([item.getAsFile()]);
    const handle = item.getAsFileSystemHandle && item.getAsFileSystemHandle();
    return handle ? handle.then(folder => belowHandle(folder, folder.name)) : belowEntry(entry);
  });
  return (await Promise.all(dropped)).flat();
};
