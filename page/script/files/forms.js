// Files of forms that the page does not read, and what to do with them.

// The first bytes of the files of spreadsheets: archives, and older forms of their own.
const SHEETS = [[0x50, 0x4b, 3, 4], [0xd0, 0xcf, 0x11, 0xe0]];

const isSheet = async blob => {
  const head = new Uint8Array(await blob.slice(0, 4).arrayBuffer());
  return SHEETS.some(mark => mark.every((byte, place) => head[place] === byte));
};

// The names of those among some files that are in a spreadsheet's own form.
export const sheetsAmong = async files => {
  const names = [];
  for (const { name, blob } of files) if (blob && await isSheet(blob)) names.push(name);
  return names;
};

export const HELP_WITH_SHEETS = 'Save each of its sheets as CSV in UTF-8, one file for activities, one for times and one for names, and open these.';
