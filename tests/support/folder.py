"""A folder of a page, of the check's own."""

# A folder that the user chose, which keeps what is written as hexadecimal digits. It takes no name
# with a tilde, as that of a browser, and nothing of the file `full`.
FOLDER = """
globalThis.kept = {};
const digits = (bytes) => Array.from(bytes, (byte) => byte.toString(16).padStart(2, '0')).join('');
const write = (name) => (bytes) => {
  if (name === 'full') throw new Error('no room');
  kept[name] += digits(bytes);
};
const getFileHandle = async (name, { create } = {}) => {
  if (name.includes('~')) throw new TypeError('Name is not allowed.');
  if (!create && !(name in kept)) throw new DOMException('none', 'NotFoundError');
  kept[name] ??= '';
  return { createWritable: async () => new WritableStream({ write: write(name) }) };
};
const removeEntry = async (name) => { delete kept[name]; };
globalThis.showDirectoryPicker = async () => ({ getFileHandle, removeEntry });
"""
