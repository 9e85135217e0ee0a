/* What is said to a person: sizes, times, and what went wrong, with what helps. */

const UNITS = ["MiB", "GiB", "TiB", "PiB", "EiB"];

/** A number of bytes. */
export function size(bytes) {
  if (bytes < 1024) return `${Math.round(bytes)} B`;
  if (bytes < 1024 * 1024) return `${(bytes / 1024).toFixed(bytes < 10240 ? 1 : 0)} KiB`;
  let [left, unit] = [bytes / 1024 / 1024, 0];
  for (; left >= 1024 && unit + 1 < UNITS.length; unit++) left /= 1024;
  return `${left.toFixed(left < 10 ? 2 : 1)} ${UNITS[unit]}`;
}

/** A number of seconds. */
export function duration(seconds) {
  const whole = Math.max(0, Math.round(seconds));
  if (whole < 60) return `${whole} s`;
  if (whole < 3600) return `${Math.floor(whole / 60)} min ${whole % 60} s`;
  if (whole < 86400) return `${Math.floor(whole / 3600)} h ${Math.floor((whole % 3600) / 60)} min`;
  return `${count(Math.floor(whole / 86400), "day")}`;
}

export const count = (number, what) => `${number.toLocaleString("en")} ${what}${number === 1 ? "" : "s"}`;

// Controls, ends of lines and paragraphs, and marks that turn the direction of text.
const UNSEEN = /[\0-\x1f\x7f-\x9f\u061c\u200e\u200f\u2028-\u202e\u2066-\u2069]/g;

/** A name as it is shown: what is not seen of it, or turns what stands beside it, is an escape. */
export const named = (name) => name.replace(UNSEEN, (it) => `\\u{${it.charCodeAt(0).toString(16)}}`);

const SPEED = "Check the speed: it has to be the one at which the device's prompt is readable.";
const CABLE = "Check the cable, and that nothing else has the port open.";

const FAULTS = {
  "name-empty": "The name is empty.",
  "name-long": "The name is too long: 255 bytes are the most.",
  "name-unsafe": "The name has a slash or a control character, or is “.” or “..”.",
  "no-length": "The sender did not say how long the file is. This page takes only files whose length is stated.",
  "length-large": "The length is too large.",
};

// For each code: a heading, what it means, and what helps; by whether this page was sending.
const FAILED = {
  "no-reply": (about) =>
    about.answered
      ? ["The device stopped answering", "It was asked ten times, and did not answer in a way that goes on.", ["Look at what it printed, in the terminal.", CABLE, "Start the transfer again from the beginning."]]
      : ["The device never asked for a file", "A receiver asks by sending the letter C, every few seconds. None came.", ["Start the receiver on the device first: loady at a U-Boot prompt, rb at a Linux shell. The letter C then appears in the terminal.", "Let this page type that command for you: the field is above the button.", SPEED]],
  "too-many-errors": (about) =>
    about.answered
      ? ["Too much of it arrived damaged", "Ten times in a row nothing came that could be used.", [SPEED, CABLE, "Try a lower speed, on both sides."]]
      : ["The device sent nothing that is a file", "This page asked for a quarter of an hour, and no file was offered.", ["Start sending on the device: sb FILE at a Linux shell.", "It has to send by YMODEM (a batch). XMODEM and ZMODEM are other protocols.", SPEED]],
  cancelled: () => ["The device cancelled", "It sent its signal to stop.", ["Look at what it printed, in the terminal: often there was no room, or the file was there already.", "Start again once that is solved."]],
  "out-of-step": () => ["The two sides lost step", "A block came that does not follow the one before, so the file could not be trusted any more.", ["Start the transfer again from the beginning, on both sides.", CABLE]],
  "too-many-files": () => ["Too many files", "A batch holds 65,535 files at most.", ["Send them in several batches."]],
  "host-failed": (about) => [`${about.name} could not be stored here`, about.cause || "This browser could not keep it.", ["Check that there is room, and that the folder may be written to."]],
  "source-failed": (about) => [`${about.name} could not be read`, about.cause || "It changed, moved or went away since it was chosen.", ["Choose the file again."]],
  "bad-header": (about) => [`${about.refused ?? "A file"}'s name or length cannot be used`, FAULTS[about.fault] ?? "", ["Rename the file, and start again."]],
  closed: () => ["The connection is gone", "The port was unplugged, or the other side closed the line.", ["Plug the cable in again, and connect anew.", "Of a bridge: see that it still runs."]],
  device: (about) => ["The port failed", about.cause || "The line could not be read or written any more.", ["Plug the cable in again, and connect anew.", CABLE]],
  aborted: (about) => ["You cancelled", about.cause || "The device was told to stop.", ["Files that were done before are whole.", "If the device still waits and prints C, press Ctrl-C in the terminal: U-Boot does not stop by itself."]],
};

/** What went wrong in a transfer: a heading, a sentence, and what helps. It may have a file. */
export function failure(fault, name = "A file") {
  const { answered, cause } = fault;
  const refused = cause?.file && named(cause.file);
  const about = { name: named(name), answered, fault: fault.fault, cause: cause?.message, refused };
  const [title, text, helps] = (FAILED[fault.code] ?? (() => ["This did not work", fault.message, []]))(about);
  return { title, text, helps };
}

const OPENING = {
  NotFoundError: ["No port was chosen", "The browser's list was closed, or has no port in it.", ["Plug the cable in, and press the button again.", "Under Linux you may have to be in the group dialout to see serial ports."]],
  NetworkError: ["The port could not be opened", "Another program may have it open, you may not be allowed to use it, or it does not have this speed.", ["Close terminal programs that use this port.", "Under Linux: sudo usermod -a -G dialout $USER, and log in again."]],
  InvalidStateError: ["The port is open already", "Another page or program uses it.", ["Close it there."]],
  SecurityError: ["The browser does not let this page use serial ports", "A rule of the browser or of whoever manages it forbids it.", ["Open the page by https, from 127.0.0.1, or from your disk."]],
};

/** What is said of a batch without files. */
export const NO_FILE = {
  title: "The device sent no file",
  text: "It said at once that there are no more.",
  helps: ["Look at what it printed, in the terminal.", "Check the name of the file in the command."],
};

/** What is said of folders of these names, which were dropped as files are. */
export function areFolders(names) {
  const title = names.length === 1 ? `${named(names[0])} is a folder` : `${names.length} of these are folders`;
  const helps = ["Drop the files that are in it.", "Or pack it into one file first: a .zip or .tar file."];
  return { title, text: "A folder cannot be sent: only files can.", helps };
}

/** Why no line was opened. */
export function noLine(fault, address) {
  const helps = [
    "See that the bridge runs: websockify 8080 127.0.0.1:4000, say, with ser2net behind it.",
    "The address begins with ws:// (or wss://, as it must where this page came by https).",
  ];
  const [title, text, more] =
    address === undefined
      ? (OPENING[fault.name] ?? ["The port could not be opened", fault.message, [CABLE]])
      : ["No connection", `Nobody answered at ${address}.`, helps];
  return { title, text, helps: more };
}
