/* What went wrong: a code for a program, and words for a log. */

/** Why a transfer did not take place, or did not end well. */
export class YmodemError extends Error {
  constructor(code, message, more = {}) {
    super(message, more.cause === undefined ? undefined : more);
    this.name = "YmodemError";
    this.code = code;
    this.files = [];
    this.fault = more.fault ?? "";
    this.answered = more.answered ?? false;
    this.rest = new Uint8Array();
  }
}

export const MESSAGES = {
  "too-many-errors": "ten times in a row nothing came that could be used",
  cancelled: "the other end cancelled",
  "out-of-step": "a block came that does not follow the one before",
  "too-many-files": "there are more than 65,535 files",
  "host-failed": "a file could not be stored",
  "bad-header": "a file's name or length is refused",
  "no-reply": "the other end did not answer ten times in a row",
  "source-failed": "a file could not be read",
  aborted: "the transfer was stopped here",
};
