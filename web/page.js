/* The page: connects, shows the terminal, and runs transfers. What a transfer does is the module's affair. */

import { moment } from "./alarm.js";
import { Chart } from "./chart.js";
import { knownPort, nameOf, openAddress, openSerial } from "./ports.js";
import { Meter } from "./progress.js";
import { remember, remembered } from "./remembered.js";
import { Terminal } from "./terminal.js";
import { NO_FILE, areFolders, count, failure, named, noLine, size } from "./words.js";
import { YmodemError, load, receive, send, supported } from "./ymodem.js";

const at = (id) => document.getElementById(id);
const first = (which) => document.querySelector(which);

// How long the device may take to ask for a file after a command was typed at it, and to get ready to send.
const ASK_WITHIN = 8000;
const READY_WITHIN = 400;
// Nothing is offered: the receiver starts anew, until somebody cancels, or for so long.
const PATIENCE = 15 * 60 * 1000;
// A C that came so long ago still is the device's question.
const C_IS_FRESH = 4000;

const C = 0x43;
const hasSerial = "serial" in navigator;
const hasSocket = typeof WebSocket === "function";
const canConnect = hasSerial || hasSocket;
const canRun = supported() && typeof DecompressionStream === "function";

let line = null;
let isDialing = false;
// The port of the last time, where it is there and may be opened.
let known;
let stop = null;
let chosen = [];
// Files that came, and are not saved in a folder; and those that were saved by themselves.
let unsaved = [];
const asked = new Set();
let isSaving = false;

const terminal = new Terminal(at("screen"), lost);
const chart = new Chart(at("chart"));

// ---- What is shown

const isReceiving = () => first("[value=receive]").checked;
const isBySerial = () => first("[value=serial]").checked;

const element = (kind, of) => Object.assign(document.createElement(kind), of);
const rows = (texts) => texts.map((textContent) => element("li", { textContent }));

function item(name, detail, ...controls) {
  const row = element("li");
  row.append(element("span", { className: "name", textContent: named(name) }));
  row.append(element("span", { className: "soft", textContent: detail }), ...controls);
  return row;
}

function button(textContent, label, onclick) {
  const it = element("button", { type: "button", textContent, onclick });
  it.setAttribute("aria-label", label);
  return it;
}

/** Says something to who listens to the page. */
function say(text) {
  at("says").textContent = text;
}

function refresh() {
  const isBusy = stop !== null;
  at("connect").hidden = !!line;
  at("connected").hidden = !line;
  at("port-name").textContent = line ? `Connected: ${line.name}` : "";
  // a field that nobody sees must not be asked for
  at("by-serial").hidden = at("speed").disabled = !isBySerial();
  at("by-socket").hidden = isBySerial();
  at("way-hint").textContent = isBySerial() ? "If you are not sure of the speed: 115200 fits most boards." : "A bridge such as websockify, in front of ser2net or QEMU's serial port.";
  at("send-form").hidden = isReceiving();
  at("receive-form").hidden = !isReceiving();
  for (const id of ["choose", "again", "dial"]) at(id).disabled = isDialing || !canConnect;
  at("again").hidden = !known;
  at("choose").classList.toggle("primary", !known);
  if (known) at("again").textContent = `Connect to ${nameOf(known) || "the port of before"}`;
  at("dial").textContent = isDialing ? "Connecting…" : "Connect";
  for (const id of ["line-text", "line-send", "interrupt"]) at(id).disabled = !line || isBusy;
  for (const it of document.querySelectorAll("[name=way2], #pick, #send-command, #receive-command, #disconnect")) it.disabled = isBusy;
  at("screen").classList.toggle("busy", isBusy);
  at("send").disabled = !canRun || !line || isBusy || chosen.length === 0;
  at("receive").disabled = !canRun || !line || isBusy;
  at("send").textContent = chosen.length === 0 ? "Send" : `Send ${count(chosen.length, "file")}`;
  at("why").textContent = isBusy || !canRun ? "" : lacking();
  at("transfer").hidden = !isBusy;
  at("files-card").hidden = isBusy;
}

/** What is to be done before a transfer. */
function lacking() {
  if (!line) return canConnect ? "Connect first." : "";
  return isReceiving() || chosen.length ? "" : "Choose a file first.";
}

function showChosen() {
  const remove = (file) => () => {
    chosen = chosen.filter((it) => it !== file);
    showChosen();
    at("pick").focus();
  };
  at("chosen").replaceChildren(...chosen.map((file) => item(file.name, size(file.size), button("Remove", `Remove ${named(file.name)}`, remove(file)))));
  say(`${count(chosen.length, "file")} chosen`);
  refresh();
}

function choose(files) {
  chosen = [...chosen, ...files];
  showChosen();
}

/** Takes what was dropped, but no folder: the browser hands one out as a file without bytes, or as
 *  one that cannot be read. */
function drop(items) {
  const all = Array.from(items).filter((it) => it.kind === "file");
  const entries = all.map((it) => it.webkitGetAsEntry?.());
  choose(all.filter((_, at) => !entries[at]?.isDirectory).map((it) => it.getAsFile()));
  const folders = entries.filter((it) => it?.isDirectory);
  if (folders.length) show(false, areFolders(folders.map((it) => it.name)));
}

/** The end of something: how it went, what helps, and what came. */
function show(isGood, { title, text, helps = [] }, files = []) {
  at("result").hidden = false;
  at("result").className = `card ${isGood ? "good" : "bad"}`;
  at("result-title").textContent = `${isGood ? "✓ " : ""}${title}`;
  at("result-text").textContent = text;
  at("result-helps").replaceChildren(...rows(helps));
  showReceived(files);
  say(`${title}. ${text}`);
  at("result-title").focus();
}

/** Shows files that came, behind those before them: what a device takes for kept is not dropped. */
function showReceived(files) {
  for (const about of files) {
    const href = URL.createObjectURL(about.file);
    const link = element("a", { href, download: about.name, textContent: "Save" });
    link.setAttribute("aria-label", `Save ${named(about.name)}`);
    link.onclick = () => asked.add(about);
    at("received").append(item(about.name, size(about.length), link));
    unsaved.push(about);
    at("saved").textContent = "";
    at("came").hidden = false;
  }
  at("save-row").hidden = unsaved.length < 2 || !("showDirectoryPicker" in window);
}

/** Saves a file in a folder, where nothing has its name. */
async function saveIn(folder, { name, file }) {
  const isThere = await folder.getFileHandle(name).then(() => true, () => false);
  if (isThere) throw new Error("it is there already");
  const handle = await folder.getFileHandle(name, { create: true });
  try {
    await file.stream().pipeTo(await handle.createWritable());
  } catch (fault) {
    await folder.removeEntry(name);
    throw fault;
  }
}

/** Saves each file that can be, and tells of the others. */
async function saveAll() {
  if (isSaving) return;
  isSaving = true;
  const [files, whys] = [unsaved, []];
  try {
    const folder = await window.showDirectoryPicker({ mode: "readwrite" });
    unsaved = [];
    for (const about of files) {
      await saveIn(folder, about).catch((fault) => {
        whys.push(`${named(about.name)}: ${fault.message}`);
        unsaved.push(about);
      });
    }
  } catch (fault) {
    if (fault.name === "AbortError") return;
    whys.push(fault.message);
  } finally {
    isSaving = false;
  }
  // others may have come meanwhile
  const all = unsaved.length ? "" : "All saved";
  const told = whys.length ? `Not all could be saved: ${whys.join("; ")}` : all;
  say((at("saved").textContent = told));
  at("save-row").hidden = !unsaved.length;
}

// ---- The line

async function connect(event) {
  event.preventDefault();
  at("result").hidden = true;
  const isAgain = event.submitter === at("again");
  const speed = at("speed").valueAsNumber;
  const address = isBySerial() ? undefined : at("address").value.trim();
  isDialing = true;
  refresh();
  try {
    const serial = isAgain ? known : undefined;
    line = await (isBySerial() ? openSerial(speed, serial) : openAddress(address));
  } catch (fault) {
    return show(false, noLine(fault, address));
  } finally {
    isDialing = false;
    refresh();
  }
  terminal.attach(line);
  keep(speed, address);
  refresh();
  say(`Connected: ${line.name}`);
  at("screen").focus();
}

/** Remembers how the device was reached. */
function keep(speed, address) {
  if (address !== undefined) return remember({ way: "socket", address });
  known = line.serial;
  remember({ way: "serial", speed, port: nameOf(line.serial) });
}

/** Takes up what was remembered. */
function recall() {
  const { way, speed, address } = remembered();
  if (Number.isInteger(speed)) at("speed").value = speed;
  if (typeof address === "string") at("address").value = address;
  if (way === "socket") first("[value=socket]").checked = true;
}

/** Looks whether the port of the last time is there. */
async function look() {
  const { port } = remembered();
  known = typeof port === "string" ? await knownPort(port, known).catch(() => undefined) : undefined;
  refresh();
}

/** Disconnects, and leads on to where somebody connects anew. */
async function leave() {
  await disconnect();
  say("Disconnected");
  at(isBySerial() ? (known ? "again" : "choose") : "dial").focus();
}

async function disconnect() {
  const old = line;
  line = null;
  await terminal.forget();
  try {
    await old?.close();
  } catch {
    // it is gone already
  }
  refresh();
}

/** The line ended by itself. */
async function lost(fault) {
  if (line === null || stop !== null) return;
  await disconnect();
  terminal.note("the line was closed");
  // what is said of a transfer stays: its other end often goes once it is done
  const told = failure({ code: fault ? "device" : "closed", cause: fault });
  if (at("result").hidden) show(false, told);
  else say(told.title);
}

// ---- A transfer

const wait = (millis) => new Promise((resolve) => setTimeout(resolve, millis));

/** Types a command at the device, and waits until it seems to be ready. */
async function typeFirst(command, isSending, signal) {
  if (command === "") return;
  terminal.listen();
  await terminal.type(`${command}\r`);
  if (!isSending) return wait(READY_WITHIN);
  const until = moment() + ASK_WITHIN;
  const isOver = () => terminal.isAsked || terminal.hasEnded || signal.aborted;
  while (!isOver() && moment() < until) await wait(50);
}

/** What tells of a transfer while it runs. */
class Watch {
  constructor(total, title) {
    this.meter = new Meter(total);
    this.blocks = 0;
    this.bad = 0;
    this.told = 0;
    at("transfer-title").textContent = title;
    at("chart-card").hidden = false;
    chart.clear();
    this.timer = setInterval(() => this.draw(), 250);
    this.draw();
  }

  get hooks() {
    return {
      onProgress: (progress) => this.meter.take(progress),
      onFrame: (frame) => {
        // the first end of a file is asked for again, so that none is taken for another byte
        const isUsual = frame.text === "NAK" && this.last === "eot";
        this.last = frame.kind;
        chart.add({ ...frame, isUsual });
        if (frame.kind === "block") this.blocks++;
        if (frame.kind === "noise" || (frame.text === "NAK" && !isUsual)) this.bad++;
      },
    };
  }

  draw() {
    const { meter } = this;
    chart.draw();
    at("bar").value = meter.share;
    const name = meter.file ? named(meter.file.name) : "Waiting for the device…";
    at("now-file").textContent = at("now-file").title = name;
    at("now-percent").textContent = meter.file ? `${Math.floor(meter.share * 100)} %` : "";
    const done = meter.files > 0 ? ` · ${count(meter.files, "file")} done` : "";
    at("figures").textContent = meter.file ? meter.text() + done : "It has not answered yet.";
    at("counts").textContent = `${count(this.blocks, "block")} so far; ${this.bad === 0 ? "none" : this.bad} damaged or asked for again.`;
    const quarter = Math.floor(meter.share * 4);
    if (quarter > this.told && quarter < 4) say(`${quarter * 25} percent`);
    this.told = Math.max(this.told, quarter);
  }

  close() {
    clearInterval(this.timer);
    this.draw();
  }
}

/** Receives, and waits on where nobody has offered a file yet. */
async function receivePatiently(port, options) {
  const until = moment() + PATIENCE;
  for (;;) {
    try {
      return await receive(port, options);
    } catch (fault) {
      if (fault.code !== "too-many-errors" || fault.answered || moment() > until) throw fault;
    }
  }
}

async function run(isSending, command, work) {
  stop = new AbortController();
  const { signal } = stop;
  at("result").hidden = true;
  const total = isSending ? chosen.reduce((sum, file) => sum + file.size, 0) : undefined;
  const watch = new Watch(total, isSending ? `Sending ${count(chosen.length, "file")}` : "Receiving");
  refresh();
  at("transfer-title").focus();
  let outcome;
  try {
    signal.onabort = () => terminal.giveUp();
    await typeFirst(command, isSending, signal);
    await terminal.detach();
    if (signal.aborted && terminal.isStuck) throw new YmodemError("aborted", "stuck", { cause: { message: "The line takes nothing, so the device was not told." } });
    terminal.note(isSending ? "sending files" : "receiving files");
    outcome = await work({ ...watch.hooks, signal });
    terminal.note("done");
  } catch (fault) {
    outcome = fault;
    terminal.note(`ended: ${fault.message}`);
  }
  watch.close();
  stop = null;
  await behind(outcome, watch, isSending);
}

/** After a transfer: the line is the terminal's again, if it is there. */
async function behind(outcome, watch, isSending) {
  const isGone = outcome.code === "closed" || outcome.code === "device";
  if (outcome.rest?.length) terminal.show(outcome.rest);
  if (isGone) await disconnect();
  else terminal.attach(line);
  refresh();
  const files = isSending ? [] : outcome.files ?? [];
  if (outcome instanceof Error) {
    const told = failure(outcome, watch.meter.file?.name);
    const done = outcome.files?.length ?? 0;
    const kept = done ? ` ${count(done, "file")} ${done === 1 ? "is" : "are"} whole.` : "";
    show(false, { ...told, text: told.text + kept }, files);
  } else if (outcome.files.length === 0) show(false, NO_FILE);
  else show(true, { title: isSending ? "Sent: the device has it all" : "Received", text: watch.meter.summary(outcome.files.length) }, files);
}

function sendChosen(event) {
  event.preventDefault();
  const files = chosen;
  run(true, at("send-command").value.trim(), (options) => {
    const heard = terminal.asksSince(C_IS_FRESH) ? Uint8Array.of(C) : undefined;
    return send(line, files, { ...options, heard });
  });
}

function receiveFiles(event) {
  event.preventDefault();
  run(false, at("receive-command").value.trim(), (options) => receivePatiently(line, options));
}

// ---- What the page is made of

function lacks() {
  const texts = [];
  if (!canRun) {
    texts.push(
      "It cannot run this page's module, so no file can be sent or received here. A newer browser can.",
    );
  }
  if (!hasSerial) {
    texts.push(
      isSecureContext
        ? "It cannot reach serial ports (Web Serial). Chrome, Edge and Chromium on a computer can."
        : "It does not let this page reach serial ports, because the page came by plain http. " +
            "Open it by https, from 127.0.0.1, or from your disk.",
    );
    texts.push(
      hasSocket
        ? "By a network address this page works here too."
        : "It cannot reach network addresses (WebSocket) either, so this page cannot connect " +
            "to anything here. Open it in another browser.",
    );
    first("[value=serial]").disabled = true;
    first("[value=socket]").checked = true;
  }
  first("[value=socket]").disabled = !hasSocket;
  at("lacks").hidden = texts.length === 0;
  at("lacks-list").replaceChildren(...rows(texts));
}

function unpacked() {
  const bytes = Uint8Array.from(atob(PACKED), (sign) => sign.charCodeAt(0));
  return new Response(new Blob([bytes]).stream().pipeThrough(new DecompressionStream("gzip"))).arrayBuffer();
}

function listenForDrops() {
  const box = at("drop");
  for (const name of ["dragover", "drop"]) document.addEventListener(name, (event) => event.preventDefault());
  box.ondragover = () => box.classList.add("over");
  box.ondragleave = () => box.classList.remove("over");
  box.ondrop = (event) => {
    box.classList.remove("over");
    if (stop === null) drop(event.dataTransfer.items);
  };
}

function begin() {
  recall();
  lacks();
  if (canRun) unpacked().then(load);
  if (hasSerial) {
    look();
    for (const name of ["connect", "disconnect"]) navigator.serial.addEventListener?.(name, look);
  }
  at("connect").onsubmit = connect;
  at("disconnect").onclick = leave;
  at("send-form").onsubmit = sendChosen;
  at("receive-form").onsubmit = receiveFiles;
  at("cancel").onclick = () => stop?.abort();
  at("save-all").onclick = saveAll;
  at("interrupt").onclick = () => terminal.type("\x03");
  at("pick").onchange = (event) => {
    choose(event.target.files);
    event.target.value = "";
  };
  at("line-form").onsubmit = (event) => {
    event.preventDefault();
    terminal.type(`${at("line-text").value}\r`);
    at("line-text").value = "";
  };
  for (const it of document.querySelectorAll("[name=way], [name=way2]")) it.onchange = refresh;
  listenForDrops();
  // what a device takes for kept is not lost without a question
  const isKept = () => unsaved.every((it) => asked.has(it));
  addEventListener("beforeunload", (event) => (stop || !isKept()) && event.preventDefault());
  refresh();
}

begin();
