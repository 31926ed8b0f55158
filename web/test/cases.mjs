// The cases of views that this repository has, through the steps of a page: node cases.mjs MODULE.wasm
//
// What a page sends and prints is compared, byte for byte, with what the cases say of the native programs. A link that is not made is told to a page
// too. Cases in which another call of the outside fails are left out, since a page has none, and so are those of persisted values, and of words,
// scripts and addresses that the native program refuses before it begins. A program that is refused has to be refused in the same words.
import { readFileSync } from "node:fs";
import { Page, engine, CLOSED, END, FRAME, IS_OVER, LINE, LINKED, LINK_FAILED, QUIET, WANTS_INPUT } from "../croquet.js";

const MOST_LINES = 64;
const MOST_LINE = 65536;
const ENDS = { 0: "", 6: "net-fault", 8: "memory", 9: "ended", 10: "peer" };
const OUTSIDE = /^(fail(?! net )|want|address|persisted) /;
const TOP = new URL("../../", import.meta.url);
const bytes = text => Buffer.from(text, "latin1");

// ---- a case

// `<<3:TEXT>>` is three copies of TEXT, `<<x:0aff>>` these bytes.
function expanded(text) {
  return text.replace(/<<(x|\d+):(.*?)>>/g, (all, count, piece) => count === "x" ? Buffer.from(piece, "hex").toString("latin1") : piece.repeat(Number(count)));
}

function addNumbers(numbers, word) {
  const [from, to = from] = word.split("-").map(Number);
  for (let number = from; number <= to; number++) numbers.add(number);
}

function readLink(part) {
  const link = { frames: [], quiet: new Set(), calls: 0, heard: 0, sent: [] };
  const words = part.split(" ");
  while (words.length) {
    const word = words.shift();
    if (word === "quiet") addNumbers(link.quiet, words.shift());
    else if (word !== "-") link.frames.push(Buffer.from(word, "hex"));
  }
  return link;
}

// The names of a session have no blanks in these cases.
function readCase(line) {
  const [head, program, ...parts] = expanded(line).split(" | ");
  const [, name, view, lines] = /^(\S+) (\d+) (.*)$/s.exec(head);
  const idle = new Set();
  const unmade = new Set();
  for (const part of parts.filter(part => part.startsWith("idle "))) addNumbers(idle, part.slice(5));
  for (const part of parts.filter(part => part.startsWith("fail net "))) addNumbers(unmade, part.slice(9));
  const links = parts.filter(part => !/^(idle|fail net) /.test(part)).map(readLink);
  return { name, view: Number(view), lines: lines === "-" ? [] : lines.split(" / "), program, idle, unmade, links };
}

// A live line is at most so long, and a script's comment is not.
function longestLine(line) {
  return Math.max(...readCase(line).lines.join("\n").split("\n").map(text => text.length));
}

function isOfPage(line, outcome) {
  const parts = line.split(" | ").slice(2);
  return !parts.some(part => OUTSIDE.test(part) || / fail /.test(part)) && !/^(input|usage)\b/.test(outcome);
}

// ---- a run

// The lines of a script come before the first link; those of a feed come as the feed is asked.
function scriptFeed(lines) {
  const all = lines.join("\n").split("\n").map(line => line.replace(/\r$/, ""));
  return { first: all, next: () => null };
}

function lineFeed(lines, idle) {
  let calls = 0;
  const left = [...lines];
  return { first: null, next: () => idle.has(++calls) ? undefined : left.length ? left.shift() : null };
}

class Run {
  constructor(calls, what, feed) {
    this.page = new Page(calls, bytes(what.program), bytes(what.name).toString(), what.view);
    this.feed = feed;
    this.what = what;
    this.links = [...what.links];
    this.given = [];
    this.asked = 0;
    this.text = "";
    this.want = null;
  }

  tell(kind, data) {
    const told = this.page.step(kind, data);
    for (const frame of told.frames) { this.link.calls++; this.link.sent.push(Buffer.from(frame).toString("hex")); }
    this.text += Buffer.from(told.text, "utf8").toString("latin1") + (told.here && !this.feed.first ? "here\n" : "");
    this.told = told;
  }

  hear() {
    const { link } = this;
    link.calls++;
    link.heard++;
    if (link.quiet.has(link.calls)) this.tell(QUIET);
    else if (link.frames.length) this.tell(FRAME, link.frames.shift());
    else this.tell(END);
  }

  // A turn of the feed, after so many lines in a row: how many there are then.
  turnFeed(lines) {
    const line = this.feed.next();
    if (line === undefined) return MOST_LINES;
    if (line === null) { this.tell(CLOSED); return MOST_LINES; }
    this.tell(LINE, bytes(line));
    return lines + 1;
  }

  attend() {
    let lines = this.feed.first ? MOST_LINES : 0;
    while (this.told.want === WANTS_INPUT) {
      if (lines < MOST_LINES) lines = this.turnFeed(lines);
      else { this.hear(); lines = this.feed.first ? MOST_LINES : 0; }
    }
  }

  begin() {
    if (!this.feed.first) return;
    for (const line of this.feed.first) this.tell(LINE, bytes(line));
    this.tell(CLOSED);
  }

  visit() {
    this.asked++;
    this.link = this.what.unmade.has(this.asked) ? null : this.links.shift();
    if (!this.link) { this.tell(LINK_FAILED); return; }
    this.tell(LINKED);
    this.attend();
    this.given.push(this.link);
  }

  ending() {
    const { end, code, kept } = this.told;
    const line = end === 7 ? `refused ${code} ${kept}` : ENDS[end];
    return (line ? [line] : []).concat(end ? [`[${end}]`] : []);
  }

  outcome() {
    this.link = { calls: 0, sent: [] };
    this.told = { want: 1 };
    this.begin();
    while (this.told.want !== IS_OVER) this.visit();
    const [last = "", status = ""] = this.told.end ? this.ending() : [];
    const text = this.text.split("\n").filter(line => line).concat(last ? [last] : []).join(" / ");
    const links = this.given.map(link => ` > ${link.sent.map(frame => frame + " ").join("")}heard ${link.heard}`).join("");
    this.page.close();
    return `${text}${status ? ` ${status}` : ""}${links} ; ${this.given.length} back of ${this.asked} asked`.trimStart();
  }
}

// ---- all of them

function splitCase(line) {
  const at = line.lastIndexOf(" = ");
  return [line.slice(0, at), line.slice(at + 3)];
}

// The program of cases prints the lines of each of its files, in order, each with its outcome.
function printedCases(kind) {
  const folder = new URL("crates/croquet_cases/", TOP);
  const lines = new Set(readFileSync(new URL(`data/${kind}`, folder), "latin1").split("\n").filter(line => line && line[0] !== "#"));
  return readFileSync(new URL("stdout", folder), "latin1").split("\n").map(splitCase).filter(([line]) => lines.has(line));
}

function checkedCases(kind) {
  return readFileSync(new URL(`checks/data/${kind}`, TOP), "latin1").split("\n").filter(line => line && line[0] !== "#").map(splitCase);
}

function tryCase(calls, line, makeFeed) {
  const what = readCase(line);
  try {
    return new Run(calls, what, makeFeed(what)).outcome();
  } catch (fault) {
    const refused = /^program: (.*)$/s.exec(fault.message);
    return refused ? `${refused[1]} [2] ; 0 back of 0 asked` : `fault: ${fault.message}`;
  }
}

function tryAll(calls, name, cases, makeFeed, most = Infinity) {
  const taken = cases.filter(([line, outcome]) => isOfPage(line, outcome) && longestLine(line) <= most);
  let bad = 0;
  for (const [line, wanted] of taken) {
    const came = tryCase(calls, line, makeFeed);
    if (came.trim() === wanted.trim()) continue;
    bad++;
    console.log(`BAD  ${name}: ${line}\n     wanted ${wanted}\n     came   ${came}`);
  }
  console.log(`${bad ? "BAD " : "ok  "} ${name}: ${taken.length} cases of ${cases.length}, ${bad} wrong; the others are of the outside`);
  return bad + (taken.length === 0 ? 1 : 0);
}

const calls = await engine(readFileSync(process.argv[2]));
const bad = tryAll(calls, "lives", printedCases("lives"), what => lineFeed(what.lines, what.idle))
  + tryAll(calls, "views", printedCases("views"), what => scriptFeed(what.lines), MOST_LINE)
  + tryAll(calls, "views of checks", checkedCases("views"), what => scriptFeed(what.lines), MOST_LINE);
process.exit(bad ? 1 : 0);
