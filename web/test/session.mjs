// What croquet.js does with the answers of a page, with a module and sockets made for the test: node session.mjs
import assert from "node:assert";
import { Page, Reading, Session, digestOf, objectsOf, readValue, valueText, END, FRAME, LINE, LINKED, LINK_FAILED } from "../croquet.js";
import { StandIn, StandInSocket } from "./stand_in.mjs";

async function until(holds) {
  while (!holds()) await new Promise(done => setTimeout(done, 5));
}
const REST = "time 5 objects 2 pending 0 subscriptions 1 faults 0 digest " + "0a".repeat(32) + '\nobject 1 Root strokes [#2]\nobject 2 Stroke view 7 name "a b" points [1,2]\ntopic "a" "b" 1 draw\n';

// A view that joins at its first frame, and then answers frames as lines of text.
function joins(more = () => ({})) {
  let isLinked = false;
  return (kind, text) => {
    if (kind === LINE && text.startsWith("hold")) return { want: 1 };
    if (kind === LINKED) { isLinked = true; return { frames: ["join"] }; }
    if (kind === FRAME && text === "sync") return { here: true };
    if (kind === END || kind === LINK_FAILED) { isLinked = false; return { want: 1 }; }
    return { want: isLinked ? 0 : 1, ...more(kind, text) };
  };
}

async function joined(answer, world) {
  StandInSocket.all = [];
  const page = new Page(new StandIn(answer, world), new Uint8Array(1), "board", 7);
  const session = new Session(page, { url: "ws://x", socket: () => new StandInSocket(), again: 5, view: 7 });
  const done = new Promise((done, failed) => { session.joining = { done, failed }; session.connect(); });
  StandInSocket.all[0].open();
  StandInSocket.all[0].say("sync");
  await done;
  return session;
}

const tests = {
  "values and their texts": () => {
    const value = [1, -5, null, true, 'a"\\\n\x01\u00e9', { ref: 3 }, [], [[2n ** 62n]]];
    assert.deepEqual(readValue(valueText(value))[0], value);
    assert.equal(valueText(-0), "0");
    for (const [bad, path] of [[[1.5], "value[0]"], [undefined, "value"], [[[{}]], "value[0][0]"], ["\ud800", "value"], [2n ** 63n, "value"], [{ ref: -1 }, "value"]]) {
      assert.throws(() => valueText(bad), fault => fault instanceof TypeError && fault.message.startsWith(`${path}:`));
    }
  },
  "the objects of a world": () => {
    assert.equal(digestOf(REST), "0a".repeat(32));
    assert.deepEqual([...objectsOf(REST).values()], [{ ref: 1, class: "Root", fields: { strokes: [{ ref: 2 }] } }, { ref: 2, class: "Stroke", fields: { view: 7, name: "a b", points: [1, 2] } }]);
  },
  "an object that has not changed is not read again": () => {
    const world = numbers => `time 5\nobject 1 Root list [${numbers.map(number => "#" + number)}]\n` + numbers.map(number => `object ${number} Stroke points [${number},[]]\n`).join("");
    const reading = new Reading();
    let before = new Map();
    for (const [numbers, same] of [[[2, 3, 4], 0], [[2, 3, 4], 4], [[2, 3, 4, 5], 3], [[2, 4, 5], 3], [[5, 6], 0], [[], 0], [[7], 0]]) {
      const objects = objectsOf(world(numbers), reading);
      assert.deepEqual(objects, objectsOf(world(numbers)));
      assert.ok([...objects.values()].filter(object => before.get(object.ref) === object).length >= same);
      before = objects;
    }
    assert.throws(() => before.get(1).fields.list.push(3), TypeError);
    assert.throws(() => { before.get(1).fields.list[0].ref = 3; }, TypeError);
  },
  "the fields of an object are read once, and are seen as any others": () => {
    const stroke = objectsOf(REST).get(2);
    assert.equal(stroke.fields, stroke.fields);
    assert.deepEqual(Object.keys(stroke), ["ref", "class", "fields"]);
    assert.deepEqual(JSON.parse(JSON.stringify(stroke)), { ref: 2, class: "Stroke", fields: { view: 7, name: "a b", points: [1, 2] } });
    assert.throws(() => { stroke.fields = {}; }, TypeError);
  },
  "frames that are told together are sent each for itself": async () => {
    const session = await joined(joins((kind, text) => text === "more" ? { frames: ["one", "two", "three"] } : {}));
    StandInSocket.all[0].say("more");
    assert.deepEqual(StandInSocket.all[0].sent, ["join", "one", "two", "three"]);
    session.shut();
  },
  "a world is written once after each step": async () => {
    let asked = 0;
    const session = await joined(joins(), REST), { world } = session.page;
    session.page.world = () => { asked++; return world.call(session.page); };
    session.world();
    session.digest();
    assert.equal(session.world().get(2), session.world().get(2));
    assert.equal(asked, 1);
    StandInSocket.all[0].say("more");
    session.text();
    assert.equal(asked, 2);
    session.shut();
    assert.throws(() => session.world(), /has ended/);
  },
  "a join sends its frame, and the world is read": async () => {
    const session = await joined(joins(), REST);
    assert.deepEqual(StandInSocket.all[0].sent, ["join"]);
    assert.equal(session.world().size, 2);
    assert.equal(session.digest(), "0a".repeat(32));
    session.shut();
  },
  "events come in order, also where a handler publishes": async () => {
    const seen = [];
    const session = await joined(joins((kind, text) => kind === LINE && text.startsWith("publish") ? { text: 'event 3 "s" "e" 3\n' }
      : kind === FRAME ? { text: 'event 1 "s" "e" 1\nevent 2 "s" "e" 2\n' } : {}));
    session.subscribe("s", "e", (value, time) => { seen.push([value, time]); if (value === 1) session.publish("s", "go"); });
    StandInSocket.all[0].say("more");
    assert.deepEqual(seen, [[1, 1], [2, 2], [3, 3]]);
    session.unsubscribe("s", "e");
    StandInSocket.all[0].say("more");
    assert.equal(seen.length, 3);
    session.shut();
  },
  "a handler that throws stops nothing else": async () => {
    const seen = [], thrown = [];
    const session = await joined(joins((kind, text) => text === "more" ? { text: 'event 1 "s" "e" 1\nevent 2 "s" "e" 2\n' } : {}));
    const caught = fault => thrown.push(fault.message);
    process.on("uncaughtException", caught);
    session.subscribe("s", "e", value => { throw new Error(`at ${value}`); });
    session.subscribe("s", "e", value => seen.push(value));
    session.on("moved", () => { throw new Error("moved"); });
    session.on("moved", () => seen.push("moved"));
    StandInSocket.all[0].say("more");
    await new Promise(done => setTimeout(done, 5));
    process.off("uncaughtException", caught);
    assert.deepEqual(seen, [1, 2, "moved"]);
    assert.deepEqual(thrown, ["at 1", "at 2", "moved"]);
    session.shut();
  },
  "a link that is lost is made again": async () => {
    const session = await joined(joins((kind, text) => text === "again" ? { text: "rejoined 9 4\n" } : {}));
    const told = [];
    session.on("lost", () => told.push("lost"));
    session.on("rejoined", what => told.push(what));
    StandInSocket.all[0].close();
    await until(() => StandInSocket.all.length === 2);
    StandInSocket.all[1].close();
    await until(() => StandInSocket.all.length === 3);
    StandInSocket.all[2].open();
    StandInSocket.all[2].say("again");
    assert.deepEqual(told, ["lost", { seq: 9, from: 4 }]);
    assert.deepEqual(StandInSocket.all[2].sent, ["join"]);
    session.shut();
  },
  "a first link that is not made fails the join": async () => {
    const page = new Page(new StandIn(joins()), new Uint8Array(1), "board", 7);
    const session = new Session(page, { url: "ws://x", socket: () => new StandInSocket(), again: 5, view: 7 });
    StandInSocket.all = [];
    const done = new Promise((done, failed) => { session.joining = { done, failed }; session.connect(); });
    StandInSocket.all[0].close();
    await assert.rejects(done, /no link to ws:\/\/x/);
    assert.throws(() => session.publish("a", "b"), /has ended/);
  },
  "a refusal ends the session": async () => {
    const session = await joined(joins((kind, text) => text === "no" ? { want: 2, end: 7, code: 1, kept: 8n } : {}));
    const told = [];
    session.on("refused", what => told.push(what));
    const waits = session.settled();
    StandInSocket.all[0].say("no");
    await assert.rejects(waits, /has ended/);
    assert.deepEqual(told, [{ code: 1, kept: 8n }]);
    assert.equal(StandInSocket.all[0].readyState, 3);
  },
  "settled, snap and leave are done by their lines": async () => {
    const last = `view 7 time 9 seq 4 digest ${"0b".repeat(32)}`;
    const session = await joined(joins((kind, text) => ({ settle: { text: "settled 3\n" }, snap: { text: "snap-refused 8 0\n" }, quit: { want: 2, text: last + "\n", frames: ["leave"] } })[text] ?? {}));
    assert.equal(await session.settled(), 3);
    await assert.rejects(session.snap(), /refused: 8 0/);
    assert.deepEqual(await session.leave(), { view: 7, time: 9, seq: 4, digest: "0b".repeat(32) });
    assert.deepEqual(StandInSocket.all[0].sent, ["join", "leave"]);
    assert.deepEqual((await session.leave()).time, 9);
  },
  "a line that is none throws, and so does a value that is none": async () => {
    const session = await joined(joins((kind, text) => text.startsWith("publish") ? { text: "bad-line 2\n" } : {}));
    assert.throws(() => session.publish("a", "b", "c"), RangeError);
    assert.throws(() => session.publish("a", "b", "c".repeat(70000)), RangeError);
    assert.throws(() => session.publish("a", "b", [1, [2.5]]), /value\[1\]\[0\]/);
    assert.throws(() => session.publish(1, "b"), /scope: a text/);
    assert.throws(() => session.on("gone", () => {}), /one of/);
    session.shut();
  },
  "want of memory takes another link": async () => {
    const session = await joined(joins((kind, text) => text === "much" ? { status: 8, want: 1 } : text === "settle" ? {} : text === "again" ? { text: "settled 5\n" } : {}));
    const both = [session.settled(), session.settled()], told = [];
    for (const name of ["lost", "rejoined"]) session.on(name, () => told.push(name));
    StandInSocket.all[0].say("much");
    assert.equal(StandInSocket.all.length, 2);
    assert.equal(StandInSocket.all[0].readyState, 3);
    StandInSocket.all[1].open();
    StandInSocket.all[1].say("again");
    StandInSocket.all[1].say("sync");
    assert.deepEqual(await Promise.all(both), [5, 5]);
    assert.deepEqual(told, ["lost", "rejoined"]);
    session.shut();
  },
  "words of a join that are none": async () => {
    for (const words of [{ program: 5 }, { view: 0 }, { view: 2 ** 32 }, { name: 7 }, { url: null }]) {
      await assert.rejects(Session.join({ program: "class Root{}", name: "a", url: "ws://x", view: 1, ...words }), TypeError);
    }
  },
};

let bad = 0;
for (const [name, test] of Object.entries(tests)) {
  try {
    await test();
    console.log(`ok   ${name}`);
  } catch (fault) {
    bad++;
    console.log(`BAD  ${name}: ${fault.stack}`);
  }
}
process.exit(bad ? 1 : 0);
