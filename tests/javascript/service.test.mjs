// The service itself: its start, its history, its stop, and what is left.
import assert from "node:assert/strict";
import { spawn, spawnSync } from "node:child_process";
import fs from "node:fs";
import os from "node:os";
import path from "node:path";
import { test } from "node:test";
import { fileURLToPath } from "node:url";
import { start, withService } from "lambda_local";

const HERE = path.dirname(fileURLToPath(import.meta.url));
const ROOT = path.join(HERE, "..", "..");
const greet = async (event) => ({ hello: event.name });
const failure = (promise) => promise.then(() => assert.fail("it did not fail"), (fault) => fault);
const sleep = (milliseconds) => new Promise((resolve) => setTimeout(resolve, milliseconds));

const WRONG = [
  [{}, undefined, /start\(\) needs a function/],
  [undefined, undefined, /start\(\) needs functions/],
  [{ f: 1 }, undefined, /function f: give a handler, or an object/],
  [{ f: {} }, undefined, /function f: handler must be a function/],
  [{ f: { handler: greet, environments: 0 } }, undefined, /f: environments must be a whole number from 1 to 256/],
  [{ f: { handler: greet, environments: 1, ports: [0] } }, undefined, /it has ports and environments/],
  [{ f: { handler: greet, variables: { A: null } } }, undefined, /function f: variables must be/],
  [{ f: { handler: greet, timeout: 0 } }, undefined, /function f: timeout must be from 1 to 900 seconds, not 0/],
  [{ f: { handler: greet, timeuot: 1 } }, undefined, /function f: unknown member timeuot/],
  [{ f: greet, g: { handler: greet, variables: { A: 1 } }, h: { handler: greet, variables: { A: 2 } } }, undefined,
    /function h: its variable A is 2, and that of function g is 1/],
  [{ f: greet }, { colour: 1 }, /there is no option colour/],
  [{ f: greet }, { salt: -1 }, /salt must be a whole number/],
  [{ f: greet }, { program: "/nowhere" }, /\/nowhere/],
  [{ file: "/nowhere.yaml" }, undefined, /\/nowhere\.yaml: ENOENT/],
];
for (const [given, options, message] of WRONG) {
  test(`a mistake is named: ${message.source}`, async () => {
    const fault = await failure(start(given, options));
    assert.match(fault.message, message);
    assert.doesNotMatch(fault.message, /\n/);
  });
}

test("the history replays, and has each call", async () => {
  const service = await start({ greet });
  await service.invoke("greet", { name: "Ada" });
  assert.match(await service.history(), /invoke greet - - =\{"name":"Ada"\}/);
  assert.equal((await service.stats()).admitted, 1);
  const kinds = (await service.trace()).map((entry) => entry.call.kind);
  assert.deepEqual(kinds.filter((kind) => kind === "invoke"), ["invoke"]);
  await service.stop();
  assert.match(await service.history(), /output =\{"hello":"Ada"\}/);
  assert.equal(service.counts, "admitted 1 throttled 0 failed 0");
});

test("the timeline is lines", () =>
  withService({ greet }, async (service) => {
    await service.invoke("greet", { name: "Ada" });
    assert.match(await service.timeline(), /caller 1: invoke greet/);
  }));

test("the error of a failed test has the history and the timeline, and keeps its own words", async () => {
  const fault = await failure(withService({ greet }, async (service) => {
    assert.deepEqual(await service.invoke("greet", { name: "Ada" }), { hello: "Bo" });
  }));
  assert.equal(fault.code, "ERR_ASSERTION");
  for (const text of [fault.message, fault.stack]) {
    assert.match(text, /lambda_local history: \S+history\.txt\nform 2\n/);
    assert.match(text, /lambda_local timeline: \S+timeline\.txt\n[^]*caller 1: invoke greet/);
    assert.match(text, /'Bo'/);
  }
  fs.rmSync(path.dirname(/history: (\S+)/.exec(fault.message)[1]), { recursive: true });
});

test("a service that was stopped says so, and may be stopped again", async () => {
  const service = await start({ greet });
  await service.stop();
  await service.stop();
  assert.ok(service.hasEnded());
  assert.equal((await failure(service.invoke("greet"))).message, "the service was stopped");
});

test("whoever stops a service waits for its end, and stops no other one", async () => {
  const [first, second] = [await start({ greet }), await start({ greet })];
  const endpoint = process.env.AWS_ENDPOINT_URL_LAMBDA;
  assert.equal(endpoint, second.endpointUrl);
  const stopping = first.stop();
  await first.stop();
  assert.equal(first.counts, "admitted 0 throttled 0 failed 0");
  await stopping;
  await Promise.all([first.stop(), first.stop()]);
  assert.equal(process.env.AWS_ENDPOINT_URL_LAMBDA, endpoint);
  await second.stop();
});

test("two services run beside one another", () =>
  withService({ one: async () => 1 }, (first) => withService({ two: async () => 2 }, async (second) => {
    assert.deepEqual([await first.invoke("one"), await second.invoke("two")], [1, 2]);
  })));

const serving = (mark) => fs.readdirSync("/proc").filter((name) => /^\d+$/.test(name)).filter((pid) => {
  try {
    return fs.readFileSync(`/proc/${pid}/environ`, "utf8").split("\0").includes(`MARK=${mark}`);
  } catch {
    return false;
  }
});

const FILE = `{file: ${JSON.stringify(path.join(ROOT, "examples", "up.json"))}}`;
for (const [what, given] of [["handlers", "{f: async () => 1}"], ["a file", FILE]]) {
  test(`nothing is left of ${what} after kill -9 of the test's process`, async () => {
    const mark = `${process.pid}.${Math.random()}`;
    const text = `require("lambda_local").start(${given}).then(() => console.log("ready")); setInterval(() => {}, 99);`;
    const folder = fs.mkdtempSync(path.join(os.tmpdir(), "lambda_local.test."));
    const env = { ...process.env, MARK: mark, TMPDIR: folder };
    const child = spawn(process.execPath, ["-e", text], { cwd: ROOT, env });
    await new Promise((resolve) => { child.stdout.once("data", resolve); });
    assert.ok(serving(mark).length > 1);
    child.kill("SIGKILL");
    const left = () => [...serving(mark), ...fs.readdirSync(folder)];
    for (let turn = 0; turn < 400 && left().length; turn += 1) await sleep(50);
    assert.deepEqual(left(), []);
    fs.rmdirSync(folder);
  });
}

test("a process that forgets its service ends", () => {
  const text = `require("lambda_local").start({ f: async () => 1 })
    .then((service) => service.invoke("f")).then(console.log)`;
  const options = { cwd: ROOT, timeout: 60_000, encoding: "utf8" };
  const { status, stdout } = spawnSync(process.execPath, ["-e", text], options);
  assert.deepEqual([status, stdout], [0, "1\n"]);
});
