// What needs `lambda_local up`, and so Python: events, and the functions of a file in processes of their own.
import assert from "node:assert/strict";
import { spawnSync } from "node:child_process";
import fs from "node:fs";
import os from "node:os";
import path from "node:path";
import { test } from "node:test";
import { start, withService } from "lambda_local";

const hasPython = spawnSync("python3", ["-c", "import sys; sys.exit(sys.version_info < (3, 9))"]).status === 0;
const skip = hasPython ? false : "no Python 3.9 is here";
const failure = (promise) => promise.then(() => assert.fail("it did not fail"), (fault) => fault);

// Handlers of every kind, with what Lambda's Node runtime makes of each.
const KINDS = `
exports.returns = async (event) => ({ got: event });
exports.nothing = async () => {};
exports.throws = async () => { throw new TypeError("no"); };
exports.rejects = () => Promise.reject(new RangeError("no"));
exports.text = async () => { throw "text"; };
exports.thrown = () => { throw new Error("at once"); };
exports.named = async () => { throw Object.assign(new Error("no"), { name: "x".repeat(100_000) }); };
exports.nameless = async () => { throw Object.assign(new Error("no"), { name: "" }); };
exports.hidden = async () => { throw Object.defineProperty(new Error(), "message", { get() { throw 1; } }); };
exports.big = async () => 1n;
exports.back = (event, context, callback) => { setTimeout(callback, 5, null, event); };
exports.fails = (event, context, callback) => { callback(new Error("back")); };
exports.succeeds = (event, context) => { context.succeed([1]); };
exports.plain = (event) => event;
`;

function folderWith(files) {
  const folder = fs.mkdtempSync(path.join(os.tmpdir(), "lambda_local.test."));
  for (const [name, text] of Object.entries(files)) fs.writeFileSync(path.join(folder, name), text);
  return folder;
}

async function inFolder(files, test) {
  const folder = folderWith(files);
  try {
    return await test(folder);
  } finally {
    fs.rmSync(folder, { recursive: true });
  }
}

async function outcome(service, name) {
  const result = await service.invoke(name, { a: 1 }).catch(({ type, message }) => ({ type, message }));
  return [name, result];
}

test("a handler comes to the same in this process and in one of its own", { skip }, () =>
  inFolder({ "kinds.cjs": KINDS }, async (folder) => {
    const names = [...KINDS.matchAll(/^exports\.(\w+)/gm)].map(([, name]) => name);
    const { default: kinds } = await import(path.join(folder, "kinds.cjs"));
    const functions = names.map((name) => ({ name, runtime: "node", handler: `kinds.${name}` }));
    fs.writeFileSync(path.join(folder, "up.json"), JSON.stringify({ functions }));
    const outcomes = [];
    for (const given of [kinds, { file: path.join(folder, "up.json") }]) {
      const service = await start(given);
      const found = [];
      for (const name of names) found.push(await outcome(service, name));
      outcomes.push(found);
      await service.stop();
    }
    assert.deepEqual(outcomes[0], outcomes[1]);
    assert.deepEqual(outcomes[0][0], ["returns", { got: { a: 1 } }]);
  }));

test("an event is handled later, and what fails goes to its destination", { skip }, async () => {
  const seen = [];
  const handlers = {
    takes: async (event) => { seen.push(event); },
    fails: async () => { throw new Error("no"); },
  };
  const service = await start(handlers, { asynchronous: { retries: 0, onFailure: "takes" } });
  await service.event("takes", { n: 1 });
  await service.event("fails", { n: 2 });
  await service.stop(); // (which waits until no event is left)
  assert.deepEqual(seen[0], { n: 1 });
  assert.deepEqual(seen[1].requestPayload, { n: 2 });
  assert.match(await service.history(), /invoke fails/);
});

test("an event without `asynchronous` is refused", () =>
  withService({ f: async () => 1 }, async (service) => {
    assert.equal((await failure(service.event("f"))).type, "InvalidParameterValueException");
  }));

test("the functions of an UP.json run in processes, at their URLs too", { skip }, () => {
  const up = { functions: [{ name: "pid", runtime: "node", handler: "app.pid", url: true }] };
  return inFolder({ "app.cjs": "exports.pid = async () => ({ pid: process.pid });", "up.json": JSON.stringify(up) },
    (folder) => withService({ file: path.join(folder, "up.json") }, async (service) => {
      const { pid } = await service.invoke("pid");
      assert.notEqual(pid, process.pid);
      assert.deepEqual(await (await fetch(service.urls.pid)).json(), { pid });
    }));
});

test("the functions of a template run in processes, by its name or by its folder", { skip }, () => {
  const template = {
    AWSTemplateFormatVersion: "2010-09-09", Transform: "AWS::Serverless-2016-10-31",
    Resources: { Greet: { Type: "AWS::Serverless::Function",
      Properties: { FunctionName: "greet", Runtime: "nodejs20.x", Handler: "app.greet", CodeUri: "." } } },
  };
  const app = "exports.greet = async (event) => ({ hello: event.name });";
  return inFolder({ "app.cjs": app, "template.json": JSON.stringify(template) }, async (folder) => {
    for (const file of [path.join(folder, "template.json"), folder]) {
      await withService({ file }, async (service) => {
        assert.deepEqual(await service.invoke("greet", { name: "Ada" }), { hello: "Ada" });
      });
    }
  });
});

test("a mistake in an UP.json is one line", { skip }, () =>
  inFolder({ "up.json": '{"functions":[{"name":"f","timeuot":1}]}' }, async (folder) => {
    const fault = await failure(start({ file: path.join(folder, "up.json") }));
    assert.match(fault.message, /function f: unknown member timeuot, did you mean timeout\?$/);
  }));
