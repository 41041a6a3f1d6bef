// Trouble by name: timeouts, crashes, cold starts and slow Inits, of handlers here and of a file's functions.
import assert from "node:assert/strict";
import fs from "node:fs";
import os from "node:os";
import path from "node:path";
import { test } from "node:test";
import { start } from "lambda_local";

// Until the function's processes wait for work, also on a slow machine.
async function rests(service) {
  for (let at = 0; at < 3000; at++) {
    const { environments } = await (await fetch(`${service.endpointUrl}/_local/environments`)).json();
    if (environments.every((one) => one.phase === "idle")) return;
    await new Promise((resolve) => setTimeout(resolve, 20));
  }
}

const failure = (promise) => promise.then(() => assert.fail("it did not fail"), (fault) => fault);

test("a function that times out is not called, and goes on", async () => {
  const seen = [];
  const service = await start({ f: { timeout: 900, handler: async (event) => { seen.push(event); return 1; } } });
  const report = await service.timesOut("f", { id: 7 });
  assert.equal(report.errorType, "Function.Timeout");
  assert.match(report.errorMessage, /Task timed out after 900 seconds$/);
  assert.deepEqual(seen, []);
  assert.equal(await service.invoke("f", { id: 8 }), 1);
  assert.deepEqual(seen, [{ id: 8 }]);
  await service.stop();
});

test("a function that crashes starts anew", async () => {
  const service = await start({ f: { environments: 2, handler: async () => 1 }, g: async () => 2 });
  const wanted = { errorMessage: "Runtime exited with error: exit status 1", errorType: "Runtime.ExitError" };
  assert.deepEqual(await service.crashes("f"), wanted);
  assert.equal(await service.invoke("g"), 2);
  assert.equal(await service.invoke("f"), 1);
  assert.deepEqual(await Promise.all([service.crashes("f"), service.crashes("f")]), [wanted, wanted]);
  assert.equal(await service.invoke("f"), 1);
  assert.match(await service.history(), /spindown 1/);
  await service.stop();
});

test("a cold start has another environment", async () => {
  const service = await start({ f: { environments: 2, handler: async () => 1 } });
  await service.invoke("f");
  assert.ok(await service.cold("f") >= 1);
  assert.equal(await service.invoke("f"), 1);
  await service.stop();
});

test("an Init takes as long as it is said", async () => {
  const service = await start({ f: { timeout: 900, handler: async () => 1 } });
  await service.slowInit("f", 8);
  const before = await service.clock.now();
  assert.equal(await service.invoke("f"), 1);
  assert.ok(await service.clock.now() - before >= 8000);
  await service.slowInit("f", 11);
  const fault = await failure(service.invoke("f"));
  assert.equal(fault.type, "Init.Timeout");
  assert.match(fault.message, /Init timed out after 10 seconds/);
  assert.equal(await service.invoke("f"), 1);
  await service.stop();
});

test("what cannot be is said", async () => {
  const service = await start({ f: async () => 1 });
  for (const name of ["timesOut", "crashes", "cold"]) {
    assert.match((await failure(service[name]("h"))).message, /there is no function h: there are f/);
  }
  assert.match((await failure(service.slowInit("h", 1))).message, /there is no function h/);
  for (const seconds of [0, -1, 901, "3", NaN, undefined]) {
    assert.match((await failure(service.slowInit("f", seconds))).message, /give a number of seconds, up to 900/);
  }
  await service.stop();
});

test("functions of a file have it in their own processes", async () => {
  const folder = fs.mkdtempSync(path.join(os.tmpdir(), "lambda_local.test."));
  try {
    fs.writeFileSync(path.join(folder, "index.js"), "exports.run = async () => process.pid;\n");
    const file = path.join(folder, "up.json");
    fs.writeFileSync(file, JSON.stringify({ functions: [
      { name: "f", runtime: "node", handler: "index.run", timeout: 900, environments: 1 }] }));
    const service = await start({ file });
    const first = await service.invoke("f");
    assert.equal((await service.timesOut("f")).errorType, "Function.Timeout");
    await rests(service);
    assert.notEqual(await service.invoke("f"), first);
    await rests(service);
    assert.deepEqual(await service.crashes("f"),
      { errorMessage: "Runtime exited with error: signal: killed", errorType: "Runtime.ExitError" });
    await rests(service);
    const third = await service.invoke("f");
    assert.equal(await service.cold("f"), 1);
    await rests(service);
    assert.notEqual(await service.invoke("f"), third);
    assert.match((await failure(service.slowInit("f", 1))).message, /handlers in this process/);
    await service.stop();
  } finally {
    fs.rmSync(folder, { recursive: true, force: true });
  }
});
