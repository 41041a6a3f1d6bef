// The clock of a service, and a function that is throttled.
import assert from "node:assert/strict";
import { test } from "node:test";
import { start } from "lambda_local";

const failure = (promise) => promise.then(() => assert.fail("it did not fail"), (fault) => fault);
const sleep = (milliseconds) => new Promise((resolve) => setTimeout(resolve, milliseconds));

test("a timeout of 15 minutes takes a moment", async () => {
  let entered;
  const isEntered = new Promise((resolve) => { entered = resolve; });
  const service = await start({ slow: { timeout: 900, handler: async () => { entered(); await sleep(2000); } } });
  const answer = failure(service.invoke("slow"));
  await isEntered;
  await service.clock.advance({ minutes: 15 });
  const fault = await answer;
  assert.equal(fault.type, "Function.Timeout");
  assert.match(fault.message, /Task timed out after 900 seconds/);
  await service.stop();
});

test("a paused clock stands, and is moved", async () => {
  const service = await start({ f: async (event) => event });
  const before = await service.clock.paused(async (clock) => {
    const first = await clock.now();
    await sleep(20);
    assert.equal(await clock.now(), first);
    assert.equal(await clock.isPaused(), true);
    assert.equal(await clock.advance({ seconds: 3, hours: 1 }), first + 3_603_000);
    await clock.paused(async () => {});
    assert.equal(await clock.isPaused(), true);
    return first;
  });
  assert.equal(await service.clock.isPaused(), false);
  assert.ok((await service.clock.now()) >= before + 3_603_000);
  await service.clock.pause();
  await service.stop();
});

for (const [given, message] of [
  [undefined, /give an object/], [3, /give an object/], [{}, /it is 0 milliseconds/],
  [{ seconds: -1 }, /seconds is -1/],
  [{ seconds: "3" }, /seconds is 3: give a number/], [{ weeks: 1 }, /there is no unit weeks/],
  [{ days: Number.MAX_SAFE_INTEGER }, /milliseconds in all/], [{ seconds: NaN }, /seconds is NaN/]]) {
  test(`no advance: ${message.source}`, async () => {
    const service = await start({ f: async () => 1 });
    assert.match((await failure(service.clock.advance(given))).message, message);
    await service.stop();
  });
}

test("a function is throttled for as long as it is said", async () => {
  const service = await start({ f: { environments: 2, reserved: 1, handler: async () => 1 }, g: async () => 2 });
  await service.throttled("f", async () => {
    const fault = await failure(service.invoke("f", {}, { patience: 0 }));
    assert.equal(fault.type, "TooManyRequestsException");
    assert.equal(await service.invoke("g"), 2);
  });
  assert.equal(await service.invoke("f"), 1);
  assert.match(await service.history(), /reserve f 1/);
  assert.match((await failure(service.throttled("h", async () => {}))).message, /Function not found/);
  await service.stop();
});
