// Handlers in the test's own process: what they return, how they fail, what they are given.
import assert from "node:assert/strict";
import { createRequire } from "node:module";
import { test } from "node:test";
import lambdaLocal, { FunctionError, start, withService } from "lambda_local";

const failure = (promise) => promise.then(() => assert.fail("it did not fail"), (fault) => fault);

test("invoke gives what the handler returned", () =>
  withService({ greet: async (event) => ({ hello: event.name }) }, async (service) => {
    assert.deepEqual(await service.invoke("greet", { name: "Ada" }), { hello: "Ada" });
  }));

test("an event is {} if none is given", () =>
  withService({ echo: async (event) => event }, async (service) => {
    assert.deepEqual(await service.invoke("echo"), {});
  }));

test("require gives the same as import", () => {
  assert.equal(createRequire(import.meta.url)("lambda_local"), lambdaLocal);
});

test("an error has the type, the message, the trace and what the handler threw", () => {
  const thrown = new RangeError("too far");
  return withService({ bad: async () => { throw thrown; } }, async (service) => {
    const fault = await failure(service.invoke("bad"));
    assert.ok(fault instanceof FunctionError);
    assert.deepEqual([fault.type, fault.message], ["RangeError", "RangeError: too far"]);
    assert.match(fault.trace[0], /^RangeError: too far$/);
    assert.match(fault.trace[1], /handlers\.test\.mjs/);
    assert.equal(fault.cause, thrown);
  });
});

test("what is thrown and no Error is reported by its type", () =>
  withService({ bad: async () => { throw "a string"; } }, async (service) => {
    const { report } = await failure(service.invoke("bad"));
    assert.deepEqual(report, { errorType: "string", errorMessage: "a string", trace: [] });
  }));

test("an output that is not JSON is Lambda's error", () =>
  withService({ bad: async () => 1n }, async (service) => {
    assert.equal((await failure(service.invoke("bad"))).message, "Error: Unable to stringify response body");
  }));

test("a function that is unknown is refused", () =>
  withService({ greet: async () => 1 }, async (service) => {
    assert.equal((await failure(service.invoke("other"))).type, "ResourceNotFoundException");
  }));

test("a handler answers by its callback, or by its context", () => {
  const handlers = {
    back: (event, context, callback) => setImmediate(callback, null, "back"),
    succeed: (event, context) => context.succeed("succeed"),
    fail: (event, context, callback) => callback(new TypeError("fail")),
  };
  return withService(handlers, async (service) => {
    assert.deepEqual([await service.invoke("back"), await service.invoke("succeed")], ["back", "succeed"]);
    assert.equal((await failure(service.invoke("fail"))).type, "TypeError");
  });
});

test("what a handler returns is ignored if it is no promise, as in Lambda", () =>
  withService({ plain: (event) => ({ hello: event.name }) }, async (service) => {
    assert.equal(await service.invoke("plain"), null);
  }));

test("the context is the invocation's", () => {
  const handler = async (event, context) => ({ ...context, left: context.getRemainingTimeInMillis() });
  return withService({ f: { handler, timeout: 5, memory: 256 } }, async (service) => {
    const context = await service.invoke("f");
    assert.match(context.awsRequestId, /^[0-9a-f]{8}-[0-9a-f]{4}-8[0-9a-f]{3}-[0-9a-f]{4}-[0-9a-f]{12}$/);
    assert.equal(context.invokedFunctionArn, "arn:aws:lambda:us-east-1:123456789012:function:f");
    assert.deepEqual([context.functionName, context.functionVersion, context.memoryLimitInMB], ["f", "$LATEST", "256"]);
    assert.ok(context.left > 3000 && context.left <= 5000, String(context.left));
  });
});

test("a handler that takes too long times out, and the next invocation is served", () => {
  let calls = 0;
  const handler = async () => (calls += 1) === 1 ? new Promise((resolve) => setTimeout(resolve, 1500, 1)) : 2;
  return withService({ slow: { handler, timeout: 1 } }, async (service) => {
    assert.match((await failure(service.invoke("slow"))).message, /Timeout/);
    assert.equal(await service.invoke("slow", {}, { patience: 5000 }), 2);
  });
});

test("a function handles as many invocations at once as it has environments", () => {
  let [now, most] = [0, 0];
  const handler = async () => {
    most = Math.max(most, now += 1);
    await new Promise((resolve) => setTimeout(resolve, 200));
    now -= 1;
  };
  return withService({ f: { handler, environments: 2 } }, async (service) => {
    await Promise.all([1, 2, 3, 4].map(() => service.invoke("f", {}, { patience: 5000 })));
    assert.equal(most, 2);
  });
});

test("a throttle that lasts is an error", () => {
  const handler = () => new Promise((resolve) => setTimeout(resolve, 800));
  return withService({ f: handler }, async (service) => {
    const first = service.invoke("f");
    await new Promise((resolve) => setTimeout(resolve, 100));
    assert.match((await failure(service.invoke("f", {}, { patience: 100 }))).type, /TooManyRequests/);
    await first;
  });
});

test("a salt makes the same identifiers", async () => {
  const ids = [];
  for (const salt of [7, 7, 8]) {
    const service = await start({ f: async (event, context) => context.awsRequestId }, { salt });
    ids.push(await service.invoke("f"));
    await service.stop();
  }
  assert.equal(ids[0], ids[1]);
  assert.notEqual(ids[0], ids[2]);
});
