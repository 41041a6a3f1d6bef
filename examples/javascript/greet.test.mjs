// For Node's own test runner: node --test examples/javascript/greet.test.mjs
import assert from "node:assert/strict";
import { test } from "node:test";
import { withService } from "lambda_local";
import { greet } from "./greet.mjs";

test("greets by name", () =>
  withService({ greet }, async (service) => {
    assert.deepEqual(await service.invoke("greet", { name: "Ada" }), { hello: "Ada" });
  }));

test("a name is needed", () =>
  withService({ greet }, async (service) => {
    await assert.rejects(service.invoke("greet", {}), { type: "TypeError", message: /name is missing/ });
  }));
