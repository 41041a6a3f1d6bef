// For jest (written from its documentation; it is not run by this repository's checks):
//   NODE_OPTIONS=--experimental-vm-modules npx jest --testMatch '**/greet.jest.mjs'
import { afterAll, beforeAll, expect, test } from "@jest/globals";
import { start, withService } from "lambda_local";
import { greet } from "./greet.mjs";

let service;
beforeAll(async () => { service = await start({ greet }); });
afterAll(() => service.stop());

test("greets by name", async () => {
  expect(await service.invoke("greet", { name: "Ada" })).toEqual({ hello: "Ada" });
});

test("a name is needed", () =>
  withService({ greet }, async (own) => { // a service of its own: if this fails, its error has the timeline
    await expect(own.invoke("greet", {})).rejects.toThrow("TypeError: name is missing");
  }));
