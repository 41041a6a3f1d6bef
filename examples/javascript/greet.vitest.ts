// For vitest (written from its documentation; it is not run by this repository's checks):
//   npx vitest run --dir examples/javascript greet.vitest
import { expect, test } from "vitest";
import { type Service, withService } from "lambda_local";
import { greet } from "./greet.mjs";

test("greets by name", () =>
  withService({ greet }, async (service: Service) => {
    expect(await service.invoke<{ hello: string }>("greet", { name: "Ada" })).toEqual({ hello: "Ada" });
  }));

test("a name is needed", () =>
  withService({ greet }, async (service: Service) => {
    await expect(service.invoke("greet", {})).rejects.toThrow("TypeError: name is missing");
  }));
