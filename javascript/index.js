"use strict";
// lambda_local for tests in JavaScript: a service on free ports, whose handlers run in the test's own process, or whose
// functions run in processes of their own.
//
//   const lambdaLocal = require("lambda_local");
//   const service = await lambdaLocal.start({ greet: async (event) => ({ hello: event.name }) });
//   await service.invoke("greet", { name: "Ada" }); // { hello: "Ada" }
//   await service.stop();
//
// It speaks to the released program: docs/javascript.md has all of it, index.d.ts the types.
const { FunctionError } = require("./function_error.js");
const { ReachesAWS } = require("./network.js");
const { Service } = require("./service.js");
const { start } = require("./start.js");
const { withService } = require("./failed_test.js");

module.exports = { start, withService, Service, FunctionError, ReachesAWS };
