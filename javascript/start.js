"use strict";
// Starts a service: of handlers in this process, or of a file with processes.
const { Runtime } = require("./runtime.js");
const { Service } = require("./service.js");
const { Program } = require("./program.js");
const { Up } = require("./up.js");
const { functionsOf, isObject, variablesOf } = require("./functions.js");
const sandbox = require("./sandbox.js");

const OPTIONS = {
  asynchronous: (value) => typeof value === "boolean" || isObject(value) || "true, or an object such as {retries: 0}",
  keepCredentials: (value) => typeof value === "boolean" || "true or false",
  salt: (value) => Number.isSafeInteger(value) && value >= 0 || "a whole number",
  program: (value) => typeof value === "string" || "the path of a program",
};

function checked(options) {
  for (const [name, value] of Object.entries(options)) {
    if (!(name in OPTIONS)) {
      throw new TypeError(`start: there is no option ${name}: there are ${Object.keys(OPTIONS).join(", ")}`);
    }
    const holds = value === undefined || OPTIONS[name](value);
    if (holds !== true) throw new TypeError(`start: ${name} must be ${holds}`);
  }
  return options;
}

async function start(given, options = {}) {
  if (!isObject(given)) throw new TypeError("start() needs functions, start({NAME: handler}), or {file: \"up.json\"}");
  checked(options);
  return typeof given.file === "string" ? startFile(given.file, options) : startHandlers(given, options);
}

async function startFile(file, options) {
  const host = await Up.ofFile(file, options);
  return new Service(host, options, sandbox.begin({ ...host, ...options, variables: {} }), true);
}

async function startHandlers(given, options) {
  const functions = functionsOf(given);
  const variables = variablesOf(functions);
  // (what takes events is in front of the service, in `lambda_local up`)
  const host = await (options.asynchronous ? Up : Program).ofFunctions(functions, options);
  const service = new Service(host, options, sandbox.begin({ ...host, ...options, variables }));
  const isAlone = host.places.length === 1;
  host.places.forEach(({ name, port }, at) => {
    new Runtime(service, port, functions.get(name), isAlone, at + 1).serve();
  });
  return service;
}

module.exports = { start };
