"use strict";
// What `start` is given: the functions, their members of a configuration, and their handlers.

const OWN = ["handler", "environments", "memory", "variables"];

function isWhole(value, least, most) {
  return Number.isInteger(value) && value >= least && value <= most;
}

const isObject = (value) => value !== null && typeof value === "object" && !Array.isArray(value);
const isVariables = (value) => isObject(value)
  && Object.values(value).every((each) => ["string", "number", "boolean"].includes(typeof each));

// What a member of this side must be.
const RULES = {
  handler: [(value) => typeof value === "function", "a function of an event, or of an event and its context"],
  environments: [(value) => isWhole(value, 1, 256), "a whole number from 1 to 256"],
  memory: [(value) => isWhole(value, 0, 2 ** 32 - 1), "a whole number of MB"],
  variables: [isVariables, "an object of strings, numbers, true or false"],
};

function checked(name, members) {
  if (!isObject(members)) {
    throw new TypeError(`function ${name}: give a handler, or an object with its handler and other members`);
  }
  for (const [member, [holds, what]] of Object.entries(RULES)) {
    if (member === "handler" ? !holds(members.handler) : member in members && !holds(members[member])) {
      throw new TypeError(`function ${name}: ${member} must be ${what}`);
    }
  }
  if ("environments" in members && "ports" in members) {
    throw new TypeError(`function ${name}: it has ports and environments: leave one of the two out`);
  }
  return members;
}

// The functions, by their names: handler, memory, variables, and `part`, which is for the configuration.
function functionsOf(given) {
  const functions = new Map();
  for (const [name, value] of Object.entries(given)) {
    const members = checked(name, typeof value === "function" ? { handler: value } : value);
    const { handler, environments = 1, memory = 128, variables = {} } = members;
    const others = Object.fromEntries(Object.entries(members).filter(([member]) => !OWN.includes(member)));
    const part = { name, ports: Array(environments).fill(0), ...others };
    functions.set(name, { name, handler, memory, variables, part });
  }
  if (!functions.size) throw new TypeError("start() needs a function: start({NAME: handler})");
  return functions;
}

// The variables of handlers that share one process: their own, and what a function alone reads about itself
// (Developer Guide, "Defined runtime environment variables").
function variablesOf(functions) {
  const found = {};
  const owners = {};
  if (functions.size === 1) {
    const [{ name, memory }] = functions.values();
    Object.assign(found, {
      AWS_LAMBDA_FUNCTION_NAME: name, AWS_LAMBDA_FUNCTION_VERSION: "$LATEST",
      AWS_LAMBDA_FUNCTION_MEMORY_SIZE: String(memory), AWS_LAMBDA_INITIALIZATION_TYPE: "on-demand",
      AWS_LAMBDA_LOG_GROUP_NAME: `/aws/lambda/${name}`, AWS_LAMBDA_LOG_STREAM_NAME: "local/[$LATEST]1",
    });
  }
  for (const { name, variables } of functions.values()) {
    for (const [variable, value] of Object.entries(variables)) {
      const owner = owners[variable] ??= name;
      if (owner !== name && found[variable] !== String(value)) {
        throw new TypeError(`function ${name}: its variable ${variable} is ${value}, and that of function ${owner} is `
          + `${found[variable]}: handlers share the variables of one process: give both the same, or start each in a `
          + "service of its own");
      }
      found[variable] = String(value);
    }
  }
  return found;
}

module.exports = { functionsOf, isObject, variablesOf };
