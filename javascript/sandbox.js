"use strict";
// Where handlers run that share the process of their test: as long as a service runs they have Lambda's variables, the
// service in place of Lambda, dummy credentials, and no way to AWS.
const network = require("./network.js");

// What a client would take in place of the dummies, or read to go elsewhere.
const LEFT_OUT = [
  "AWS_PROFILE", "AWS_DEFAULT_PROFILE", "AWS_SESSION_TOKEN", "AWS_SECURITY_TOKEN", "AWS_ROLE_ARN",
  "AWS_WEB_IDENTITY_TOKEN_FILE", "AWS_CONTAINER_CREDENTIALS_RELATIVE_URI", "AWS_CONTAINER_CREDENTIALS_FULL_URI",
];
const LOCAL = ["127.0.0.1", "localhost"];

// Clients take the first of no_proxy and NO_PROXY that they know: both say that this machine needs no proxy.
function pastProxies() {
  const named = ["http_proxy", "all_proxy"].some((name) => process.env[name] || process.env[name.toUpperCase()]);
  if (!named) return {};
  const others = (process.env.no_proxy || process.env.NO_PROXY || "").split(/[\s,]+/)
    .filter((word) => word && !LOCAL.includes(word));
  const exceptions = others.includes("*") ? "*" : [...others, ...LOCAL].join(",");
  return { no_proxy: exceptions, NO_PROXY: exceptions };
}

function changesOf({ endpointUrl, region, variables, keepCredentials }) {
  const led = { AWS_ENDPOINT_URL_LAMBDA: endpointUrl, AWS_IGNORE_CONFIGURED_ENDPOINT_URLS: "false", ...pastProxies() };
  if (keepCredentials) return { ...led, ...variables };
  return {
    ...Object.fromEntries(LEFT_OUT.map((name) => [name, undefined])), ...led, AWS_REGION: region,
    AWS_DEFAULT_REGION: region, AWS_ACCESS_KEY_ID: "local", AWS_SECRET_ACCESS_KEY: "local", AWS_SESSION_TOKEN: "local",
    ...variables,
  };
}

function set(name, value) {
  if (value === undefined) delete process.env[name];
  else process.env[name] = value;
}

// Those of the services that run, the newest last. The variables are the newest one's, and at the end what they were.
const running = [];
const before = new Map();
let open; // opens the way to AWS again

function apply() {
  for (const [name, value] of before) set(name, value);
  const newest = running[running.length - 1];
  if (!newest) before.clear();
  for (const [name, value] of Object.entries(newest ? changesOf(newest) : {})) {
    if (!before.has(name)) before.set(name, process.env[name]);
    set(name, value);
  }
  const closed = running.filter((each) => !each.keepCredentials);
  if (closed.length && !open) open = network.close(() => running[running.length - 1].endpointUrl);
  if (!closed.length && open) open = open();
}

// Begins one: `endpointUrl`, `region`, the `variables` of the functions, `keepCredentials`. Returns what ends it.
function begin(sandbox) {
  running.push(sandbox);
  if (!before.has("_X_AMZN_TRACE_ID")) before.set("_X_AMZN_TRACE_ID", process.env._X_AMZN_TRACE_ID);
  apply();
  return () => {
    running.splice(running.indexOf(sandbox), 1);
    apply();
  };
}

module.exports = { begin };
