"use strict";
// The way to AWS, closed: while a service runs, no connection to a host of AWS is made, also not by a client that was
// made before; what an SDK sends to Lambda by HTTPS goes to the service.
const http = require("node:http");
const https = require("node:https");
const { syncBuiltinESMExports } = require("node:module");
const net = require("node:net");

// The hosts of AWS, as tools/lambda_local/aws_hosts.py has them.
const HOSTS = [
  "amazonaws.com", "amazonaws.com.cn", "amazonaws.eu", "api.aws", "on.aws", "api.amazonwebservices.com.cn",
  "api.amazonwebservices.eu", "c2s.ic.gov", "api.aws.ic.gov", "sc2s.sgov.gov", "api.aws.scloud", "cloud.adc-e.uk",
  "api.cloud-aws.adc-e.uk", "csp.hci.ic.gov", "api.aws.hci.ic.gov",
];

class ReachesAWS extends Error {
  constructor(host) {
    super(`not sent to AWS: ${host}: mock it, give its client an endpoint of this machine, or start(.., `
      + "{keepCredentials: true}) to let it through");
    this.name = "ReachesAWS";
    this.code = "ERR_REACHES_AWS";
    this.host = host;
  }
}

const plain = (host) => String(host ?? "").toLowerCase().replace(/\.$/, "");
const isOfAWS = (host) => HOSTS.some((name) => plain(host) === name || plain(host).endsWith(`.${name}`));
const isOfLambda = (host) => isOfAWS(host) && ["lambda", "lambda-fips"].includes(plain(host).split(".")[0]);

// The host of the arguments of Socket.connect: what net has normalized, an object, or a port and a host.
function hostOfConnect(words) {
  const [first, second] = Array.isArray(words[0]) ? words[0] : words;
  if (first !== null && typeof first === "object") return first.host ?? first.servername;
  return typeof second === "string" ? second : undefined;
}

// The arguments of http.request as options and what is called back.
function optionsOf([first, second, third]) {
  const callback = [second, third].find((word) => typeof word === "function");
  const url = typeof first === "string" ? new URL(first) : first instanceof URL ? first : undefined;
  if (!url) return [first ?? {}, callback];
  const of = { hostname: url.hostname, port: url.port, path: url.pathname + url.search, method: "GET" };
  return [{ ...of, ...(typeof second === "object" ? second : {}) }, callback];
}

function withoutHost(headers) {
  const pairs = Array.isArray(headers) ? [] : Object.entries(headers ?? {});
  return Object.fromEntries(pairs.filter(([name]) => name.toLowerCase() !== "host"));
}

// https.request in whose place requests to Lambda go to this endpoint.
function led(original, endpoint) {
  return function request(...words) {
    const [options, callback] = optionsOf(words);
    if (!isOfLambda(options.hostname ?? options.host)) return original.apply(this, words);
    const { hostname, port, host } = new URL(endpoint());
    const given = { ...options, protocol: "http:", host: hostname, hostname, port, defaultPort: 80, agent: false,
      headers: { ...withoutHost(options.headers), host } };
    return http.request(given, callback);
  };
}

function refusing(original) {
  return function connect(...words) {
    const host = hostOfConnect(words);
    if (!isOfAWS(host)) return original.apply(this, words);
    setImmediate(() => this.destroy(new ReachesAWS(host))); // (once whoever connects listens for its errors)
    return this;
  };
}

// Closes it, for services whose newest says its endpoint. Returns what opens it again.
function close(endpoint) {
  const before = { request: https.request, get: https.get, connect: net.Socket.prototype.connect };
  const request = led(before.request, endpoint);
  https.request = request;
  https.get = function get(...words) {
    const made = request.apply(this, words);
    made.end();
    return made;
  };
  net.Socket.prototype.connect = refusing(before.connect);
  syncBuiltinESMExports(); // (for modules that have imported them by name)
  return () => {
    https.request = before.request;
    https.get = before.get;
    net.Socket.prototype.connect = before.connect;
    syncBuiltinESMExports();
  };
}

module.exports = { HOSTS, ReachesAWS, close };
