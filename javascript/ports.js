"use strict";
// Free ports of this machine: the system's, or of the range LAMBDA_LOCAL_PORTS=FIRST-LAST.
const net = require("node:net");

const RANGE = "write it as FIRST-LAST, for example 20000-23999";

function rangeOf(words) {
  const found = /^(\d{1,5})-(\d{1,5})$/.exec(words);
  const [first, last] = found ? [Number(found[1]), Number(found[2])] : [0, 0];
  if (first < 1 || first > last || last > 65535) throw new Error(`LAMBDA_LOCAL_PORTS=${words}: ${RANGE}`);
  return Array.from({ length: last - first + 1 }, (_, at) => first + at);
}

function shuffled(values) {
  for (let at = values.length - 1; at > 0; at -= 1) {
    const other = Math.floor(Math.random() * (at + 1));
    [values[at], values[other]] = [values[other], values[at]];
  }
  return values;
}

function listenOn(port) {
  return new Promise((resolve, reject) => {
    const server = net.createServer();
    server.once("error", reject);
    server.listen({ port, host: "127.0.0.1" }, () => resolve(server));
  });
}

async function next(candidates) {
  if (!candidates) return listenOn(0);
  while (candidates.length) {
    const server = await listenOn(candidates.pop()).catch(() => undefined);
    if (server) return server;
  }
  throw new Error(`LAMBDA_LOCAL_PORTS=${process.env.LAMBDA_LOCAL_PORTS}: not enough of these ports are free`);
}

// This many ports that no one listens on now. (All are held until the last is found, so that they differ.)
async function freePorts(count) {
  const words = process.env.LAMBDA_LOCAL_PORTS;
  const candidates = words ? shuffled(rangeOf(words)) : undefined;
  const held = [];
  try {
    while (held.length < count) held.push(await next(candidates));
    return held.map((server) => server.address().port);
  } finally {
    await Promise.all(held.map((server) => new Promise((resolve) => server.close(resolve))));
  }
}

module.exports = { freePorts };
