"use strict";
// A service that runs, as its callers see it.
const http = require("node:http");
const fs = require("node:fs");
const os = require("node:os");
const path = require("node:path");
const { setTimeout: sleep } = require("node:timers/promises");
const { Clock } = require("./clock.js");
const { FunctionError } = require("./function_error.js");
const { run } = require("./child.js");
const { Troubles } = require("./troubles.js");

const PATIENCE = 2000; // milliseconds: a throttle by an environment that is about to ask again is tried again
const FAULTS_KEPT = 100; // the newest of those that no invoke has asked for
const ANSWER = /^# ([0-9]{1,18} [0-9]{1,18} .+)$/;

// One request on a connection of its own.
function ask(endpointUrl, method, route, body = "", headers = {}) {
  const length = method === "GET" ? {} : { "Content-Length": Buffer.byteLength(body) };
  return new Promise((resolve, reject) => {
    const request = http.request(endpointUrl + route, { method, agent: false, headers: { ...headers, ...length } },
      (reply) => {
        const parts = [];
        reply.on("data", (part) => parts.push(part));
        reply.on("error", reject);
        reply.on("end", () => resolve({
          status: reply.statusCode, headers: reply.headers, text: Buffer.concat(parts).toString() }));
      });
    request.on("error", reject);
    request.end(body);
  });
}

function parsed(text) {
  try {
    return JSON.parse(text || "null");
  } catch {
    return text;
  }
}

class Service {
  // `host` is what serves: its endpointUrl, child and end(). `isOfFile`: functions have processes of their own.
  constructor(host, options, leaveSandbox, isOfFile = false) {
    Object.assign(this, { endpointUrl: host.endpointUrl, urls: host.urls ?? {} });
    this.clock = new Clock((method, route) => {
      this.refuseEnded();
      return ask(this.endpointUrl, method, route);
    });
    const troubles = new Troubles(this, isOfFile);
    Object.defineProperty(this, "own", {
      value: { host, options, leaveSandbox, troubles, faults: new Map(), isStopped: false } });
  }

  hasEnded() {
    return this.own.isStopped || this.own.host.child.status !== undefined;
  }

  refuseEnded() {
    if (this.own.isStopped) throw new Error("the service was stopped");
    if (this.hasEnded()) throw new Error(`the service has ended: ${this.own.host.child.lines.slice(-1)}`);
  }

  // What a handler threw, until its caller asks.
  keep(request, fault) {
    const { faults } = this.own;
    faults.set(request, fault);
    if (faults.size > FAULTS_KEPT) faults.delete(faults.keys().next().value);
  }

  // What the function returned. FunctionError if it failed, or if the service refused.
  async invoke(name, event = {}, { patience = PATIENCE } = {}) {
    const end = Date.now() + patience;
    for (;;) {
      const { status, headers, text } = await this.request(name, event);
      if (status === 200 && !headers["x-amz-function-error"]) return parsed(text);
      if (status === 200) {
        const id = headers["x-amzn-requestid"];
        const cause = this.own.faults.get(id);
        this.own.faults.delete(id);
        throw new FunctionError(parsed(text), cause);
      }
      if (status !== 429 || Date.now() > end) throw this.refusal(headers, text);
      await sleep(5);
    }
  }

  // Invokes it asynchronously: the service keeps the event, and tries it again if it fails.
  async event(name, event = {}) {
    const { status, headers, text } = await this.request(name, event, { "X-Amz-Invocation-Type": "Event" });
    if (status !== 202) throw this.refusal(headers, text);
  }

  async request(name, event, headers = {}) {
    this.refuseEnded();
    const route = `/2015-03-31/functions/${encodeURIComponent(name)}/invocations`;
    return ask(this.endpointUrl, "POST", route, JSON.stringify(event), headers);
  }

  refusal(headers, text) {
    const body = parsed(text);
    return new FunctionError({
      errorType: headers["x-amzn-errortype"], errorMessage: body?.message ?? body?.Message ?? text });
  }

  // Does this while the function's reservation is 0, so that its callers get 429. Returns what this gave.
  async throttled(name, work) {
    const function_ = encodeURIComponent(name);
    const { status, headers, text } = await this.asked("GET", `/2019-09-30/functions/${function_}/concurrency`);
    if (status !== 200) throw this.refusal(headers, text);
    const before = JSON.parse(text).ReservedConcurrentExecutions;
    await this.reserve(function_, 0);
    try {
      return await work();
    } finally {
      if (!this.hasEnded()) await this.reserve(function_, before);
    }
  }

  // Invokes it, and lets its time go by. Returns the report that its caller gets.
  async timesOut(name, event = {}) {
    return this.own.troubles.report(name, event, "timeout");
  }

  // Invokes it with a runtime that ends. Returns the report that its caller gets.
  async crashes(name, event = {}) {
    return this.own.troubles.report(name, event, "crash");
  }

  // Ends its environments, so that the next invocations find new ones. Returns how many there were.
  async cold(name) {
    return this.own.troubles.cold(name);
  }

  // The same, and its next Init takes so long: one that an invocation waits for, which moves the clock.
  async slowInit(name, seconds) {
    return this.own.troubles.slowInit(name, seconds);
  }

  async reserve(name, count) {
    const route = `/2017-10-31/functions/${name}/concurrency`;
    const { status, headers, text } = await (count === undefined ? this.asked("DELETE", route)
      : this.asked("PUT", route, JSON.stringify({ ReservedConcurrentExecutions: count })));
    if (status !== 200 && status !== 204) throw this.refusal(headers, text);
  }

  async asked(method, route, body) {
    this.refuseEnded();
    return ask(this.endpointUrl, method, route, body);
  }

  // The counts of the service.
  async stats() {
    return JSON.parse(await this.local("stats"));
  }

  async local(route) {
    this.refuseEnded();
    const { status, text } = await ask(this.endpointUrl, "GET", `/_local/${route}`);
    if (status !== 200) throw new Error(`GET /_local/${route}: ${status} ${text}`);
    return text;
  }

  // The text of the history; after the stop, the whole of it.
  async history() {
    return this.own.history ?? this.local("history");
  }

  // What happened, entry by entry, as docs/trace.md has it.
  async trace() {
    return (await this.local("trace")).split("\n").filter(Boolean).map((line) => JSON.parse(line));
  }

  // The timeline of what happened, as lines. It needs Python 3.9.
  async timeline() {
    const folder = fs.mkdtempSync(path.join(os.tmpdir(), "lambda_local."));
    try {
      const file = path.join(folder, "history.txt");
      fs.writeFileSync(file, await this.history(), { mode: 0o600 });
      const { status, output, lines } = await run(["timeline", "--text", file], this.own.options);
      return status === 0 ? output : `there is no timeline: ${lines.slice(-1)}`;
    } finally {
      fs.rmSync(folder, { recursive: true, force: true });
    }
  }

  // Stops it in order, and checks that it ended well and that its history replays to its own answers. A further call
  // waits for the same end, whose fault the first one tells.
  async stop() {
    if (this.own.stopping) return this.own.stopping.catch(() => {});
    this.own.stopping = this.end();
    return this.own.stopping;
  }

  async end() {
    const { host } = this.own;
    try {
      if (host.child.status === undefined) {
        await ask(this.endpointUrl, "POST", "/_local/clock/resume"); // (a stop would wait in a pause)
        this.own.history = await this.local("history");
      }
      this.own.isStopped = true;
      const status = await host.end(this);
      if (status !== 0) throw new Error(`the service ended with ${status}: ${host.child.lines.slice(-1)}`);
    } finally {
      this.own.isStopped = true;
      await host.child.kill();
      this.own.leaveSandbox();
      host.leave?.();
    }
    await this.compare();
  }

  async compare() {
    if (this.own.history === undefined) throw new Error("the service had ended before its stop, with its history");
    const saved = this.own.history.split("\n").map((line) => ANSWER.exec(line)?.[1]).filter(Boolean);
    const { status, output, lines } = await run(["replay"], { ...this.own.options, input: this.own.history });
    const replayed = output.split("\n").slice(0, -1);
    const first = saved.findIndex((answer, at) => answer !== replayed[at]);
    if (status !== 0) throw new Error(`the replay of the history ended with ${status}: ${lines.slice(-1)}`);
    if (first >= 0 || saved.length !== replayed.length) {
      const at = first < 0 ? Math.min(saved.length, replayed.length) : first;
      throw new Error(`the history does not replay to its own answers: ${saved[at]}, and the replay ${replayed[at]}`);
    }
  }
}

if (Symbol.asyncDispose) {
  Object.defineProperty(Service.prototype, Symbol.asyncDispose, { value() { return this.stop(); } });
}

module.exports = { Service, ask };
