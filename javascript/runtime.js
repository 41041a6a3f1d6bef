"use strict";
// The runtime of one environment, for a handler in this process: it asks for an invocation, calls the handler as
// Lambda's Node runtime does, and posts what it comes to. (examples/runtime.mjs is that of processes: a handler comes
// to the same in both.)
const http = require("node:http");
const util = require("node:util");
const { setTimeout: sleep } = require("node:timers/promises");

const RUNTIME = "/2018-06-01/runtime/invocation/";
const PAUSE = 20; // milliseconds, until an environment that was reset is asked again
// In characters: a report of more than 6 MiB is refused, and its caller waits for the timeout.
const [MESSAGE_LIMIT, TYPE_LIMIT] = [100_000, 1000];

// As Lambda's Node runtime reports it, whatever was thrown.
function reportOf(fault) {
  const cut = (told) => {
    try {
      return String(told()).slice(0, MESSAGE_LIMIT);
    } catch {
      return "(it cannot be had)";
    }
  };
  if (!util.types.isNativeError(fault)) return { errorType: typeof fault, errorMessage: cut(() => fault), trace: [] };
  const [errorType, errorMessage] = [cut(() => fault.name), cut(() => fault.message)];
  return { errorType, errorMessage, trace: cut(() => fault.stack).split("\n") };
}

// Its type as a header: a category and a reason, such as Runtime.TypeError. What no header has, or is very long, is
// Runtime.Unhandled.
function typeHeader({ errorType }) {
  const type = /^[!-~](?:[ -~]*[!-~])?$/.test(errorType) && errorType.length <= TYPE_LIMIT ? errorType : "Unhandled";
  return { "Lambda-Runtime-Function-Error-Type": type.includes(".") ? type : `Runtime.${type}` };
}

// What a handler may ask of its invocation (Developer Guide, "Using the Lambda context object to retrieve Node.js
// function information").
function contextOf(headers, memory, done) {
  const invokedFunctionArn = headers["lambda-runtime-invoked-function-arn"];
  const functionName = invokedFunctionArn.split(":")[6];
  const deadline = Number(headers["lambda-runtime-deadline-ms"]);
  return {
    callbackWaitsForEmptyEventLoop: true, functionName, functionVersion: "$LATEST", memoryLimitInMB: String(memory),
    logGroupName: `/aws/lambda/${functionName}`, logStreamName: "local/[$LATEST]1", clientContext: undefined,
    identity: undefined, invokedFunctionArn, awsRequestId: headers["lambda-runtime-aws-request-id"],
    getRemainingTimeInMillis: () => Math.max(0, deadline - Date.now()),
    done, succeed: (output) => done(null, output), fail: (fault) => done(fault ?? "handled"),
  };
}

// The handler's output. A handler that returns no promise answers by its callback or its context; one that has no
// parameter for a callback, and has not answered when it returns, answers null: what it returns is ignored, as in
// Lambda.
function outputOf({ name, handler, memory }, text, headers) {
  return new Promise((resolve, reject) => {
    const done = (fault, output) => (fault === null || fault === undefined ? resolve(output) : reject(fault));
    const context = contextOf(headers, memory, done);
    const result = handler(JSON.parse(text), context, done);
    if (typeof result?.then === "function") {
      result.then(resolve, reject);
    } else if (handler.length < 3) {
      if (result !== undefined) {
        process.stderr.write(`lambda_local: ${name}: its handler returned a value, and no promise of one, which Lambda `
          + "ignores: make it async\n");
      }
      resolve(null);
    }
  });
}

function textOf(output) {
  try {
    return JSON.stringify(output) ?? "null";
  } catch (cause) {
    throw new Error("Unable to stringify response body", { cause });
  }
}

class Runtime {
  // `owner` is asked whether it has ended, and keeps what a handler threw; `number` is the environment's.
  constructor(owner, port, its, setsTrace, number) {
    Object.assign(this, { owner, port, its, setsTrace, number });
    this.agent = new http.Agent({ keepAlive: true, maxSockets: 1 });
  }

  ask(method, route, body = "", headers = {}) {
    const length = method === "POST" ? { "Content-Length": Buffer.byteLength(body) } : {};
    const options = { host: "127.0.0.1", port: this.port, method, path: RUNTIME + route, agent: this.agent,
      headers: { ...headers, ...length } };
    return new Promise((resolve, reject) => {
      const request = http.request(options, (reply) => {
        const parts = [];
        reply.on("data", (part) => parts.push(part));
        reply.on("error", reject);
        reply.on("end", () => resolve({
          status: reply.statusCode, headers: reply.headers, text: Buffer.concat(parts).toString() }));
      });
      request.on("socket", (socket) => (method === "GET" ? socket.unref() : socket.ref())); // (a Next holds no process)
      request.on("error", reject);
      request.end(body);
    });
  }

  async serve() {
    while (!this.owner.hasEnded()) {
      await this.owner.own.troubles.holdInit(this.its.name, this.number).catch(() => {});
      await this.generation().catch(() => {}); // (the service resets it, or is off)
      await sleep(PAUSE, undefined, { ref: false });
    }
    this.agent.destroy();
  }

  // Handles invocations until the environment closes.
  async generation() {
    for (;;) {
      const { status, headers, text } = await this.ask("GET", "next");
      if (status !== 200) return;
      const id = headers["lambda-runtime-aws-request-id"];
      const [kind, body, type] = await this.outcome(id, text, headers);
      const answer = await this.ask("POST", `${id}/${kind}`, body, type);
      if (answer.status === 500) return; // the container error, as for a Next
      // 413, too large, or 403, too late: the environment goes on with the next invocation.
      if (answer.status !== 202) {
        process.stderr.write(`lambda_local: ${this.its.name}: the ${kind} to ${id} is refused: ${answer.text}\n`);
      }
    }
  }

  async outcome(id, text, headers) {
    if (this.setsTrace && headers["lambda-runtime-trace-id"]) {
      process.env._X_AMZN_TRACE_ID = headers["lambda-runtime-trace-id"];
    }
    const { troubles } = this.owner.own;
    const trouble = troubles.kindOf(this.its.name);
    if (trouble === "timeout") {
      await troubles.timeOut(Number(headers["lambda-runtime-deadline-ms"]));
      throw new Error("its time is over"); // (the runtime begins anew, as one that was killed)
    }
    if (trouble === "crash") {
      const report = troubles.crash(this.its.name, this.number);
      return ["error", JSON.stringify(report), typeHeader(report)];
    }
    try {
      return ["response", textOf(await outputOf(this.its, text, headers)), {}];
    } catch (fault) {
      this.owner.keep(id, fault);
      const report = reportOf(fault);
      return ["error", JSON.stringify(report), typeHeader(report)];
    }
  }
}

module.exports = { Runtime, reportOf };
