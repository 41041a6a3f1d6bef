#!/usr/bin/env node
// Serves a handler as Lambda's own Node runtime does, with nothing else installed.
//
// usage: examples/runtime.mjs [HANDLER] [ADDRESS]
//   HANDLER  in Lambda's notation, app.handler or folder/app.handler, found from LAMBDA_TASK_ROOT, else from the folder
//            you are in: an ES module (.mjs, or .js below a package.json of type "module") or CommonJS (.js, .cjs)
//            (default: _HANDLER, else one that greets)
//   ADDRESS  the environment's, such as 127.0.0.1:9001 (default: AWS_LAMBDA_RUNTIME_API, else this one)
//
// A handler is async, or calls back. What it throws is printed, and reported with its trace. An Init that fails is
// reported too, and ends the runtime with status 1. It ends with 0 once its environment shuts down: start it again
// then, as Lambda does. What the console gets is printed in Lambda's form: AWS_LAMBDA_LOG_FORMAT is Text or JSON, and
// AWS_LAMBDA_LOG_LEVEL the lowest level that is printed.
import { spawnSync } from "node:child_process";
import fs from "node:fs";
import { createRequire } from "node:module";
import net from "node:net";
import path from "node:path";
import { Writable } from "node:stream";
import { finished } from "node:stream/promises";
import { pathToFileURL } from "node:url";
import util from "node:util";

const RUNTIME = "/2018-06-01/runtime/";
// In characters: a report of more than 6 MiB is refused, and its caller waits for the timeout.
const [MESSAGE_LIMIT, TYPE_LIMIT] = [100_000, 1000];

const NO_ROOT = "Root=1-00000000-000000000000000000000000";

const words = process.argv.slice(2);
const isAddress = (word) => /:\d+$/.test(word);
const variable = (name, otherwise) => process.env[name] || otherwise;
const ADDRESS = words.find(isAddress) ?? variable("AWS_LAMBDA_RUNTIME_API", "127.0.0.1:9001");
const HANDLER = words.find((word) => !isAddress(word)) ?? variable("_HANDLER", "");
const ROOT = variable("LAMBDA_TASK_ROOT", process.cwd());
const require = createRequire(import.meta.url);

// A fault that the runtime itself names, as Lambda's does: its trace is that of its cause, or the lines that are given.
class RuntimeFault extends Error {
  constructor(name, message, { cause, lines = cause?.stack ?? "" } = {}) {
    super(message);
    this.name = `Runtime.${name}`;
    this.stack = lines.startsWith(message) ? `${this.name}: ${lines}` : `${this.name}: ${message}\n${lines}`.trimEnd();
  }
}

// --- the Runtime API ---

const STATUS_LINE = /^HTTP\/1\.([01]) ([1-9][0-9]{2})(?: [\t -~\x80-\xff]*)?$/;
const FIELD = /^([!#$%&'*+.^_`|~0-9A-Za-z-]+):([\t -~\x80-\xff]*)$/;
const CHUNK = /^([0-9A-Fa-f]{1,8})(?:[ \t]*;[\t -~\x80-\xff]*)?$/;
const [MOST_OF_HEAD, MOST_OF_BODY] = [64 << 10, 16 << 20]; // bytes; an event has at most 6 MiB
const MOST_LINES = 100; // heads before the one that counts, and trailers

// What no Runtime API answers.
class WrongAnswer extends Error {}

// What came of an answer and was not taken yet. What takes of it waits by `yield` for more.
class Bytes {
  constructor() {
    [this.parts, this.size, this.hasEnded] = [[], 0, false];
  }

  push(part) {
    this.parts.push(part);
    this.size += part.length;
  }

  // The first bytes, without those that follow them and are left out.
  take(count, leftOut = 0) {
    const whole = this.parts.length === 1 ? this.parts[0] : Buffer.concat(this.parts);
    [this.parts, this.size] = [[whole.subarray(count + leftOut)], whole.length - count - leftOut];
    return whole.subarray(0, count);
  }

  // What comes before this mark.
  *until(mark) {
    for (;;) {
      if (this.parts.length > 1) this.parts = [Buffer.concat(this.parts)];
      const at = this.size ? this.parts[0].indexOf(mark) : -1;
      if (at >= 0) return this.take(at, mark.length).toString("latin1");
      if (this.size > MOST_OF_HEAD) throw new WrongAnswer(`it has more than ${MOST_OF_HEAD} bytes without an end`);
      yield* this.more();
    }
  }

  *exactly(count) {
    if (count > MOST_OF_BODY) throw new WrongAnswer(`it has more than ${MOST_OF_BODY} bytes`);
    while (this.size < count) yield* this.more();
    return this.take(count);
  }

  // All up to the connection's end.
  *rest() {
    while (!this.hasEnded && this.size <= MOST_OF_BODY) yield;
    return yield* this.exactly(this.size);
  }

  *more() {
    if (this.hasEnded) throw new Error("the connection has ended before the answer");
    yield;
  }
}

// An answer of HTTP/1.1 (RFC 9112).
function* answerFrom(bytes) {
  for (let n = 0; n < MOST_LINES; n += 1) {
    const { version, status, headers } = headOf(yield* bytes.until("\r\n\r\n"));
    if (status >= 200) { // (others, such as 100 Continue, come before the answer)
      const text = (yield* bodyOf(bytes, headers)).toString();
      const closes = version === "0" || headers.connection?.toLowerCase() === "close" || bytes.hasEnded || bytes.size;
      return { status, headers, text, isKept: !closes };
    }
  }
  throw new WrongAnswer("it has no end of heads");
}

function headOf(text) {
  const [first, ...lines] = text.split("\r\n");
  const [found, headers] = [STATUS_LINE.exec(first), Object.create(null)];
  if (!found) throw new WrongAnswer(`it begins with ${JSON.stringify(first.slice(0, 80))}`);
  for (const line of lines) {
    const field = FIELD.exec(line);
    const name = field?.[1].toLowerCase();
    if (!field || (name in headers && ["content-length", "transfer-encoding"].includes(name))) {
      throw new WrongAnswer(`its head has the line ${JSON.stringify(line.slice(0, 80))}`);
    }
    headers[name] ??= field[2].replace(/^[ \t]+/, "").trimEnd();
  }
  return { version: found[1], status: Number(found[2]), headers };
}

function* bodyOf(bytes, headers) {
  const [length, coding] = [headers["content-length"], headers["transfer-encoding"]];
  if (length === undefined && coding === undefined) return yield* bytes.rest();
  if (coding === undefined && /^[0-9]{1,9}$/.test(length)) return yield* bytes.exactly(Number(length));
  if (length === undefined && coding.toLowerCase() === "chunked") return yield* chunksOf(bytes);
  throw new WrongAnswer(`it has the length ${length} and the transfer coding ${coding}`);
}

function* chunksOf(bytes) {
  for (let [chunks, size] = [[], 0]; size <= MOST_OF_BODY;) {
    const count = parseInt(CHUNK.exec(yield* bytes.until("\r\n"))?.[1] ?? "none", 16);
    if (Number.isNaN(count)) break;
    if (count === 0) { // (trailers follow, up to an empty line)
      for (let n = 0; n < MOST_LINES; n += 1) if ((yield* bytes.until("\r\n")) === "") return Buffer.concat(chunks);
      break;
    }
    chunks.push(yield* bytes.exactly(count));
    size += count;
    if ((yield* bytes.exactly(2)).toString("latin1") !== "\r\n") break;
  }
  throw new WrongAnswer("its chunks are malformed, or too many");
}

// A connection over a socket of its own: with node:http an exchange takes nearly twice the processor time. It is kept,
// and keeps the process only while an answer is awaited, which has no timeout: a Next waits as long as no one invokes.
class Connection {
  constructor() {
    const at = ADDRESS.lastIndexOf(":");
    this.socket = net.connect({ host: ADDRESS.slice(0, at), port: ADDRESS.slice(at + 1), noDelay: true });
    this.bytes = new Bytes();
    this.socket.on("data", (part) => { this.bytes.push(part); this.goOn(); });
    this.socket.on("end", () => { this.bytes.hasEnded = true; this.goOn(); });
    this.socket.on("error", (fault) => this.end(fault));
    this.socket.on("close", () => this.end(new Error("the connection has ended before the answer")));
  }

  exchange(request) {
    this.socket.ref();
    this.answer = answerFrom(this.bytes);
    return new Promise((resolve, reject) => {
      [this.resolve, this.reject] = [resolve, reject];
      this.socket.write(request);
    });
  }

  goOn() {
    if (!this.answer) return this.end(); // it comes without a request, or has ended
    try {
      const { done, value } = this.answer.next();
      if (!done) return undefined;
      [this.answer, hasAnswered] = [undefined, true];
      this.resolve(value);
      if (!value.isKept || this.socket.writableLength) return this.end();
      return this.socket.unref();
    } catch (fault) {
      return this.end(fault);
    }
  }

  end(fault) {
    if (connection === this) connection = undefined;
    if (this.answer) this.reject(fault);
    this.answer = undefined;
    this.socket.destroy();
  }
}

let connection;
let hasAnswered = false;

// A connection is closed if it asks nothing for a while, and a handler may take longer: then a new one asks.
async function ask(...request) {
  return askOnce(...request).catch((fault) => {
    if (fault instanceof WrongAnswer) throw fault;
    return askOnce(...request);
  });
}

async function askOnce(method, route, body = "", headers = {}) {
  const lines = [`${method} ${RUNTIME}${route} HTTP/1.1`, `Host: ${ADDRESS}`];
  if (method === "POST") lines.push(`Content-Length: ${Buffer.byteLength(body)}`);
  for (const [name, value] of Object.entries(headers)) lines.push(`${name}: ${value}`);
  connection ??= new Connection();
  return connection.exchange(`${lines.join("\r\n")}\r\n\r\n${body}`);
}

async function post(kind, id, body, headers) {
  const { status, text } = await ask("POST", `invocation/${id}/${kind}`, body, headers);
  if (status === 500) process.exit(0); // the container error, as for a Next
  // 413, too large, or 403, too late: the environment goes on with the next invocation.
  if (status !== 202) tell(`runtime.mjs: the ${kind} to ${id} is refused: ${status} ${text}`);
}

// --- the log ---

const LEVELS = ["TRACE", "DEBUG", "INFO", "WARN", "ERROR", "FATAL"];
const LEVEL_OF = {
  trace: "TRACE", debug: "DEBUG", log: "INFO", info: "INFO", warn: "WARN", error: "ERROR", fatal: "FATAL",
};
const LOGS_JSON = variable("AWS_LAMBDA_LOG_FORMAT", "").toUpperCase() === "JSON";
// (with JSON, Lambda's default is INFO; an unknown level is none)
const LOWEST = LEVELS.indexOf(variable("AWS_LAMBDA_LOG_LEVEL", LOGS_JSON ? "INFO" : "").toUpperCase());
let requestId; // of the invocation that is being handled; before the first one, as Lambda has it, "undefined"

function errorMembers(fault) {
  const errorType = fault.constructor?.name ?? "UnknownError";
  return { errorType, errorMessage: fault.message, stackTrace: String(fault.stack ?? "").split("\n") };
}

// Lambda's JSON of a line: one value stays a value, several are formatted, and the first error among them is told.
function asJSON(level, values) {
  const line = { timestamp: new Date().toISOString(), level, requestId };
  if (values.length === 1) {
    const withErrors = (_, value) => (value instanceof Error ? { ...errorMembers(value), ...value } : value);
    try {
      return JSON.stringify({ ...line, message: values[0] }, withErrors);
    } catch {
      return JSON.stringify({ ...line, message: util.format(values[0]) });
    }
  }
  const fault = values.find((value) => value instanceof Error);
  return JSON.stringify({ ...line, message: util.format(...values), ...(fault ? errorMembers(fault) : {}) });
}

// Before the handler's module is loaded.
function patchConsole() {
  for (const [name, level] of Object.entries(LEVEL_OF)) {
    console[name] = (...values) => {
      if (LEVELS.indexOf(level) < LOWEST) return;
      const text = () => `${new Date().toISOString()}\t${requestId}\t${level}\t${util.format(...values)}`;
      process.stdout.write(`${LOGS_JSON ? asJSON(level, values) : text()}\n`);
    };
  }
}

// Begins the lines of an invocation: for `./lambda_local up`, by what nothing else prints (in LAMBDA_LOCAL_MARK, which
// the handler does not see).
const MARK = process.env.LAMBDA_LOCAL_MARK;
delete process.env.LAMBDA_LOCAL_MARK;
const print = process.stdout.write.bind(process.stdout);
const begin = (id) => { if (MARK) print(`\0${MARK}${id}\n`); };

// What the clock reads by which an invocation times out: that of `./lambda_local up` can be paused, and moved forward.
const CLOCK = process.env.LAMBDA_LOCAL_CLOCK;
delete process.env.LAMBDA_LOCAL_CLOCK;
function clock() {
  try {
    const [moment, since, runs] = fs.readFileSync(CLOCK, "ascii").split(" ").map(BigInt);
    return Number(moment + ((process.hrtime.bigint() - since) / 1000000n) * runs);
  } catch { // (there is none, or not any more)
    return Date.now();
  }
}

// What this program says itself.
function tell(text) {
  process.stderr.write(`${text}\n`);
}

// --- what went wrong ---

// As Lambda's Node runtime reports it, whatever was thrown.
function reportOf(fault) {
  const cut = (told) => {
    try {
      return String(told()).slice(0, MESSAGE_LIMIT);
    } catch {
      return "(it cannot be had)";
    }
  };
  if (!util.types.isNativeError(fault)) return { errorType: typeof fault, errorMessage: cut(() => fault), trace: [] };
  const [errorType, errorMessage] = [cut(() => fault.name), cut(() => fault.message)];
  return { errorType, errorMessage, trace: cut(() => fault.stack).split("\n") };
}

// Its type as a header: a category and a reason, such as Runtime.TypeError. What no header has, or is very long, is
// Runtime.Unhandled.
function typeHeader({ errorType }) {
  const type = /^[!-~](?:[ -~]*[!-~])?$/.test(errorType) && errorType.length <= TYPE_LIMIT ? errorType : "Unhandled";
  return { "Lambda-Runtime-Function-Error-Type": type.includes(".") ? type : `Runtime.${type}` };
}

// The trace ends before this program's own frames. (Whatever is wrong with what was thrown, its report is sent.)
function printTrace(fault) {
  try {
    let each = fault;
    for (let depth = 0; util.types.isNativeError(each) && depth < 10; depth += 1) {
      const lines = String(each.stack).split("\n");
      const own = lines.findIndex((line) => line.includes(import.meta.url));
      Reflect.set(each, "stack", (own < 0 ? lines : lines.slice(0, own)).join("\n"));
      each = each.cause;
    }
    if (LOGS_JSON) console.error(fault);
    else tell(fault instanceof RuntimeFault ? fault.stack : util.format(fault));
  } catch {
    tell("runtime.mjs: what was thrown cannot be printed");
  }
}

// --- the handler ---

// Whether the nearest package.json says so.
function isOfTypeModule(folder) {
  const [file, above] = [path.join(folder, "package.json"), path.dirname(folder)];
  if (!fs.existsSync(file)) {
    return path.basename(folder) !== "node_modules" && above !== folder && isOfTypeModule(above);
  }
  try {
    return JSON.parse(fs.readFileSync(file))?.type === "module";
  } catch (fault) {
    tell(`runtime.mjs: ${file} is not read, and .js counts as CommonJS: ${fault.message}`);
    return false;
  }
}

// The file of a module, in the order in which Lambda looks, and whether it is an ES module.
function fileOf(base) {
  const isFile = (name) => fs.statSync(name, { throwIfNoEntry: false })?.isFile();
  const ending = ["", ".js", ".mjs", ".cjs"].find((each) => isFile(base + each));
  if (ending === undefined) return { file: fs.existsSync(base) ? base : undefined, isES: false };
  return { file: base + ending, isES: ending === ".mjs" || (ending === ".js" && isOfTypeModule(path.dirname(base))) };
}

// The place of a SyntaxError and its line: a CommonJS module's stack begins with them, and for an ES module Node's own
// check prints them.
function placeOf(fault, file, isES) {
  const said = isES ? spawnSync(process.execPath, ["--check", file], { encoding: "utf8" }).stderr : fault.stack;
  return (said ?? "").split("\n\n")[0];
}

// Where a module was looked for, and what is there in its place.
function notThere(folder, name) {
  const base = path.resolve(ROOT, folder, name);
  const source = [".ts", ".mts", ".cts", ".tsx", ".jsx"].find((each) => fs.existsSync(base + each));
  const words = [path.join(folder, name) + source, "--bundle", "--platform=node", `--outdir=${path.join(folder, "")}`];
  const command = `npx esbuild ${words.join(" ")}`;
  const built = source ? `; there is ${path.basename(base)}${source}: compile it first, with ${command}` : "";
  return `${path.dirname(base)} has no ${path.basename(base)}.js, .mjs or .cjs${built}`;
}

async function moduleOf(folder, name) {
  const { file, isES } = fileOf(path.resolve(ROOT, folder, name));
  try {
    if (isES) return await import(pathToFileURL(file));
    return require(file ?? require.resolve(name, { paths: [ROOT, path.resolve(ROOT, folder)] }));
  } catch (cause) {
    if (cause instanceof SyntaxError) {
      throw new RuntimeFault("UserCodeSyntaxError", String(cause), { lines: placeOf(cause, file, isES) });
    }
    if (cause?.code === "MODULE_NOT_FOUND") {
      const text = file === undefined
        ? `${String(cause).split("\n")[0]}\nRequire stack:\n- ${notThere(folder, name)}` : String(cause);
      throw new RuntimeFault("ImportModuleError", text, { cause });
    }
    throw cause;
  }
}

async function load(name) {
  if (name.includes("..")) {
    const advice = "Use absolute paths when specifying root directories in handler names.";
    throw new RuntimeFault("MalformedHandlerName", `'${name}' is not a valid handler name. ${advice}`);
  }
  const last = path.basename(name);
  const parts = /^([^.]*)\.(.*)$/.exec(last);
  if (!parts) throw new RuntimeFault("MalformedHandlerName", "Bad handler");
  const loaded = await moduleOf(name.slice(0, name.lastIndexOf(last)), parts[1]);
  const handler = parts[2].split(".").reduce((object, key) => object?.[key], loaded);
  if (!handler) throw new RuntimeFault("HandlerNotFound", `${name} is undefined or not exported`);
  if (typeof handler !== "function") throw new RuntimeFault("HandlerNotFound", `${name} is not a function`);
  return handler;
}

const greet = async (event) => ({ greeting: `Hello, ${event.name ?? "world"}!` });

// --- an invocation ---

// What becomes of a fault that nothing catches, and what follows once the event loop has nothing left to do.
let whenUncaught = failInit;
let whenEmpty = () => {};
process.on("uncaughtException", (fault) => whenUncaught(fault, 129));
process.on("unhandledRejection", (cause) => {
  whenUncaught(new RuntimeFault("UnhandledPromiseRejection", String(cause), { cause }), 128);
});
process.on("beforeExit", () => whenEmpty());

// What a handler may ask of its invocation (Developer Guide, "Using the Lambda context object to retrieve Node.js
// function information").
function contextOf(headers, done) {
  const invokedFunctionArn = headers["lambda-runtime-invoked-function-arn"];
  const functionName = variable("AWS_LAMBDA_FUNCTION_NAME", invokedFunctionArn.split(":")[6]);
  const deadline = Number(headers["lambda-runtime-deadline-ms"]);
  const parsed = (name) => (headers[name] ? JSON.parse(headers[name]) : undefined);
  return {
    callbackWaitsForEmptyEventLoop: true,
    functionName,
    functionVersion: variable("AWS_LAMBDA_FUNCTION_VERSION", "$LATEST"),
    memoryLimitInMB: variable("AWS_LAMBDA_FUNCTION_MEMORY_SIZE", "128"),
    logGroupName: variable("AWS_LAMBDA_LOG_GROUP_NAME", `/aws/lambda/${functionName}`),
    logStreamName: variable("AWS_LAMBDA_LOG_STREAM_NAME", "local/[$LATEST]1"),
    clientContext: parsed("lambda-runtime-client-context"),
    identity: parsed("lambda-runtime-cognito-identity"),
    invokedFunctionArn,
    awsRequestId: headers["lambda-runtime-aws-request-id"],
    getRemainingTimeInMillis: () => Math.max(0, deadline - clock()),
    done, succeed: (output) => done(null, output), fail: (fault) => done(fault ?? "handled"),
  };
}

// The handler's output, and whether the event loop must run empty before the next invocation comes.
function outputOf(handler, text, headers) {
  return new Promise((resolve, reject) => {
    const end = (fault, output, waits) => {
      if (fault === null || fault === undefined) resolve({ output, waits });
      else reject(fault);
    };
    const context = contextOf(headers, (fault, output) => end(fault, output, false));
    const callback = (fault, output) => end(fault, output, context.callbackWaitsForEmptyEventLoop);
    whenEmpty = () => end(null, null, false); // nothing is left that could answer
    const result = handler(JSON.parse(text), context, callback);
    if (typeof result?.then === "function") result.then(context.succeed, context.fail);
  });
}

// --- a response that is streamed (Developer Guide, "Response streaming for Lambda functions") ---

const STREAMS = Symbol.for("aws.lambda.runtime.handler.streaming");
const PRELUDE_TYPE = "application/vnd.awslambda.http-integration-response";
const ERROR_TYPE = "Lambda-Runtime-Function-Error-Type";
const ERROR_BODY = "Lambda-Runtime-Function-Error-Body";

// What a streaming handler writes to. Its request begins with the first byte: until then an error is an error.
class ResponseStream extends Writable {
  constructor(id) {
    super({ highWaterMark: 64 * 1024 });
    [this.id, this.type, this.request, this.prelude] = [id, "application/octet-stream", undefined, undefined];
    [this.waiting, this.isAnswered] = [undefined, false]; // what is called once the request takes more
  }

  setContentType(type) {
    this.type = type;
  }

  // The request that carries it, and its answer once that comes.
  begin() {
    if (this.request) return this.request;
    const [host, port] = [ADDRESS.slice(0, ADDRESS.lastIndexOf(":")), ADDRESS.slice(ADDRESS.lastIndexOf(":") + 1)];
    const headers = {
      "Content-Type": this.type, "Lambda-Runtime-Function-Response-Mode": "streaming",
      "Transfer-Encoding": "chunked", Trailer: `${ERROR_TYPE}, ${ERROR_BODY}`,
    };
    const route = `${RUNTIME}invocation/${this.id}/response`;
    const http = require("node:http"); // (which takes a while, and few functions need it)
    this.request = http.request({ host, port, method: "POST", path: route, agent: false, headers });
    this.answered = new Promise((resolve) => {
      this.request.on("error", (fault) => resolve({ status: 0, text: fault.message }));
      this.request.on("response", (reply) => {
        const parts = [];
        reply.on("data", (part) => parts.push(part));
        reply.on("close", () => resolve({ status: reply.statusCode, text: Buffer.concat(parts).toString() }));
      });
    });
    this.request.on("drain", () => this.goOn());
    this.answered.then(() => { this.isAnswered = true; this.goOn(); });
    if (this.prelude !== undefined) this.request.write(this.prelude);
    return this.request;
  }

  // (After an answer that comes before the end, such as 413, no part waits.)
  _write(part, encoding, done) {
    if (this.begin().write(part, encoding) || this.isAnswered) done();
    else this.waiting = done;
  }

  goOn() {
    const done = this.waiting;
    this.waiting = undefined;
    done?.();
  }

  _final(done) {
    this.begin();
    done();
  }
}

globalThis.awslambda = {
  streamifyResponse: (handler) => Object.assign(handler, { [STREAMS]: "response" }),
  HttpResponseStream: {
    from(stream, metadata) {
      stream.setContentType(PRELUDE_TYPE);
      stream.prelude = Buffer.concat([Buffer.from(JSON.stringify(metadata)), Buffer.alloc(8)]);
      return stream;
    },
  },
};

async function invokeStreaming(handler, text, headers) {
  const id = headers["lambda-runtime-aws-request-id"];
  requestId = id;
  const stream = new ResponseStream(id);
  const fail = async (fault) => {
    printTrace(fault);
    const report = JSON.stringify(reportOf(fault));
    if (!stream.request) return post("error", id, report, typeHeader(reportOf(fault)));
    const trailers = { [ERROR_TYPE]: Object.values(typeHeader(reportOf(fault)))[0] };
    stream.request.addTrailers({ ...trailers, [ERROR_BODY]: Buffer.from(report).toString("base64") });
    return end(stream);
  };
  whenUncaught = (fault, status) => { fail(fault).finally(() => process.exit(status)); };
  try {
    await Promise.all([handler(JSON.parse(text), stream, contextOf(headers, () => {})), finished(stream)]);
  } catch (fault) {
    await fail(fault);
    return;
  }
  await end(stream);
  whenUncaught = (late, status) => { printTrace(late); process.exit(status); };
}

async function end(stream) {
  stream.request.end();
  const { status, text } = await stream.answered;
  if (status === 500) process.exit(0);
  if (status !== 202) tell(`runtime.mjs: the response to ${stream.id} is refused: ${status} ${text}`);
}

function textOf(output) {
  try {
    return JSON.stringify(output) ?? "null";
  } catch (cause) {
    throw new Error("Unable to stringify response body", { cause });
  }
}

async function invoke(handler, text, headers) {
  const id = headers["lambda-runtime-aws-request-id"];
  requestId = id;
  let [kind, body, type, waits] = ["response", "", {}, false];
  const fail = (fault) => {
    printTrace(fault);
    const report = reportOf(fault);
    [kind, body, type] = ["error", JSON.stringify(report), typeHeader(report)];
  };
  whenUncaught = (fault, status) => {
    fail(fault);
    post(kind, id, body, type).finally(() => process.exit(status));
  };
  try {
    const result = await outputOf(handler, text, headers);
    [body, waits] = [textOf(result.output), result.waits];
  } catch (fault) {
    fail(fault);
  }
  whenEmpty = () => {};
  await post(kind, id, body, type);
  if (waits) await new Promise((resolve) => { whenEmpty = resolve; });
  whenUncaught = (late, status) => { printTrace(late); process.exit(status); };
}

function idOf(headers) {
  const id = headers["lambda-runtime-aws-request-id"] ?? "";
  if (!/^[!-~]+$/.test(id)) throw new WrongAnswer("an invocation has no identifier");
  return id;
}

// The trace of an invocation: its caller's; if that gave none (lambda_local then gives a root of zeros), one of its
// own, made of its identifier. The SDKs of AWS send it with what the handler invokes, which is known by it as the
// handler's.
function traceOf(headers) {
  const [given, digits] = [headers["lambda-runtime-trace-id"], idOf(headers).replaceAll("-", "")];
  if ((given && !given.startsWith(NO_ROOT)) || !/^[0-9a-f]{32}$/.test(digits)) return given;
  return `Root=1-${digits.slice(0, 8)}-${digits.slice(8)};Sampled=0`;
}

async function serve(handler) {
  for (;;) {
    const { status, headers, text } = await ask("GET", "invocation/next");
    if (status === 403) { // an earlier process took the invocation that is still open here
      await new Promise((resolve) => setTimeout(resolve, 50));
    } else if (status !== 200) { // 500, the container error: the runtime should exit promptly
      return;
    } else {
      delete process.env._X_AMZN_TRACE_ID;
      begin(idOf(headers));
      const trace = traceOf(headers);
      if (trace) process.env._X_AMZN_TRACE_ID = trace;
      await (handler[STREAMS] ? invokeStreaming : invoke)(handler, text, headers);
    }
  }
}

async function failInit(fault) {
  printTrace(fault);
  const report = reportOf(fault);
  await ask("POST", "init/error", JSON.stringify(report), typeHeader(report)).catch(tellUnreachable);
  process.exit(1);
}

function tellUnreachable(fault) {
  if (fault instanceof WrongAnswer) {
    tell(`runtime.mjs: what ${ADDRESS} answers is not of the Runtime API: ${fault.message}`);
    return process.exit(1);
  }
  if (hasAnswered) return process.exit(0); // the service has stopped
  const advice = "start the service first, and name its environment's port";
  tell(`runtime.mjs: no Runtime API at ${ADDRESS}: ${fault.message}: ${advice}`);
  process.exit(1);
}

function tellUsage(status) {
  const lines = fs.readFileSync(new URL(import.meta.url), "utf8").split("\n").slice(1);
  const head = lines.slice(0, lines.findIndex((line) => !line.startsWith("//")));
  console.log(head.map((line) => line.slice(3)).join("\n"));
  process.exit(status);
}

if (words.includes("-h") || words.includes("--help")) tellUsage(0);
if (words.length > 2 || (words.length === 2 && isAddress(words[0]) === isAddress(words[1]))) tellUsage(2);
process.env.AWS_EXECUTION_ENV ||= `AWS_Lambda_nodejs${process.versions.node.split(".")[0]}.x`;
patchConsole();
const handler = HANDLER ? await load(HANDLER).catch(failInit) : greet;
await serve(handler).catch(tellUnreachable);
process.exit(0);
