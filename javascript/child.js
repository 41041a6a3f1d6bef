"use strict";
// A program of this package as a child that ends with this process, however that ends.
const { spawn } = require("node:child_process");
const path = require("node:path");

const LAUNCHER = path.join(__dirname, "..", "lambda_local");
// The shell starts the words, and kills what it has started once its standard input ends, as it does with this process.
const WATCHED = `exec 3<&0
"$@" </dev/null 3<&- &
child=$!
{ read -r _ <&3; kill -9 "$child"; } >/dev/null 2>&1 &
watch=$!
exec 3<&-
wait "$child"
status=$?
kill "$watch" 2>/dev/null
exit $status`;
const KEPT = 1000; // lines of standard error

// The variables that name another program are for the launcher, those of this process's sandbox are not.
function variablesOf(program, more) {
  return { ...process.env, ...(program ? { LAMBDA_LOCAL_PROGRAM: program } : {}), ...more };
}

// A line at a time of a stream; what is not whole at its end is one too.
function eachLine(stream, take) {
  let text = "";
  stream.setEncoding("utf8");
  stream.on("data", (part) => {
    const lines = (text + part).split("\n");
    text = lines.pop();
    lines.forEach(take);
  });
  stream.on("end", () => { if (text) take(text); });
}

// A child: `lines` are the last ones of its standard error, `output` is its standard output, `ended` its status.
class Child {
  constructor(words, { program, variables } = {}) {
    this.lines = [];
    this.output = "";
    this.followers = [];
    // (in a session of its own, so that a terminal's Ctrl-C does not end it out of order)
    this.process = spawn(words[0], words.slice(1), {
      stdio: ["pipe", "pipe", "pipe"], detached: true, env: variablesOf(program, variables),
    });
    this.process.stdin.on("error", () => {}); // (it has ended: `ended` says so)
    this.process.stdout.setEncoding("utf8").on("data", (part) => { this.output += part; });
    eachLine(this.process.stderr, (line) => this.take(line));
    this.ended = new Promise((resolve) => {
      this.process.on("error", (fault) => { this.take(fault.message); resolve(4); });
      this.process.on("close", (status, signal) => resolve(status ?? signal));
    });
    this.ended.then((status) => { this.status = status; });
    this.unref();
  }

  static watched(words, options) {
    return new Child(["/bin/sh", "-c", WATCHED, "sh", ...words], options);
  }

  // A test that forgets its service still ends, and the service with it.
  unref() {
    this.process.unref();
    for (const stream of this.process.stdio) stream?.unref?.();
  }

  take(line) {
    this.lines.push(line);
    if (this.lines.length > KEPT) this.lines.shift();
    for (const follow of this.followers) follow(line);
  }

  // Waits for `isReady` to be true of a line, of standard error or output; false if it ends before.
  async until(isReady, stream) {
    const seen = new Promise((resolve) => {
      const look = (line) => { if (isReady(line)) resolve(true); };
      if (stream) stream.on("data", () => this.output.split("\n").slice(0, -1).forEach(look));
      else this.followers.push(look);
    });
    return this.kept(Promise.race([seen, this.ended.then(() => false)]));
  }

  // What is awaited holds this process, though the child does not.
  async kept(awaited) {
    const timer = setInterval(() => {}, 1 << 30);
    return awaited.finally(() => clearInterval(timer));
  }

  kill() {
    this.process.stdin.destroy();
    return this.kept(this.ended);
  }
}

// Runs a command of the launcher to its end: its status, and what it wrote.
async function run(words, { input = "", program } = {}) {
  const child = new Child([LAUNCHER, ...words], { program });
  child.process.stdin.end(input);
  const status = await child.kept(child.ended);
  return { status, output: child.output, lines: child.lines };
}

module.exports = { Child, LAUNCHER, run };
