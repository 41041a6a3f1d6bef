"use strict";
// Trouble that a test calls for by name (docs/trouble.md): what Lambda does if a function takes too long, ends or
// starts anew. No handler is changed; what callers get is the service's.
const { setTimeout: sleep } = require("node:timers/promises");
const { FunctionError } = require("./function_error.js");

const PATIENCE = 5000; // milliseconds, until an environment that has answered has asked again
const REST = 5; // milliseconds between two looks
const LONGEST_INIT = 900; // seconds
const CRASH = { errorMessage: "Runtime exited with error: exit status 1", errorType: "Runtime.ExitError" };
const EXPECTED = { timeout: "Function.Timeout", crash: "Runtime.ExitError" };

class Troubles {
  // `isOfFile` says that `lambda_local up` has the function's processes, and so makes what happens to them.
  constructor(service, isOfFile) {
    Object.assign(this, { service, isOfFile, kinds: new Map(), slowInits: new Map(), endings: [] });
    this.begun = new Set(); // environments whose runtime is about to ask, or has asked
  }

  async environments() {
    return JSON.parse(await this.service.local("environments")).environments;
  }

  async numbersOf(name) {
    const all = await this.environments();
    const own = all.filter((one) => one.function === name).map((one) => one.environment);
    if (own.length) return own;
    const names = [...new Set(all.map((one) => one.function))];
    throw new Error(`there is no function ${name}: there are ${names.join(", ")}`);
  }

  async environment(number) {
    return (await this.environments()).find((one) => one.environment === number);
  }

  // Invokes the function with this trouble. Returns the report that its caller gets.
  async report(name, event, kind) {
    await this.numbersOf(name);
    if (this.isOfFile) await this.order(name, kind);
    else this.kinds.set(name, [...this.kinds.get(name) ?? [], kind]);
    let output;
    try {
      output = await this.service.invoke(name, event);
    } catch (fault) {
      if (fault instanceof FunctionError && fault.type === EXPECTED[kind]) return fault.report;
      throw fault;
    } finally {
      const left = this.kinds.get(name) ?? [];
      this.kinds.set(name, left.filter((_, at) => at !== left.lastIndexOf(kind)));
      await Promise.all(this.endings.splice(0));
    }
    throw new Error(`${name} has answered ${JSON.stringify(output)}`);
  }

  // Has `lambda_local up` see to the next invocation.
  async order(name, kind) {
    const query = new URLSearchParams({ function: name, kind });
    const { status, text } = await this.service.asked("POST", `/_local/trouble?${query}`);
    if (status !== 202) throw new Error(`${name}: ${status}: ${JSON.parse(text).errorMessage ?? text}`);
  }

  // Ends the function's environments once they are idle. Returns how many there were.
  async cold(name) {
    let count = 0;
    for (const number of await this.numbersOf(name)) count += await this.end(name, number);
    return count;
  }

  // Whether the environment had begun.
  async end(name, number) {
    for (const end = Date.now() + PATIENCE; ; await sleep(REST)) {
      const { phase } = await this.environment(number);
      if (phase === "starting" && !this.begun.has(number)) return false;
      if (phase === "idle") {
        const { status } = await this.service.asked("POST", `/_local/env/${number}/spindown`);
        if (status === 202) return true;
      }
      if (Date.now() > end) {
        throw new Error(`${name} is ${phase}, and cannot start anew: end what it works at first`);
      }
    }
  }

  async slowInit(name, seconds) {
    if (typeof seconds !== "number" || !(seconds > 0 && seconds <= LONGEST_INIT)) {
      throw new TypeError(`slowInit: ${seconds}: give a number of seconds, up to ${LONGEST_INIT}`);
    }
    if (this.isOfFile) throw new Error("slowInit is for handlers in this process: those of a file begin by themselves");
    await this.numbersOf(name);
    this.slowInits.set(name, seconds);
    await this.cold(name);
  }

  // ---- for the runtimes of this process

  // What an invocation of the function that a runtime was given comes to.
  kindOf(name) {
    return this.kinds.get(name)?.at(-1);
  }

  // Moves the clock to this deadline, if it has not come.
  async timeOut(deadline) {
    const left = deadline - await this.service.clock.now();
    if (left > 0) await this.service.clock.advance({ milliseconds: left });
  }

  // Before the report of a crash: its environment starts anew once it has asked for the next invocation.
  crash(name, number) {
    this.endings.push(this.end(name, number).catch(() => {})); // (it has ended otherwise)
    return CRASH;
  }

  // Before a runtime's first request: if its Init is to be slow, waits until an invocation waits for it, and lets the
  // time go by.
  async holdInit(name, number) {
    this.begun.delete(number);
    try {
      while (this.slowInits.has(name) && !this.service.hasEnded()) {
        const { bound } = await this.environment(number);
        const seconds = this.slowInits.get(name);
        if (bound !== undefined && seconds !== undefined) {
          this.slowInits.delete(name);
          await this.service.clock.advance({ milliseconds: Math.round(1000 * seconds) });
          return;
        }
        await sleep(REST, undefined, { ref: false });
      }
    } finally {
      this.begun.add(number);
    }
  }
}

module.exports = { Troubles };
