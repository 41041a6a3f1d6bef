"use strict";
// The clock of a service that a test runs (docs/trouble.md).

const UNITS = { milliseconds: 1, seconds: 1000, minutes: 60_000, hours: 3_600_000, days: 86_400_000 };
const LONGEST = Number.MAX_SAFE_INTEGER; // milliseconds

// How far an advance goes, in milliseconds.
function total(given) {
  if (given === null || typeof given !== "object") {
    throw new TypeError(`advance: ${given}: give an object, such as { seconds: 3 }`);
  }
  let sum = 0;
  for (const [name, value] of Object.entries(given)) {
    if (!Object.hasOwn(UNITS, name)) {
      throw new TypeError(`advance: there is no unit ${name}: give ${Object.keys(UNITS).join(", ")}`);
    }
    if (typeof value !== "number" || !(value >= 0 && value <= LONGEST)) {
      throw new TypeError(`advance: ${name} is ${value}: give a number from 0`);
    }
    sum += value * UNITS[name];
  }
  const whole = Math.round(sum);
  if (!(whole >= 1 && whole <= LONGEST)) {
    throw new TypeError(`advance: it is ${whole} milliseconds in all: give from 1 to ${LONGEST}`);
  }
  return whole;
}

class Clock {
  // `ask` is given a method and a route, and gives the status and the text of the answer.
  constructor(ask) {
    Object.defineProperty(this, "ask", { value: ask });
  }

  async reading(method, route) {
    const { status, text } = await this.ask(method, route);
    if (status === 404) throw new Error("the service has no clock that can be set: its program is an older one");
    if (status !== 200) throw new Error(`the clock: ${status} ${text}`);
    return JSON.parse(text);
  }

  // What it reads: milliseconds since 1970.
  async now() {
    return (await this.reading("GET", "/_local/clock")).now;
  }

  async isPaused() {
    return !(await this.reading("GET", "/_local/clock")).running;
  }

  // Moves it forward; what is due by then has happened, or begun, once this is done.
  async advance(given) {
    return (await this.reading("POST", `/_local/clock/advance?ms=${total(given)}`)).now;
  }

  async pause() {
    return (await this.reading("POST", "/_local/clock/pause")).now;
  }

  async resume() {
    return (await this.reading("POST", "/_local/clock/resume")).now;
  }

  // Does this while it is paused. After it, it goes on, unless it was paused before. Returns what this gave.
  async paused(work) {
    const wasPaused = await this.isPaused();
    await this.pause();
    try {
      return await work(this);
    } finally {
      if (!wasPaused) await this.resume();
    }
  }
}

module.exports = { Clock };
