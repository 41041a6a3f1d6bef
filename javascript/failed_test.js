"use strict";
// What the error of a failed test says of its service: the history and the timeline.
const fs = require("node:fs");
const os = require("node:os");
const path = require("node:path");
const { start } = require("./start.js");

const SHOWN = 100; // lines of each

function lastLines(text, file) {
  const lines = text.trimEnd().split("\n");
  const more = lines.length > SHOWN ? [`.. ${lines.length - SHOWN} lines before these: ${file}`] : [];
  return [...more, ...lines.slice(-SHOWN)].join("\n");
}

// Both as text, and whole in a folder that stays.
async function told(service) {
  const folder = fs.mkdtempSync(path.join(os.tmpdir(), "lambda_local.failed."));
  const parts = [];
  for (const what of ["history", "timeline"]) {
    const file = path.join(folder, `${what}.txt`);
    const text = await service[what]();
    fs.writeFileSync(file, text, { mode: 0o600 });
    parts.push(`lambda_local ${what}: ${file}\n${lastLines(text, file)}`);
  }
  return parts.join("\n\n");
}

// Adds it to an error's message, and to its stack, which most runners print.
async function explain(fault, service) {
  if (fault === null || typeof fault !== "object") return;
  const more = `\n\n${await told(service).catch((other) => `lambda_local history: not to be had: ${other.message}`)}\n`;
  const [before, stack] = [String(fault.message), String(fault.stack ?? "")];
  try {
    fault.message = before + more;
    fault.stack = stack.includes(before) ? stack.replace(before, () => before + more) : `${before}${more}\n${stack}`;
  } catch {} // (it is frozen: the runner shows it as it is)
}

// Starts a service, gives it to a test, and stops it. The error of a test that fails has the history and the timeline.
async function withService(given, ...rest) {
  const body = rest.pop();
  if (typeof body !== "function") throw new TypeError("withService() needs a test: async (service) => {..}");
  const service = await start(given, ...rest);
  let result;
  try {
    result = await body(service);
  } catch (fault) {
    await explain(fault, service);
    await service.stop().catch((other) => process.stderr.write(`lambda_local: ${other.message}\n`));
    throw fault;
  }
  await service.stop();
  return result;
}

module.exports = { withService };
