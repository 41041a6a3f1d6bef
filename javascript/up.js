"use strict";
// `lambda_local up` as a service: it starts processes for the functions of a file, and takes events. It needs Python.
const fs = require("node:fs");
const os = require("node:os");
const path = require("node:path");
const { Child, LAUNCHER } = require("./child.js");

// Its command: it says the address once all is ready, and runs until it reads a line; then `up` stops all in order. Its
// standard input ends without one if this process was killed: then nobody is left who would remove the folder.
const COMMAND = ["/bin/sh", "-c", 'echo "$AWS_ENDPOINT_URL_LAMBDA $AWS_REGION"; read -r _ || rm -rf "$0"'];
const SAID = /^(http:\S+) (\S+)$/m;

// `up` reads an UP.json and templates. That there is a file can be said without Python.
function refuseMissing(file) {
  try {
    fs.accessSync(file, fs.constants.R_OK);
  } catch (fault) {
    throw new Error(`${file}: ${fault.code}: name an UP.json or a template`, { cause: fault });
  }
}

function asJSON(line) {
  try {
    return JSON.parse(line);
  } catch {
    return { text: line };
  }
}

class Up {
  static async ofFile(file, options) {
    refuseMissing(file);
    return Up.inFolder(options, () => file);
  }

  // Functions without a command: their runtimes are in this process.
  static async ofFunctions(functions, options) {
    return Up.inFolder(options, (folder) => {
      const made = path.join(folder, "up.json");
      const parts = [...functions.values()].map(({ part, memory }) => {
        const { ports, ...others } = part;
        return { ...others, memory, ...(ports.some(Boolean) ? { ports } : { environments: ports.length }) };
      });
      fs.writeFileSync(made, JSON.stringify({ asynchronous: options.asynchronous, functions: parts }));
      return made;
    });
  }

  static async inFolder(options, fileIn) {
    const folder = fs.mkdtempSync(path.join(os.tmpdir(), "lambda_local."));
    try {
      return await new Up(folder, options).begin(fileIn(folder));
    } catch (fault) {
      fs.rmSync(folder, { recursive: true, force: true });
      throw fault;
    }
  }

  constructor(folder, options) {
    Object.assign(this, { folder, options, urls: {}, places: [] });
  }

  async begin(file) {
    const { salt, keepCredentials, program } = this.options;
    const words = [LAUNCHER, "up", "--log", "json", ...(salt === undefined ? [] : ["--salt", String(salt)]),
      ...(keepCredentials ? ["--keep-credentials"] : []), "--history", path.join(this.folder, "history.txt"), file,
      "--", ...COMMAND, this.folder];
    this.child = new Child(words, { program });
    this.child.followers.push((line) => this.take(asJSON(line)));
    if (!await this.child.until((line) => SAID.test(line), this.child.process.stdout)) {
      throw new Error(`the service did not start: ${asJSON(this.child.lines.slice(-1)[0] ?? "").text}`);
    }
    [, this.endpointUrl, this.region] = SAID.exec(this.child.output);
    return this;
  }

  // A line of its log: where environments and URLs are; and what functions print, what it leaves out of a template, and
  // what goes wrong, is passed on.
  take({ kind, level, source, text, function: name, environment, port, endpoint }) {
    if (kind === "address" && environment !== undefined) this.places.push({ name, port });
    else if (kind === "address" && name !== undefined) this.urls[name] = endpoint;
    else if (["output", "template", undefined].includes(kind) || level === "warning" || level === "error") {
      process.stderr.write(`[${source ?? "up"}] ${text}\n`);
    }
  }

  // Stops it in order. Returns its status.
  async end(service) {
    this.child.process.stdin.end("stop\n");
    const status = await this.child.kept(this.child.ended);
    if (status === 0) service.own.history = fs.readFileSync(path.join(this.folder, "history.txt"), "utf8");
    return status;
  }

  leave() {
    fs.rmSync(this.folder, { recursive: true, force: true });
  }
}

module.exports = { Up };
