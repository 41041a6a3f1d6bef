"use strict";
// The released program as a service of handlers in this process.
const fs = require("node:fs");
const os = require("node:os");
const path = require("node:path");
const { Child, LAUNCHER } = require("./child.js");
const { freePorts } = require("./ports.js");
const { ask } = require("./service.js");

const REGION = "us-east-1";
const TRIES = 5; // between looking and listening another program can take a port
const TAKEN = "network: failed"; // the program's line if it cannot listen
const COUNTS = /^admitted \d+ throttled \d+ failed \d+$/;

function configurationOf(functions, salt) {
  return {
    account: "123456789012", region: REGION, ...(salt === undefined ? {} : { salt }),
    functions: [...functions.values()].map(({ part }) => part),
  };
}

async function withPorts(configuration) {
  const wanted = configuration.functions.flatMap(({ ports }) => ports).filter((port) => port === 0).length + 1;
  const [invokePort, ...free] = await freePorts(wanted);
  const functions = configuration.functions.map((part) => ({
    ...part, ports: part.ports.map((port) => port || free.pop()) }));
  return { ...configuration, invokePort, functions };
}

// The environments: the function and the port of each.
function placesOf({ functions }) {
  return functions.flatMap(({ name, ports }) => ports.map((port) => ({ name, port })));
}

class Program {
  static async ofFunctions(functions, { salt, program }) {
    const given = configurationOf(functions, salt);
    const folder = fs.mkdtempSync(path.join(os.tmpdir(), "lambda_local."));
    try {
      for (let tried = 1; ; tried += 1) {
        const configuration = await withPorts(given);
        const file = path.join(folder, "configuration.json");
        fs.writeFileSync(file, JSON.stringify(configuration));
        const child = Child.watched([LAUNCHER, "serve", file], { program });
        if (await child.until((line) => line.endsWith(" listening"))) return new Program(child, configuration);
        if (!child.lines.includes(TAKEN) || tried === TRIES) throw new Error(whyNot(child, file));
      }
    } finally {
      fs.rmSync(folder, { recursive: true, force: true });
    }
  }

  constructor(child, configuration) {
    const endpointUrl = `http://127.0.0.1:${configuration.invokePort}`;
    Object.assign(this, { child, endpointUrl, region: REGION, places: placesOf(configuration) });
  }

  // Stops it in order. Returns its status.
  async end(service) {
    if (this.child.status === undefined) await ask(this.endpointUrl, "POST", "/_local/stop");
    const status = await this.child.kept(this.child.ended);
    const counts = this.child.output.trim();
    if (status === 0 && !COUNTS.test(counts)) throw new Error(`the service ended without its counts: ${counts}`);
    service.counts = counts;
    return status;
  }
}

// What it says, without the name of a file that no one knows.
function whyNot(child, file) {
  const said = child.lines.slice(-1)[0] ?? `it ended with status ${child.status}`;
  return `the service did not start: ${said.replace(`${file}: `, "").replace("lambda_local: ", "")}`;
}

module.exports = { Program, configurationOf };
