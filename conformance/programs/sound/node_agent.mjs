// A runtime in the shape of Lambda's Node client: agents that keep connections, no retries, a status of a response that
// is not looked at, a report with `trace`. With the argument `streaming` responses are streamed.
import http from "node:http";
import path from "node:path";
import { pathToFileURL } from "node:url";

const [host, port] = process.env.AWS_LAMBDA_RUNTIME_API.split(":");
const agent = new http.Agent({ keepAlive: true, maxSockets: 1 });
const streaming = process.argv[2] === "streaming";
const ROOT = "/2018-06-01/runtime/";

function ask(method, route, body, headers = {}) {
  return new Promise((resolve, reject) => {
    const request = http.request({ host, port, method, path: ROOT + route, agent, headers }, (reply) => {
      const parts = [];
      reply.on("data", (part) => parts.push(part));
      reply.on("error", reject);
      reply.on("end", () => resolve({ status: reply.statusCode, headers: reply.headers, body: Buffer.concat(parts) }));
    });
    request.on("error", reject);
    if (body === undefined || typeof body === "string") return request.end(body);
    for (const part of body) request.write(part);
    return request.end();
  });
}

const reportOf = (fault) => ({
  errorType: fault?.name ?? "Error", errorMessage: (fault?.message ?? String(fault)).replace(/\x7f/g, "%7F"),
  trace: (fault?.stack ?? "").split("\n"),
});
const postError = (route, fault) => {
  const body = JSON.stringify(reportOf(fault));
  return ask("POST", route, body, {
    "Content-Type": "application/json", "Content-Length": Buffer.byteLength(body),
    "Lambda-Runtime-Function-Error-Type": reportOf(fault).errorType,
  });
};

function respond(id, output) {
  if (streaming) {
    const texts = Array.isArray(output?.texts) ? output.texts : [JSON.stringify(output ?? null)];
    return ask("POST", `invocation/${id}/response`, texts, { "Lambda-Runtime-Function-Response-Mode": "streaming" });
  }
  const body = JSON.stringify(output ?? null);
  return ask("POST", `invocation/${id}/response`, body, {
    "Content-Type": "application/json", "Content-Length": Buffer.byteLength(body),
  });
}

const [module, name] = process.env._HANDLER.split(".");
let handler;
try {
  handler = (await import(pathToFileURL(path.join(process.env.LAMBDA_TASK_ROOT, `${module}.mjs`)))).handler;
} catch (fault) {
  await postError("init/error", fault);
  process.exit(1);
}
for (;;) {
  const next = await ask("GET", "invocation/next");
  if (next.status !== 200) process.exit(1);
  const id = next.headers["lambda-runtime-aws-request-id"];
  const deadline = Number(next.headers["lambda-runtime-deadline-ms"]);
  if (next.headers["lambda-runtime-trace-id"]) process.env._X_AMZN_TRACE_ID = next.headers["lambda-runtime-trace-id"];
  else delete process.env._X_AMZN_TRACE_ID;
  const client = next.headers["lambda-runtime-client-context"];
  const context = {
    awsRequestId: id, invokedFunctionArn: next.headers["lambda-runtime-invoked-function-arn"],
    clientContext: client && JSON.parse(client),
    getRemainingTimeInMillis: () => deadline - Date.now(),
  };
  let output;
  try {
    const event = JSON.parse(next.body.toString());
    output = streaming && event?.do === "stream" ? { texts: event.value } : await handler(event, context);
  } catch (fault) {
    await postError(`invocation/${id}/error`, fault);
    continue;
  }
  await respond(id, output);
}
