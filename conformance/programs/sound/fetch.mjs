// A runtime by the `fetch` of Node, Deno and Bun: a pool of connections, a body that is read as it comes.
import path from "node:path";
import { pathToFileURL } from "node:url";

const ROOT = `http://${process.env.AWS_LAMBDA_RUNTIME_API}/2018-06-01/runtime/`;
const ask = (route, options) => fetch(ROOT + route, options);
async function post(route, value, headers = {}) {
  const body = typeof value === "string" ? value : JSON.stringify(value ?? null);
  const reply = await ask(route, { method: "POST", body, headers: { "content-type": "application/json", ...headers } });
  await reply.text();
  if (reply.status === 500) process.exit(1);
}
const reportOf = (fault) => ({
  errorType: fault?.name ?? "Error", errorMessage: fault?.message ?? String(fault),
  stackTrace: (fault?.stack ?? "").split("\n").slice(1),
});

async function next() {
  for (let attempt = 1; ; attempt += 1) {
    try {
      const reply = await ask("invocation/next", {});
      return { reply, text: await reply.text() };
    } catch (fault) {
      if (attempt === 3) throw fault;
    }
  }
}

const [module, name] = process.env._HANDLER.split(".");
let handler;
try {
  handler = (await import(pathToFileURL(path.join(process.env.LAMBDA_TASK_ROOT, `${module}.mjs`))))[name];
} catch (fault) {
  await post("init/error", reportOf(fault), { "Lambda-Runtime-Function-Error-Type": "Runtime.ImportModuleError" });
  process.exit(1);
}
for (;;) {
  const { reply, text } = await next();
  if (reply.status !== 200) process.exit(1);
  const id = reply.headers.get("lambda-runtime-aws-request-id");
  const deadline = Number(reply.headers.get("lambda-runtime-deadline-ms"));
  process.env._X_AMZN_TRACE_ID = reply.headers.get("lambda-runtime-trace-id") ?? "";
  const context = {
    awsRequestId: id, invokedFunctionArn: reply.headers.get("lambda-runtime-invoked-function-arn"),
    getRemainingTimeInMillis: () => deadline - Date.now(),
  };
  try {
    await post(`invocation/${id}/response`, JSON.stringify((await handler(JSON.parse(text), context)) ?? null));
  } catch (fault) {
    await post(`invocation/${id}/error`, reportOf(fault), {
      "Lambda-Runtime-Function-Error-Type": `Runtime.${fault?.name}` });
  }
}
