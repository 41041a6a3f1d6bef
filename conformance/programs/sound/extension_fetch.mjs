// An extension by `fetch`, as AWS's example for Node has it.
const ROOT = `http://${process.env.AWS_LAMBDA_RUNTIME_API}/2020-01-01/extension/`;
const failure = process.env.CONFORMANCE_FAILS;

async function report(route, id) {
  await fetch(ROOT + route, {
    method: "POST", body: JSON.stringify({ errorMessage: "it fails", errorType: "Extension.Failed" }),
    headers: { "Lambda-Extension-Identifier": id, "Lambda-Extension-Function-Error-Type": "Extension.Failed" } });
  process.exit(1);
}

const registered = await fetch(`${ROOT}register`, {
  method: "POST", body: JSON.stringify({ events: ["INVOKE", "SHUTDOWN"] }),
  headers: { "Content-Type": "application/json", "Lambda-Extension-Name": "sound" } });
if (!registered.ok) process.exit(1);
const id = registered.headers.get("lambda-extension-identifier");
if (failure === "init") await report("init/error", id);
for (;;) {
  let reply;
  try {
    reply = await fetch(`${ROOT}event/next`, { headers: { "Lambda-Extension-Identifier": id } });
  } catch {
    continue;
  }
  if (!reply.ok) process.exit(1);
  const event = await reply.json();
  if (event.eventType === "SHUTDOWN") process.exit(0);
  if (failure === "exit") await report("exit/error", id);
}
