// What handlers find in their process: Lambda's variables, the service in place of Lambda, and no way to AWS.
import assert from "node:assert/strict";
import http2 from "node:http2";
import https, { request } from "node:https";
import net from "node:net";
import { test } from "node:test";
import { ReachesAWS, start, withService } from "lambda_local";

const handlers = { greet: async (event) => ({ hello: event.name }) };
const failed = (emitter) => new Promise((resolve) => emitter.on("error", resolve));
const NAMES = ["AWS_ENDPOINT_URL_LAMBDA", "AWS_ACCESS_KEY_ID", "AWS_PROFILE", "AWS_LAMBDA_FUNCTION_NAME", "TABLE"];
const variables = () => NAMES.map((name) => process.env[name]);

function invoked(send, given) {
  return new Promise((resolve, reject) => {
    const made = send(given, (answer) => {
      let text = "";
      answer.on("data", (part) => { text += part; }).on("end", () => resolve(text));
    });
    made.on("error", reject);
    made.end('{"name":"Ada"}');
  });
}

test("variables are a function's while the service runs, and then what they were", async () => {
  process.env.AWS_PROFILE = "mine";
  const before = variables();
  const service = await start({ greet: { handler: handlers.greet, variables: { TABLE: "orders" } } });
  assert.deepEqual(variables(), [service.endpointUrl, "local", undefined, "greet", "orders"]);
  await service.stop();
  assert.deepEqual(variables(), before);
  delete process.env.AWS_PROFILE;
});

test("of two services the newest is called, and the other one after it", async () => {
  const one = await start(handlers);
  const two = await start(handlers);
  assert.equal(process.env.AWS_ENDPOINT_URL_LAMBDA, two.endpointUrl);
  await two.stop();
  assert.equal(process.env.AWS_ENDPOINT_URL_LAMBDA, one.endpointUrl);
  await one.stop();
  assert.equal(process.env.AWS_ENDPOINT_URL_LAMBDA, undefined);
});

test("the trace's variable is the invocation's, if one environment runs", async () => {
  const trace = async () => process.env._X_AMZN_TRACE_ID;
  await withService({ trace }, async (service) => assert.match(await service.invoke("trace"), /^Root=1-/));
  await withService({ trace, other: trace }, async (service) => assert.equal(await service.invoke("trace"), null));
  assert.equal(process.env._X_AMZN_TRACE_ID, undefined);
});

const CALLS = {
  https: () => failed(https.get("https://dynamodb.us-east-1.amazonaws.com/")),
  "https by name": () => failed(request({ host: "sqs.eu-west-1.amazonaws.com" }).end()),
  fetch: () => fetch("https://s3.us-east-1.amazonaws.com/key").then(assert.fail, (fault) => fault.cause),
  http2: () => failed(http2.connect("https://bedrock.us-east-1.api.aws")),
  "a Function URL": () => failed(https.get("https://abc.lambda-url.us-east-1.on.aws/")),
  "a socket": () => failed(net.connect(443, "sts.amazonaws.com.cn")),
};
for (const [name, call] of Object.entries(CALLS)) {
  test(`a request to AWS is not sent: ${name}`, () =>
    withService(handlers, async () => {
      const fault = await call();
      assert.ok(fault instanceof ReachesAWS, String(fault));
      assert.match(fault.message, /^not sent to AWS: \S+: mock it/);
    }));
}

test("a request to Lambda goes to the service, whoever made the client", () =>
  withService(handlers, async () => {
    const options = { host: "lambda.us-east-1.amazonaws.com", method: "POST",
      path: "/2015-03-31/functions/greet/invocations", headers: { Host: "lambda.us-east-1.amazonaws.com" } };
    const url = new URL(`https://${options.host}${options.path}`);
    for (const answer of [await invoked(https.request, options), await invoked(request, options),
      await invoked((given, back) => request(given, { method: "POST" }, back), url)]) {
      assert.equal(answer, '{"hello":"Ada"}');
    }
  }));

test("keepCredentials leaves credentials and the way to AWS as they are", async () => {
  const [sent, connect, before] = [https.request, net.Socket.prototype.connect, process.env.AWS_ACCESS_KEY_ID];
  await withService(handlers, { keepCredentials: true }, async (service) => {
    assert.equal(process.env.AWS_ENDPOINT_URL_LAMBDA, service.endpointUrl);
    assert.equal(process.env.AWS_ACCESS_KEY_ID, before);
    assert.deepEqual([https.request, net.Socket.prototype.connect], [sent, connect]);
  });
});

test("after the stop the way is as it was", async () => {
  const before = [https.request, https.get, net.Socket.prototype.connect];
  await withService(handlers, async () => assert.notEqual(https.request, before[0]));
  assert.deepEqual([https.request, https.get, net.Socket.prototype.connect], before);
});
