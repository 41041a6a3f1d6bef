// The handler that `./lambda_local conformance runtime` expects, for a Node runtime: _HANDLER=conformance.handler.
const pause = (milliseconds) => new Promise((resolve) => setTimeout(resolve, milliseconds));

const actions = {
  echo: (event) => event.value,
  bytes: (event) => [...Buffer.from(event.value)],
  large: (event) => "x".repeat(event.value),
  stream: (event) => event.value.join(""),
  sleep: (event) => pause(event.value).then(() => event.value),
  context: async (event, context) => {
    const first = context.getRemainingTimeInMillis();
    await pause(event.value);
    return {
      requestId: context.awsRequestId, functionArn: context.invokedFunctionArn, traceId: process.env._X_AMZN_TRACE_ID,
      remaining: [first, context.getRemainingTimeInMillis()],
    };
  },
  print: (event) => { console.log(event.value); },
  fail: (event) => { throw Object.assign(new Error(event.message), { name: event.type }); },
  exit: (event) => process.exit(event.value),
  hang: () => pause(1_000_000),
};

export async function handler(event, context) {
  return event?.do === undefined ? event : actions[event.do](event, context);
}
