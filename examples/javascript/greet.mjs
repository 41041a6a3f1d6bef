// A handler, as it is deployed.
export async function greet(event) {
  if (!event.name) throw new TypeError("name is missing");
  return { hello: event.name };
}
