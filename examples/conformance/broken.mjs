// A module that does not compile: _HANDLER=broken.handler.
export async function handler(event, context {
}
