"""Responses that are passed on as they come from a runtime (Lambda Developer Guide, "Response streaming for Lambda
functions").

    streams   which caller waits for which invocation, and what has come of its response
    pairing   whose each invocation is, by the service's history
    frames    the messages in which InvokeWithResponseStream sends it
    prelude   the status and headers that a Function URL's response may begin with"""
