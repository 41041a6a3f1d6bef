"""What is in front of the functions in lambda_local up: asynchronous invocations, Function URLs and HTTP routes.

`handler` gets what the service hands over and posts the answers; `handed` reads such a request, and `management`,
`invoke` and `names` answer it. `events` and `queue` are the asynchronous invocations. `gateway` turns the requests to
URLs and routes into events and results into answers, and `response_stream` has the responses that come in pieces.
`relay` answers at the port of a `storm`. `settings` reads the members of UP.json, and `front` runs all of it. The
service is asked by `exchange`. All ports are the service's: this process listens at none."""
