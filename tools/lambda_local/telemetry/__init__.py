"""The Telemetry API and the Logs API of Lambda, in front of an environment's own port (docs/telemetry.md).

    beside        what lambda_local up has beside each environment, and tells it
    proxy         the port of the processes: connections that pass
    conversation  one connection, read as it passes, without sockets
    ears          what its requests and answers say
    desk          an environment's subscriptions, and what they get
    story         what happens in it, as events
    schema        events in AWS's words
    subscription  what an extension asks for
    buffer        what waits for its receiver
    sending       batches on their way"""
