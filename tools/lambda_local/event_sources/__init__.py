"""Streams and topics of another server as event sources of functions (docs/streams.md). `members` has what UP.json says
of them. A stream: `servers` asks Kinesis or DynamoDB Streams, `shards` keeps how far each shard is read, `filters` says
which records come, `batches` decides what follows a batch, `handling` does it, `streams` has the threads, `failures`
says what is told of records that are given up, and `checkpoints` keeps positions in a file. A topic: `topics`
subscribes to it, and `notifications` makes events of what comes."""
