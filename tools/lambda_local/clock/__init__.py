"""The clock of a service (docs/semantics.md): what is asked of it, the command `lambda_local clock`, and the clock by
which the tools wait."""
