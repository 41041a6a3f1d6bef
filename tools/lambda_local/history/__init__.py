"""Histories, for all tools: what happened in a service, entry by entry, as the program traces it.

`entries` and `words` say what a history consists of. `reader` reads a trace, and `script` a file with a history or a
script; `replay` has the program trace it, and `comparison` compares a history's own answers with those of its replay.
`text` reads a history's text as it grows, and `followed` gives its entries their phases: for a service that runs."""
