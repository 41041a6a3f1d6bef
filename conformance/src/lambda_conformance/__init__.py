"""Checks of runtimes, of extensions and of other local Lambdas against the public documents (docs/conformance.md)."""
