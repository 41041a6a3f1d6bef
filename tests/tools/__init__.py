"""The tests of the tools. tests/tools/run says how they are run; at the root pytest and `python3 -m unittest discover`
find them as well."""
