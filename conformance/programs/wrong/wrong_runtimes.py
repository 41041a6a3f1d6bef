#!/usr/bin/env python3
"""Runtimes with one mistake each: those of the files that it imports.

usage: wrong_runtimes.py MISTAKE   (in a folder with the kit's handlers, as the kit starts a runtime)"""
import sys

import wrong_answers
import wrong_conduct
import wrong_connections
import wrong_leaks
import wrong_payloads
import wrong_reports
import wrong_requests
import wrong_sometimes
import wrong_texts
from sound_runtime import Runtime

MISTAKES = {name: value for module in (wrong_payloads, wrong_answers, wrong_reports, wrong_conduct, wrong_connections,
                                          wrong_requests, wrong_leaks, wrong_sometimes)
            for name, value in vars(module).items()
            if isinstance(value, type) and issubclass(value, Runtime) and value is not Runtime}
MISTAKES.update(wrong_texts.MISTAKES)

if __name__ == "__main__":
    MISTAKES[sys.argv[1]]().run()
