#!/usr/bin/env python3
"""Extensions with one mistake each: those of the files that it imports.

usage: wrong_extensions.py MISTAKE"""
import sys

import extension_answers
import extension_phases
import extension_requests
import extension_telemetry
from sound_extension import Extension

MISTAKES = {name: value for module in (extension_phases, extension_answers, extension_requests,
                                                 extension_telemetry)
            for name, value in vars(module).items() if isinstance(value, type) and issubclass(value, Extension)
            and value not in (Extension, extension_requests.Subscribing)}
MISTAKES.update(extension_requests.MISTAKES)

if __name__ == "__main__":
    MISTAKES[sys.argv[1]]().run()
