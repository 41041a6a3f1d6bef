"""The arguments of a tool, whose name is `lambda_local NAME`."""
import argparse
from typing import IO, Any, Optional, Type

from .outgoing import printable_lines


class Parser(argparse.ArgumentParser):
    """What it says has words of the command line, and goes to a terminal."""

    def _print_message(self, message: str, file: "Optional[IO[Any]]" = None) -> None:
        super()._print_message(printable_lines(message) if message else message, file)


def parser_of(tool: str, description: str, usage: Optional[str] = None,
              made: Type[argparse.ArgumentParser] = Parser) -> argparse.ArgumentParser:
    """An argument parser of a tool, which has its name before its usage."""
    name = f"lambda_local {tool}"
    return made(prog=name, usage=usage and f"{name} {usage}", description=description,
                formatter_class=argparse.RawDescriptionHelpFormatter)
