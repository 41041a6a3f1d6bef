"""What the tests of `lambda_local rerun` have in common."""

from lambda_local.service import Fault


def fault_of(call, *arguments):
    """The status and the words of a fault, or `none`."""
    try:
        call(*arguments)
    except Fault as fault:
        return f"{fault.status}: {fault}"
    return "none"
