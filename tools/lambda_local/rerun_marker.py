"""A marker of the pytest plugin: after the test, recorded invocations are sent again to the functions that it started.

    @pytest.mark.lambda_local_rerun("history.txt", ignore=["/time"])
    def test_yesterday(lambda_local):
        lambda_local.start(orders=app.handler)

The file is looked for beside the test. `one_by_one=True` sends them one after the other, `exact=True` compares whole
error reports. docs/rerun.md says more."""
import contextlib
import os

import pytest
from typing import Any, Sequence

NAME = "lambda_local_rerun"
FIXTURES = ("lambda_local", "lambda_local_session")


def pytest_configure(config: pytest.Config) -> None:
    config.addinivalue_line("markers", f"{NAME}(history, ignore=(), one_by_one=False, exact=False): after the test, "
                                       "sends the invocations of this history again to the functions that it started, "
                                       "and compares their outputs")


@pytest.hookimpl(tryfirst=True)  # type: ignore[misc]  # (pluggy 1.0 has no types)
def pytest_pyfunc_call(pyfuncitem: pytest.Function) -> None:
    """Before the test: a service that it starts has the history's salt, and so the same request identifiers."""
    marker = pyfuncitem.get_closest_marker(NAME)
    starts: Any = pyfuncitem.funcargs.get(FIXTURES[0])
    if marker and marker.args and starts is not None and starts.service is None:
        from .rerun.record import read
        from .service import Fault
        with contextlib.suppress(Fault):  # (which is told after the test)
            starts.salt = read(path_of(pyfuncitem, marker.args[0])).salt


def path_of(item: pytest.Item, history: str) -> str:
    return os.path.join(os.path.dirname(str(item.fspath)), history)


@pytest.hookimpl(trylast=True)  # type: ignore[misc]
def pytest_runtest_call(item: Any) -> None:
    """Runs after the test itself, if that did not fail."""
    marker = item.get_closest_marker(NAME)
    if marker and not getattr(item, "lambda_local_reran", False):
        item.lambda_local_reran = True  # (also if the plugin is named twice)
        again(item, *marker.args, **marker.kwargs)


def again(item: Any, history: str, ignore: Sequence[str] = (), one_by_one: bool = False,
          exact: bool = False) -> None:
    from .rerun.again import rerun  # (only tests with the marker need it)
    from .rerun.compare import pointer_of
    from .rerun.record import read
    from .rerun.report import EQUAL, text_of
    from .service import Fault
    service = next((item.funcargs[name].service for name in FIXTURES if name in item.funcargs), None)
    if service is None:
        pytest.fail(f"{NAME}: start the functions in the test, by its fixture lambda_local or lambda_local_session",
                    pytrace=False)
    try:
        recording = read(path_of(item, history), service.program)
        results, _, notes = rerun(service, recording, [pointer_of(text) for text in ignore], one_by_one, exact=exact)
        is_equal = all(result.verdict == EQUAL for result in results)
        words = [] if is_equal else [history, *text_of(results, recording), *notes]
    except Fault as fault:
        words = [str(fault)]
    if words:
        pytest.fail(f"{NAME}: " + "\n".join(words), pytrace=False)
