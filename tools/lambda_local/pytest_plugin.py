"""lambda_local for tests, as a pytest plugin: a service on free ports whose handlers run in the test's own process, so
that breakpoints, coverage and monkeypatches work.

    def test_greet(lambda_local):
        lambda_local.start(greet=lambda event: {"hello": event["name"]})
        assert lambda_local.invoke("greet", {"name": "Ada"}) == {"hello": "Ada"}

`lambda_local_session` is one service for all tests of the session: start it in a session-wide fixture of your own. As
long as a service runs, the process has the variables of a function, dummy credentials and the service's address, so
that no handler reaches AWS by mistake; `start(keep_credentials=True, ..)` leaves the credentials. A handler's error is
raised by `invoke` as FunctionError, from what the handler raised. The end stops the service and checks its counts, and
that its history replays to itself. The report of a failed test has the history and its timeline, and names the files
where both stand whole. The program is LAMBDA_LOCAL_PROGRAM, else the one that comes with the tools.
`in_process.LambdaLocal` does without pytest."""
import pathlib
import subprocess
from typing import Any, Generator, Iterator, Optional, Tuple

from .held import HELD
from .in_process import FunctionError, LambdaLocal  # noqa: F401
from .paths import tool
from .storm import EXPECTED, Storm, storm_of

try:
    import pytest
except ImportError:
    pytest = None  # type: ignore[assignment]

if pytest:
    from .rerun_marker import pytest_configure, pytest_pyfunc_call, pytest_runtest_call  # noqa: F401

    STORM = "--lambda-local-storm"

    def given_storm(text: str) -> Storm:
        try:
            return storm_of(text)
        except ValueError:
            raise pytest.UsageError(f"{STORM} {text}: give {EXPECTED}") from None

    def pytest_addoption(parser: pytest.Parser) -> None:
        group = parser.getgroup("lambda_local")
        if not any(STORM in option.names() for option in group.options):  # (a plugin that is named twice is one)
            group.addoption(STORM, metavar="SEED[:RATE]", type=given_storm, help=(
                "throttles, cold starts, timeouts, crashes and failed Inits at random for each service of a test, the "
                "same ones by the same seed"))

    def pytest_enter_pdb(config: pytest.Config, pdb: object) -> None:
        """breakpoint(), also in a handler; --pdb, --trace."""
        HELD.enter()

    def pytest_leave_pdb(config: pytest.Config, pdb: object) -> None:
        HELD.leave()

    def storm_over(config: pytest.Config, scope: str) -> Optional[Storm]:
        """The storm of this run over one test, or over the session."""
        storm: Optional[Storm] = config.getoption(STORM)
        return None if storm is None else storm._replace(scope=scope)

    SHOWN = 100  # lines of each in a report
    TITLE = "lambda_local history"

    @pytest.fixture
    def lambda_local(request: pytest.FixtureRequest, tmp_path_factory: pytest.TempPathFactory,
                     monkeypatch: pytest.MonkeyPatch) -> Iterator[LambdaLocal]:
        """A service of this test's own: `start` starts it."""
        service = LambdaLocal(patches=monkeypatch)
        service.storm = storm_over(request.config, request.node.nodeid)
        request.node.lambda_local = (service, tmp_path_factory)
        yield service
        service.stop()

    @pytest.fixture(scope="session")
    def lambda_local_session(request: pytest.FixtureRequest,
                             tmp_path_factory: pytest.TempPathFactory) -> Iterator[LambdaLocal]:
        """One service for the session: `start` starts it, once."""
        service = LambdaLocal()
        service.storm = storm_over(request.config, "")
        setattr(request.session, "lambda_local", (service, tmp_path_factory))
        yield service
        service.stop()

    def last_lines(text: str, path: pathlib.Path) -> str:
        lines = text.splitlines()
        return "\n".join(
            [*([f".. {len(lines) - SHOWN} lines before these: {path}"] if len(lines) > SHOWN else []), *lines[-SHOWN:]])

    def timeline(*words: object) -> str:
        """What the timeline says of a history."""
        return subprocess.run([*tool("timeline"), *map(str, words)], stdout=subprocess.PIPE, stderr=subprocess.STDOUT,
                              text=True).stdout

    def sections(history: str, folder: pathlib.Path) -> Iterator[Tuple[str, str]]:
        """Returns what a report says of a history; the folder has all of it, and a page with its timeline."""
        path, page = folder / "history.txt", folder / "timeline.html"
        path.write_text(history)
        yield f"{TITLE}: {path}", last_lines(history, path)
        drawn = timeline("-o", page, path)
        yield f"lambda_local timeline: {page}", last_lines(timeline(path) + drawn, page)

    def services_of(item: Any) -> Iterator[Tuple[LambdaLocal, pytest.TempPathFactory]]:
        """The test's own service, and the session's if the test uses it, each with the factory of folders."""
        if own := getattr(item, "lambda_local", None):
            yield own
        if "lambda_local_session" in getattr(item, "fixturenames", ()):
            if shared := getattr(item.session, "lambda_local", None):
                yield shared

    @pytest.hookimpl(hookwrapper=True)  # type: ignore[misc]  # (pluggy 1.0 has no types)
    def pytest_runtest_makereport(item: pytest.Item, call: "pytest.CallInfo[None]") -> Generator[None, Any, None]:
        outcome = yield
        report = outcome.get_result()
        if not report.failed or any(title.startswith(TITLE) for title, _ in report.sections):
            return  # (a plugin that is named twice, as by its short name too, reports once)
        for service, folders in services_of(item):
            if service.service:
                try:
                    report.sections += sections(service.history(), folders.mktemp("lambda_local"))
                except OSError as fault:
                    report.sections.append((TITLE, f"not to be had: {fault}"))
