"""What UP.json says of asynchronous invocations: retries and ages, and where those go that have ended: the record to a
destination, the payload of one that failed to a dead-letter queue (Developer Guide, "Capturing records of Lambda
asynchronous invocations")."""
from typing import Collection, Dict, Iterator, List, Mapping, NamedTuple, Optional, Tuple, Union

from ..configuration import Kind, Members, is_list_of, is_text, is_whole, mistakes_of, mistakes_within, shown
from ..other_server import ARN, EXAMPLE, endpoint_of, is_endpoint, is_refused

DELAYS = (1.0, 2.0)  # seconds; Lambda's are 60 and 120
MOST_RETRIES, LONGEST_DELAY, OLDEST = 2, 900, 21600
OF_RECORDS = ("onFailure", "onSuccess")  # members that get a record, and so may name a function
RECEIVERS = (*OF_RECORDS, "deadLetter")


def is_seconds(value: object) -> bool:
    return isinstance(value, (int, float)) and not isinstance(value, bool) and 0 <= value <= LONGEST_DELAY


def is_receiver(value: object) -> bool:
    return is_text(value) or isinstance(value, dict)


ELSEWHERE = "the ARN of an SQS queue or an SNS topic, or an object with \"arn\" and \"url\""
OF_ASYNCHRONOUS = {
    "retries": Kind(lambda value: is_whole(value, MOST_RETRIES + 1), "a whole number from 0 to 2"),
    "delays": Kind(lambda value: is_list_of(is_seconds)(value) and value != [],
                   "a list of seconds, each from 0 to 900"),
    "maximumAge": Kind(lambda value: is_whole(value, OLDEST + 1) and value != 0,
                       "a whole number of seconds, from 1 to 21600"),
    **dict.fromkeys(OF_RECORDS, Kind(is_receiver, f"the name of a function, {ELSEWHERE}")),
    "deadLetter": Kind(is_receiver, ELSEWHERE),
}
OF_RECEIVER = {"arn": Kind(is_text, f"a string: the ARN of an SQS queue or an SNS topic, such as {EXAMPLE}"),
               "url": Kind(is_text, "a string: the address of its server, such as \"http://127.0.0.1:5000\"")}


class Remote(NamedTuple):
    """A queue or a topic of another server."""
    arn: str
    url: str  # of the server; nothing if it is AWS itself

    @property
    def name(self) -> str:
        return self.arn.rpartition(":")[2]

    @property
    def service(self) -> str:
        return self.arn.split(":")[2]


Receiver = Union[str, Remote]  # a function by its name, or one elsewhere


class Asynchronous(NamedTuple):
    retries: int = MOST_RETRIES
    delays: Tuple[float, ...] = DELAYS
    oldest: float = OLDEST  # seconds
    on_failure: Optional[Receiver] = None
    on_success: Optional[Receiver] = None
    dead_letter: Optional[Remote] = None

    def delay(self, attempts: int) -> float:
        """Seconds between this many failed attempts and the next one."""
        return self.delays[min(attempts, len(self.delays)) - 1]

    def remotes(self) -> Iterator[Tuple[str, Remote]]:
        """Those that are elsewhere, each with its member."""
        for name, receiver in zip(RECEIVERS, (self.on_failure, self.on_success, self.dead_letter)):
            if isinstance(receiver, Remote):
                yield name, receiver


def is_elsewhere(given: object) -> bool:
    return isinstance(given, dict) or isinstance(given, str) and given.startswith("arn:")


def mistakes(given: Members, names: Collection[str], where: str) -> Iterator[str]:
    """What is wrong in such an object; `names` are those of the functions."""
    found = list(mistakes_of(given, OF_ASYNCHRONOUS, where))
    yield from found
    for name in RECEIVERS if not found else ():
        if name not in given:
            continue
        place = f"{where}{name}: "
        if is_elsewhere(given[name]) or name not in OF_RECORDS:
            yield from mistakes_of_remote(given[name], place)
        elif given[name] not in names:
            yield f"{place}there is no function {shown(given[name])}"


def mistakes_of_remote(given: object, where: str) -> Iterator[str]:
    whole = given if isinstance(given, dict) else {"arn": given}
    yield from mistakes_within(whole, OF_RECEIVER, where, ["arn"], mistakes_in_remote)


def mistakes_in_remote(whole: Members, where: str) -> Iterator[str]:
    if ARN.fullmatch(whole["arn"]) is None:
        yield f"{where}{shown(whole['arn'])} must be the ARN of an SQS queue or an SNS topic, such as {EXAMPLE}"
    elif whole["arn"].endswith(".fifo"):
        yield f"{where}{shown(whole['arn'])} is first-in-first-out, which Lambda does not send to: name another one"
    if "url" in whole and not is_endpoint(whole["url"]):
        yield f"{where}url: {shown(whole['url'])} must be the address of a server, such as http://127.0.0.1:5000"


def receiver_of(given: object) -> Optional[Receiver]:
    """Who is meant; one elsewhere is at the server that is named, or else where SDKs would find it."""
    if given is None or not is_elsewhere(given):
        return given if isinstance(given, str) else None
    return remote_of(given)


def remote_of(given: object) -> Optional[Remote]:
    if given is None:
        return None
    whole: Members = given if isinstance(given, dict) else {"arn": given}
    made = Remote(whole["arn"], whole.get("url", ""))
    return made if made.url else made._replace(url=endpoint_of(made.service) or "")


def asynchronous_of(given: object) -> Optional[Asynchronous]:
    """By a member that is without mistakes; none if it refuses all."""
    if not given and given != {}:
        return None
    given = given if isinstance(given, dict) else {}
    return Asynchronous(given.get("retries", MOST_RETRIES), tuple(given.get("delays", DELAYS)),
                        given.get("maximumAge", OLDEST), receiver_of(given.get("onFailure")),
                        receiver_of(given.get("onSuccess")), remote_of(given.get("deadLetter")))


def refused(common: Optional[Asynchronous], of_functions: Mapping[str, Asynchronous], keeps_credentials: bool
            ) -> Iterator[str]:
    """Those to which nothing may be sent, since they are at AWS itself."""
    all_of: List[Tuple[str, Optional[Asynchronous]]] = [("", common), *(
        (f"function {name}: ", own) for name, own in of_functions.items())]
    seen: Dict[Remote, None] = {}
    for where, settings in all_of:
        for name, remote in settings.remotes() if settings else ():
            is_of_aws = not keeps_credentials if not remote.url else is_refused(remote.url, keeps_credentials)
            if is_of_aws and remote not in seen:
                seen[remote] = None
                yield (f"{where}asynchronous: {name}: {remote.arn} is at AWS itself: set "
                       f"AWS_ENDPOINT_URL_{remote.service.upper()}, write {{\"arn\": .., \"url\": "
                       "\"http://127.0.0.1:5000\"}, or start lambda_local up with --keep-credentials")
