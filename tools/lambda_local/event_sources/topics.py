"""A topic as an event source: each notification invokes the function asynchronously, with one record.

Between the topic and the function is a queue of the same server, which is made for this run and subscribed to the
topic: so nothing has to reach this machine from there, what comes while the function is busy waits, and the server's
own filter policies hold. At the end the subscription and the queue are removed."""
import contextlib
import json
import sys
import threading
import time
import uuid
from typing import Any, Dict, List

from ..clock.followed import Clock
from ..other_server import ANSWER_SECONDS, POLL_SECONDS, Asking, NoClient, client_of, code_of, is_refused, one_line
from ..outgoing import Log
from ..service import ask
from .members import OF_TOPIC_NAME, Topic
from .notifications import Confirmation, Notification, read

AT_ONCE = 10  # messages in one answer of a queue
VISIBILITY = 30  # seconds, after which a message that was not deleted comes again
FIRST_PAUSE, LONGEST_PAUSE = 0.5, 30.0  # seconds, after a fault of the server; each further one doubles it
LONGEST_UNTIL_THERE = 1.0  # seconds, if the server has no such topic (yet): what is published meanwhile is missed
FIRST_RETRY, LONGEST_RETRY = 0.05, 2.0  # seconds, if the function's queue of events is full
MOST_PAGES = 100  # of a list of topics
BETWEEN_LOOKS = 5.0  # seconds, after which it is asked whether the subscription is still there
ABSENT = ("NotFound", "NotFoundException", "AWS.SimpleQueueService.NonExistentQueue", "QueueDoesNotExist",
          "ResourceNotFoundException")


class NoTopic(Exception):
    """There is no such topic, or not yet."""


class Subscriber(Asking):
    """Gives a function the notifications of a topic. (Its queue holds a poll, and the function's events may have to
    wait: so each topic has a thread.)"""

    def __init__(self, topic: Topic, service: Any, clock: Clock, keeps_credentials: bool, stopping: threading.Event,
                 log: Log) -> None:
        super().__init__(f"topic of {topic.function}")
        self.topic, self.service, self.clock, self.stopping, self.log = topic, service, clock, stopping, log
        self.keeps_credentials, self.configuration = keeps_credentials, service.configuration
        self.region: str = topic.region or self.configuration["region"]
        self.arn = self.queue = self.queue_arn = self.subscription = ""
        self.begun = threading.Event()  # it is subscribed, or cannot be now
        self.pause, self.looked_at = 0.0, 0.0

    def say(self, text: str, level: str = "info", **members: object) -> None:
        self.log(self.topic.function, f"topic {self.topic.name}: {text}", level=level, kind="topic",
                 always=False, function=self.topic.function, **members)

    def run(self) -> None:
        try:
            self.sns = client_of("sns", self.topic.url, self.region, self.keeps_credentials)
            self.sqs = client_of("sqs", self.topic.url, self.region, self.keeps_credentials,
                                 POLL_SECONDS + ANSWER_SECONDS)
            while not self.stopping.is_set():
                self.step()
        except NoClient:
            self.say(f"it is not subscribed to, since {sys.executable} has no boto3: pip install boto3", "error")
        except Exception as fault:
            self.say(f"it is not subscribed to: {one_line(fault)}", "error")
        finally:
            self.begun.set()
            self.leave()

    def step(self) -> None:
        try:
            if not self.subscription:
                self.subscribe()
            elif time.monotonic() - self.looked_at > BETWEEN_LOOKS:
                self.looked_at = time.monotonic()
                self.asked(self.sns.get_subscription_attributes, SubscriptionArn=self.subscription)
            messages = self.received()
            if self.pause:
                self.say("it works again")
            self.pause = 0.0
        except Exception as fault:  # (whatever a server answers, and whatever the client makes of it)
            return self.wait_after(fault)
        finally:
            self.begun.set()
        for message in messages:
            if not self.stopping.is_set():
                self.take(message)

    def wait_after(self, fault: Exception) -> None:
        is_absent = isinstance(fault, NoTopic) or code_of(fault) in ABSENT
        most = LONGEST_UNTIL_THERE if is_absent else LONGEST_PAUSE
        if not self.pause and not self.stopping.is_set():
            why = str(fault) if isinstance(fault, NoTopic) else one_line(fault)
            self.say(f"no notifications come: {why}: it is asked again after pauses of up to {most:g} s", "error")
        if is_absent:
            self.subscription = ""
        if is_absent and not isinstance(fault, NoTopic):
            self.forget_queue()
        self.pause = min(most, 2 * self.pause or FIRST_PAUSE)
        self.stopping.wait(self.pause)

    # ---- the subscription --------------------------------------------------------------------------------------------

    def subscribe(self) -> None:
        self.arn = self.known_arn()
        name = f"lambda_local-{self.topic.function[:24]}-{self.topic.name[:24]}-{uuid.uuid4().hex[:12]}"
        if not self.queue:
            queue = self.asked(self.sqs.create_queue, QueueName=name,
                               Attributes={"VisibilityTimeout": str(VISIBILITY)}).get("QueueUrl")
            if not isinstance(queue, str) or is_refused(queue, self.keeps_credentials):
                raise NoTopic("its server gives no address of a queue of its own")
            self.queue = queue
        found = self.asked(self.sqs.get_queue_attributes, QueueUrl=self.queue, AttributeNames=["QueueArn"])
        self.queue_arn = str((found.get("Attributes") or {}).get("QueueArn", ""))
        self.asked(self.sqs.set_queue_attributes, QueueUrl=self.queue, Attributes={"Policy": json.dumps({
            "Version": "2012-10-17", "Statement": [{
                "Effect": "Allow", "Principal": {"Service": "sns.amazonaws.com"}, "Action": "sqs:SendMessage",
                "Resource": self.queue_arn, "Condition": {"ArnEquals": {"aws:SourceArn": self.arn}}}]})})
        attributes = {} if self.topic.policy is None else {"FilterPolicy": json.dumps(self.topic.policy)}
        attributes.update({} if self.topic.scope is None else {"FilterPolicyScope": self.topic.scope})
        made = self.asked(self.sns.subscribe, TopicArn=self.arn, Protocol="sqs", Endpoint=self.queue_arn,
                          Attributes=attributes, ReturnSubscriptionArn=True)
        self.subscription, self.looked_at = str(made.get("SubscriptionArn", "")), time.monotonic()
        self.say("it is subscribed to", subscription=self.subscription)

    def forget_queue(self) -> None:
        """The server has begun anew, or the topic was made anew: a new queue is subscribed to it."""
        queue, self.queue = self.queue, ""
        with contextlib.suppress(Exception):  # (it is mostly not there any more)
            self.asked(self.sqs.delete_queue, QueueUrl=queue)

    def known_arn(self) -> str:
        """The topic's ARN: the one that is given, the one with this account's number, or the one that its server lists
        under this name."""
        account = self.configuration["account"]
        by_name = f"arn:aws:sns:{self.region}:{account}:{self.topic.name}"
        listed: List[str] = []
        more: Dict[str, str] = {}
        for _ in range(MOST_PAGES):
            answer = self.asked(self.sns.list_topics, **more)
            topics = answer.get("Topics")
            listed += [str(one.get("TopicArn")) for one in topics or () if isinstance(one, dict)]
            token = answer.get("NextToken")
            if not isinstance(token, str) or not token:
                break
            more = {"NextToken": token}
        wanted = [self.topic.named] if self.topic.named.startswith("arn:") else [by_name, *(
            arn for arn in listed if (found := OF_TOPIC_NAME.fullmatch(arn)) and found[2] == self.topic.name)]
        for arn in wanted:
            if arn in listed:
                return arn
        raise NoTopic(f"its server has no topic {self.topic.named}: create it")

    def leave(self) -> None:
        """Removes what was made for this run, unless the server is in trouble."""
        if not self.queue:
            return
        if not self.pause:
            try:
                if self.subscription:
                    self.asked(self.sns.unsubscribe, SubscriptionArn=self.subscription)
                self.asked(self.sqs.delete_queue, QueueUrl=self.queue)
                return
            except Exception as fault:
                self.say(f"its queue {self.queue} could not be removed: {one_line(fault)}", "warning")
                return
        self.say(f"its server does not answer: the queue {self.queue} is left there", "warning")

    # ---- notifications -----------------------------------------------------------------------------------------------

    def received(self) -> List[Dict[str, Any]]:
        answer = self.asked(self.sqs.receive_message, QueueUrl=self.queue, MaxNumberOfMessages=AT_ONCE,
                            WaitTimeSeconds=POLL_SECONDS)
        given = answer.get("Messages") or []
        return [one for one in given if isinstance(one, dict) and isinstance(one.get("ReceiptHandle"), str)]

    def take(self, message: Dict[str, Any]) -> None:
        """Gives the function one notification. Whatever it is, it ends no other."""
        try:
            found = read(message.get("Body"), self.subscription)
            if isinstance(found, Confirmation):
                self.asked(self.sns.confirm_subscription, TopicArn=self.arn, Token=found.token)
                self.say("its subscription is confirmed")
            elif isinstance(found, Notification):
                if not self.send(found):
                    return
            else:
                self.say("a message of its server is left out: it is no notification of SNS", "error")
            self.asked(self.sqs.delete_message, QueueUrl=self.queue, ReceiptHandle=message["ReceiptHandle"])
        except Exception as fault:
            self.say(f"a message is not handled, or comes again: {one_line(fault)}", "error")

    def send(self, notification: Notification) -> bool:
        """Sends its event; whether it is over, accepted or not."""
        payload = json.dumps(notification.event, ensure_ascii=False).encode(errors="replace")
        pause = FIRST_RETRY
        while True:
            try:
                status, headers, body = ask(int(self.service.endpoint_url.rpartition(":")[2]), "POST",
                                            f"/2015-03-31/functions/{self.topic.function}/invocations", payload,
                                            {"X-Amz-Invocation-Type": "Event"})
            except OSError as fault:
                if not self.stopping.is_set():
                    self.say(f"notification {notification.message} has no outcome: {one_line(fault)}", "error")
                return self.stopping.is_set()
            if status != 429:
                break
            if self.clock.wait(self.stopping, pause):
                return False
            pause = min(LONGEST_RETRY, 2 * pause)
        if status == 202:
            request = headers.get("x-amzn-requestid", "")
            self.say(f"notification {notification.message}: event {request}", request=request)
        elif not self.stopping.is_set():
            self.say(f"notification {notification.message} is not taken: {status} "
                     f"{body.decode(errors='replace')[:200]}: it is dropped", "error")
        return True
