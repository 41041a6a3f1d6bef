"""The expressions of a schedule, `rate(..)` and `cron(..)` (EventBridge User Guide, "Schedule expressions"): when they
fire next, in UTC or in the time of a zone."""
import calendar
import re
from datetime import datetime, timedelta, timezone, tzinfo
from typing import Callable, FrozenSet, List, NamedTuple, Optional

RATE = re.compile(r"rate\(([0-9]{1,9}) (minute|hour|day)(s?)\)")
CRON = re.compile(r"cron\((.*)\)", re.DOTALL)
SECONDS = {"minute": 60, "hour": 3600, "day": 86400}
MONTHS = "JAN FEB MAR APR MAY JUN JUL AUG SEP OCT NOV DEC".split()
DAYS = "SUN MON TUE WED THU FRI SAT".split()  # from 1
EXAMPLES = '"rate(5 minutes)" or "cron(0 12 * * ? *)"'


class WrongExpression(Exception):
    """Why this is not an expression."""


class Field(NamedTuple):
    name: str
    least: int
    most: int
    names: List[str]  # of its values, from the least


MINUTES, HOURS = Field("minutes", 0, 59, []), Field("hours", 0, 23, [])
DAY_OF_MONTH, MONTH = Field("day-of-month", 1, 31, []), Field("month", 1, 12, MONTHS)
DAY_OF_WEEK, YEAR = Field("day-of-week", 1, 7, DAYS), Field("year", 1970, 2199, [])
FIELDS = (MINUTES, HOURS, DAY_OF_MONTH, MONTH, DAY_OF_WEEK, YEAR)


class Rate(NamedTuple):
    seconds: int

    def next_after(self, moment: datetime) -> Optional[datetime]:
        try:
            return moment + timedelta(seconds=self.seconds)
        except OverflowError:
            return None


class Cron(NamedTuple):
    minutes: FrozenSet[int]
    hours: FrozenSet[int]
    months: FrozenSet[int]
    years: FrozenSet[int]
    is_day: Callable[[datetime], bool]
    zone: tzinfo = timezone.utc

    def next_after(self, moment: datetime) -> Optional[datetime]:
        """The first moment after this one; none if there is none any more."""
        begin = moment.astimezone(self.zone).replace(second=0, microsecond=0) + timedelta(minutes=1)
        times = [(hour, minute) for hour in sorted(self.hours) for minute in sorted(self.minutes)]
        for year in sorted(year for year in self.years if year >= begin.year):
            for month in sorted(self.months):
                if (year, month) < (begin.year, begin.month):
                    continue
                for day in range(1, calendar.monthrange(year, month)[1] + 1):
                    date = datetime(year, month, day, tzinfo=self.zone)
                    if date + timedelta(days=1) <= begin or not self.is_day(date):
                        continue
                    for hour, minute in times:
                        found = date.replace(hour=hour, minute=minute)
                        if found >= begin and found.astimezone(timezone.utc) > moment and exists(found):
                            return found.astimezone(timezone.utc)
        return None


def exists(moment: datetime) -> bool:
    """Whether clocks of its zone show this time: not in the hour that they leave out in spring."""
    there = moment.astimezone(timezone.utc).astimezone(moment.tzinfo)
    return there.replace(tzinfo=None) == moment.replace(tzinfo=None)


def value_of(text: str, field: Field) -> int:
    if text.upper() in field.names:
        return field.least + field.names.index(text.upper())
    if not re.fullmatch("[0-9]{1,4}", text) or not field.least <= int(text) <= field.most:
        names = f", or {field.names[0]} to {field.names[-1]}" if field.names else ""
        raise WrongExpression(f"{field.name} must be from {field.least} to {field.most}{names}, not {text[:40]}")
    return int(text)


def values_of(part: str, field: Field) -> FrozenSet[int]:
    """The values of `*`, `a`, `a-b`, and each of them with `/n`, in a list between commas."""
    values: List[int] = []
    for item in part.split(","):
        begin, slash, step = item.partition("/")
        if slash and not (re.fullmatch("[0-9]{1,4}", step) and 0 < int(step) <= field.most):
            raise WrongExpression(f"{field.name}: after / there is a number from 1 to {field.most}, not {step[:40]}")
        first, dash, last = begin.partition("-")
        if begin == "*":
            least, most = field.least, field.most
        else:
            least = value_of(first, field)
            most = value_of(last, field) if dash else field.most if slash else least
        if least > most:
            raise WrongExpression(f"{field.name}: {begin[:40]} ends before it begins")
        values += range(least, most + 1, int(step) if slash else 1)
    return frozenset(values)


def last_of(date: datetime) -> int:
    return calendar.monthrange(date.year, date.month)[1]


def day_of_week(date: datetime) -> int:
    """From 1, for Sunday."""
    return date.isoweekday() % 7 + 1


def nearest_weekday(date: datetime, day: int) -> int:
    """The day from Monday to Friday that is nearest to this one, in the same month."""
    day = min(day, last_of(date))
    weekday = date.replace(day=day).isoweekday()
    if weekday == 6:
        return day - 1 if day > 1 else day + 2
    if weekday == 7:
        return day + 1 if day < last_of(date) else day - 2
    return day


def by_day_of_month(part: str) -> Callable[[datetime], bool]:
    if part == "L":
        return lambda date: date.day == last_of(date)
    if match := re.fullmatch("([0-9]{1,2})W", part):
        day = value_of(match[1], DAY_OF_MONTH)
        return lambda date: day <= last_of(date) and date.day == nearest_weekday(date, day)
    days = values_of(part, DAY_OF_MONTH)
    return lambda date: date.day in days


def by_day_of_week(part: str) -> Callable[[datetime], bool]:
    if part == "L":
        return lambda date: day_of_week(date) == 7
    if match := re.fullmatch("([0-9]|[A-Za-z]{3})L", part):
        last = value_of(match[1], DAY_OF_WEEK)
        return lambda date: day_of_week(date) == last and date.day > last_of(date) - 7
    if match := re.fullmatch("([0-9]|[A-Za-z]{3})#([0-9])", part):
        day, number = value_of(match[1], DAY_OF_WEEK), int(match[2])
        if not 1 <= number <= 5:
            raise WrongExpression(f"day-of-week: after # there is a number from 1 to 5, not {number}")
        return lambda date: day_of_week(date) == day and (date.day - 1) // 7 + 1 == number
    days = values_of(part, DAY_OF_WEEK)
    return lambda date: day_of_week(date) in days


def cron_of(inside: str) -> Cron:
    parts = inside.split()
    if len(parts) != len(FIELDS):
        names = " ".join(field.name for field in FIELDS)
        raise WrongExpression(f"cron has six fields, {names}, not {len(parts)}")
    minutes, hours, of_month, month, of_week, year = parts
    if (of_month == "?") == (of_week == "?"):
        raise WrongExpression("one of day-of-month and day-of-week must be ?, and the other says the days")
    is_day = by_day_of_week(of_week) if of_month == "?" else by_day_of_month(of_month)
    return Cron(values_of(minutes, MINUTES), values_of(hours, HOURS), values_of(month, MONTH), values_of(year, YEAR),
                is_day)


def rate_of(text: str) -> Rate:
    match = RATE.fullmatch(text)
    if not match or int(match[1]) == 0:
        raise WrongExpression("rate has a whole number from 1 and minutes, hours or days, such as rate(5 minutes)")
    if (int(match[1]) == 1) == (match[3] == "s"):
        raise WrongExpression("rate(1 minute) has its unit in the singular, and rate(2 minutes) in the plural")
    return Rate(int(match[1]) * SECONDS[match[2]])


def zone_of(name: str) -> tzinfo:
    try:
        import zoneinfo
        return zoneinfo.ZoneInfo(name)
    except (ImportError, ValueError, OSError, KeyError):  # (KeyError: it is not in the system's time zones)
        raise WrongExpression(f"there is no time zone {name[:60]}: write one such as Europe/Berlin") from None


def expression_of(text: str, zone: Optional[str] = None) -> "Rate | Cron":
    """What a text says, in UTC or in the time of a zone; WrongExpression if it is no expression, or never fires
    again."""
    if len(text) > 256:
        raise WrongExpression("an expression has at most 256 characters")
    match = CRON.fullmatch(text)
    if not match and not text.startswith("rate("):
        raise WrongExpression(f"write {EXAMPLES}")
    made: "Rate | Cron" = cron_of(match[1]) if match else rate_of(text)
    if zone is not None:
        there = zone_of(zone)
        made = made._replace(zone=there) if isinstance(made, Cron) else made
    if made.next_after(datetime.now(timezone.utc)) is None:
        raise WrongExpression("it never fires: no date is as it says")
    return made
