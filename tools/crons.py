"""Rotation schedules by Python's calendar: what texts are schedules, when each comes next, and schedules that are made up.

It shares nothing with the program but the rules of docs/RULES.md.
"""

import calendar
import datetime
import re

MONTHS = "JAN FEB MAR APR MAY JUN JUL AUG SEP OCT NOV DEC".split()
WEEKDAYS = "SUN MON TUE WED THU FRI SAT".split()
HOUR = 3600
DAY = 86400
YEARS = 400
NUMBER = re.compile("0|[1-9][0-9]*")
# The fields of a cron: their least and greatest numbers, the names of these, and what else may stand for the whole field.
FIELDS = [(0, 23, [], ["*"]), (1, 31, [], ["*", "?", "L"]), (1, 12, MONTHS, ["*"]), (1, 7, WEEKDAYS, ["*", "?"])]


def is_number(text, low, high):
    return bool(NUMBER.fullmatch(text)) and low <= int(text) <= high


def is_item(item, low, high, names):
    """Whether an item of a field is a number, a range or steps."""

    def is_point(text):
        return text in names or is_number(text, low, high)

    if "/" in item:
        start, step = item.split("/", 1)
        return (start in ("", "*") or is_point(start)) and is_number(step, 1, 31)
    if "-" in item:
        first, last = item.split("-", 1)
        return is_point(first) and is_point(last) and point(first, names) <= point(last, names)
    return is_point(item)


def is_field(field, low, high, names, whole):
    return field in whole or all(is_item(item, low, high, names) for item in field.split(","))


def is_rate(inner):
    number, _, unit = inner.partition(" ")
    return unit in ("hour", "hours") and is_number(number, 4, 24000) or unit in ("day", "days") and is_number(number, 1, 1000)


def is_cron(inner):
    minute, *fields = inner.split(" ")
    if minute != "0" or len(fields) != 5 or fields.pop() != "*":
        return False
    return all(is_field(field, *form) for field, form in zip(fields, FIELDS))


def is_schedule(text):
    if not text.endswith(")"):
        return False
    kind, _, inner = text[:-1].partition("(")
    return kind == "rate" and is_rate(inner) or kind == "cron" and is_cron(inner)


def is_expression(text):
    """Whether a text is a schedule that may be kept."""
    return len(text.encode()) <= 256 and is_schedule(text)


def point(text, names):
    return names.index(text) + 1 if text in names else int(text)


def numbers(field, low, high, names, whole):
    """The numbers that a field names."""
    if field in whole:
        return set(range(low, high + 1))
    found = set()
    for item in field.split(","):
        if "/" in item:
            start, step = item.split("/")
            found |= set(range(low if start in ("", "*") else point(start, names), high + 1, int(step)))
        elif "-" in item:
            first, last = item.split("-")
            found |= set(range(point(first, names), point(last, names) + 1))
        else:
            found.add(point(item, names))
    return found


def next_rate(moment, inner):
    number, unit = inner.split()
    return moment + int(number) * (HOUR if unit.startswith("hour") else DAY)


def next_cron(moment, inner):
    """The next moment: days are dates of Python's calendar, one after the other."""
    fields = inner.split()[1:5]
    hours, days, months, weekdays = (numbers(field, *form) for field, form in zip(fields, FIELDS))
    is_by_last = fields[1] == "L"
    date = datetime.date(1970, 1, 1) + datetime.timedelta(days=moment // DAY)
    for _ in range(YEARS * 366):
        is_last = date.day == calendar.monthrange(date.year, date.month)[1]
        is_named = is_last if is_by_last else date.day in days
        if date.month in months and is_named and date.isoweekday() % 7 + 1 in weekdays:
            begin = (date - datetime.date(1970, 1, 1)).days * DAY
            for hour in sorted(hours):
                if begin + hour * HOUR > moment:
                    return begin + hour * HOUR
        date += datetime.timedelta(days=1)
    return None


def next_of(moment, schedule):
    """When a schedule comes next after a moment, or None where it never does."""
    kind, inner = schedule[:-1].split("(")
    return next_rate(moment, inner) if kind == "rate" else next_cron(moment, inner)


def some_field(chance, low, high, names, extra):
    """A field, made up."""
    if chance.random() < 0.3:
        return chance.choice(["*", *extra])

    def named(number):
        return names[number - 1] if names and chance.random() < 0.5 else str(number)

    items = []
    for _ in range(chance.choice([1, 1, 1, 2, 3])):
        first = chance.randint(low, high)
        form = chance.random()
        if form < 0.6:
            items.append(named(first))
        elif form < 0.8:
            items.append(f"{named(first)}-{named(chance.randint(first, high))}")
        else:
            items.append(f"{chance.choice([named(first), '*', ''])}/{chance.randint(1, 31)}")
    return ",".join(items)


def some_schedule(chance):
    """A schedule, made up."""
    if chance.random() < 0.1:
        return f"rate({chance.randint(4, 1000)} {chance.choice(['hour', 'hours', 'day', 'days'])})"
    hours = some_field(chance, 0, 23, [], [])
    days = some_field(chance, 1, 31, [], ["?", "L"])
    months = some_field(chance, 1, 12, MONTHS, [])
    weekdays = some_field(chance, 1, 7, WEEKDAYS, ["?"])
    return f"cron(0 {hours} {days} {months} {weekdays} *)"
