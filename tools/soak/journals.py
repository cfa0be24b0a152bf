"""Journals made of events and their reports: each as it was, and with one report changed, to be answered by `check`."""
from machine import Machine

def joined(events, reports):
    """The journal of events with their reports alone, which are in order in any case."""
    return [f"{event} -> {report}" for event, report in zip(events, reports)]


def changed_list(draw, words):
    """Numbers with one left out, one twice, two exchanged, or one raised."""
    name, *numbers = words
    if not numbers:
        return f"{name} {draw.randrange(8)}"
    place, other = draw.randrange(len(numbers)), draw.randrange(len(numbers))
    kind = draw.randrange(4)
    if kind == 0:
        del numbers[place]
    elif kind == 1:
        numbers.insert(other, numbers[place])
    elif kind == 2:
        numbers[place], numbers[other] = numbers[other], numbers[place]
    else:
        numbers[place] = str(int(numbers[place]) + 1)
    return " ".join([name, *numbers])


def changed_turn(draw, parts):
    """A turn's report with another end, a reply left out, one twice, or two exchanged."""
    first, *replies, last = parts
    kind = draw.randrange(4)
    if kind == 0 or not replies:
        return "; ".join([first, *replies, draw.choice(("idle", "again", "done", "gone"))])
    place, other = draw.randrange(len(replies)), draw.randrange(len(replies))
    if kind == 1:
        del replies[place]
    elif kind == 2:
        replies.insert(other, replies[place])
    else:
        replies[place], replies[other] = replies[other], replies[place]
    return "; ".join([first, *replies, last])


def changed(draw, report, others):
    if draw.random() < 0.3:
        return draw.choice(others)
    if report.startswith("turn "):
        return changed_turn(draw, report.split("; "))
    if report.startswith(("fired", "drained")):
        return changed_list(draw, report.split(" "))
    return draw.choice(others)


def with_one_changed(draw, lines, reports):
    """The journal with the report of one line changed, as far as there is a line with a report."""
    places = [place for place, line in enumerate(lines) if " -> " in line]
    if not places:
        return lines
    # clock steps more often than they stand there
    clocks = [place for place in places if lines[place].startswith("clock ")]
    place = draw.choice(clocks if clocks and draw.random() < 0.5 else places)
    event, report = lines[place].split(" -> ")
    return [*lines[:place], f"{event} -> {changed(draw, report, reports)}", *lines[place + 1:]]


def verdict(words, lines):
    """What a check is to write and to end with, by the independent machine."""
    machine = Machine(words[1], *(int(word) for word in words[2:]))
    for place, line in enumerate(lines, 1):
        if " -> " in line and not machine.check(*line.split(" -> ")):
            return f"no {place}\n", 11
    return "yes\n", 0
