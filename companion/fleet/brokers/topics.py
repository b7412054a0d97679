"""Topics of MQTT: filters of them, and the ids in them."""

from collections.abc import Iterable

from fleet.brokers.options import BadBroker

MOST_BYTES = 65_535


def check_filters(filters: Iterable[str], prefix: str) -> None:
    """Raises BadBroker where a text is no filter of topics, or a filter has topics to which is published."""
    for each in filters:
        levels = each.split("/")
        is_wrong = "#" in "".join(levels[:-1]) or any(len(level) > 1 and set(level) & set("+#") for level in levels)
        if not each or is_wrong or "\0" in each or len(each.encode()) > MOST_BYTES:
            raise BadBroker(f"{each} is no filter of topics, such as fleet/positions/+")
        for own in (f"{prefix}/changes/x", f"{prefix}/silent", f"{prefix}/server"):
            if matched(each, own) is not None:
                raise BadBroker(f"the topics {each} have {own} among them, to which is published")


def matched(its_filter: str, topic: str) -> str | None:
    """What stands in a topic for the + and # of a filter, with / between; None where the filter hasn't the topic."""
    found = []
    levels = topic.split("/")
    wanted = its_filter.split("/")
    for number, level in enumerate(wanted):
        if level == "#":
            return "/".join([*found, *levels[number:]])
        if number >= len(levels) or level not in ("+", levels[number]):
            return None
        if level == "+":
            found.append(levels[number])
    return "/".join(found) if len(levels) == len(wanted) else None
