"""The options by which a server has its log in a stream of Redis, and the address that they name."""

import argparse
import re
from dataclasses import dataclass
from pathlib import Path

from fleet.errors import FleetError
from fleet.options import whole

DEFAULT_KEY = "fleet"
_SERVER = re.compile(r"([A-Za-z0-9_.-]+|\[[0-9A-Fa-f:]+\])(?::([0-9]{1,5}))?")
_PORT = 6379
MOST_REPLICAS = 100


class BadStream(FleetError):
    """The options of the stream can't be had together."""

    exit_status = 2


@dataclass(frozen=True, slots=True)
class Address:
    """Where the stream is: the servers of Redis that may have it, its key, and the password that they want.

    `replicas` is how many copies of Redis must have an entry before its lines are answered.
    """

    servers: tuple[tuple[str, int], ...]
    key: str
    password: str | None = None
    replicas: int = 0

    def __str__(self) -> str:
        return f"{self.key} on {','.join(f'{host}:{port}' for host, port in self.servers)}"


def add_stream_arguments(parser: argparse.ArgumentParser) -> None:
    """Adds the options of the stream."""
    group = parser.add_argument_group("a stream of Redis as the log")
    group.add_argument(
        "--redis", metavar="HOST:PORT,..", type=_servers,
        help="the log is a stream of this Redis, and the folder of --log has a copy of it. Of several servers the one "
        "that is the primary is written to",
    )  # fmt: skip
    group.add_argument(
        "--stream", metavar="KEY", type=_key, default=DEFAULT_KEY, help=f"the key of the stream ({DEFAULT_KEY})"
    )
    group.add_argument(
        "--follow", action="store_true",
        help="follow the stream as a reader, of which there may be any number: its answers are those of the writer, and "
        "lines that change something are refused",
    )  # fmt: skip
    group.add_argument(
        "--replicas", metavar="NUMBER", type=whole(0, MOST_REPLICAS), default=0,
        help="how many replicas of Redis must have an entry before its lines are answered (0)",
    )  # fmt: skip
    group.add_argument(
        "--redis-password", metavar="FILE", type=Path, help="a file with the password that Redis wants"
    )


def address_of(arguments: argparse.Namespace) -> Address | None:
    """The address that the options name; None where there is no stream. Raises BadStream and OSError."""
    if arguments.redis is None:
        wanted = [option for option in ("follow", "replicas", "redis_password") if getattr(arguments, option)]
        if wanted:
            raise BadStream(f"--{wanted[0].replace('_', '-')} is of a stream, and --redis doesn't say where it is")
        return None
    if arguments.follow and (arguments.tick or arguments.session or arguments.replicas):
        raise BadStream("a reader has the clock and the log of the stream: no --tick, --session or --replicas")
    password = arguments.redis_password.read_text("utf-8").strip() if arguments.redis_password else None
    return Address(arguments.redis, arguments.stream, password, arguments.replicas)


def _servers(text: str) -> tuple[tuple[str, int], ...]:
    return tuple(_server(each) for each in text.split(","))


def _server(text: str) -> tuple[str, int]:
    match = _SERVER.fullmatch(text)
    if match is None or int(match.group(2) or _PORT) > 65_535:
        raise argparse.ArgumentTypeError(f"{text} isn't of the form HOST:PORT")
    return match.group(1).strip("[]"), int(match.group(2) or _PORT)


def _key(text: str) -> str:
    if not re.fullmatch(r"[!-~]{1,200}", text):
        raise argparse.ArgumentTypeError(f"{text} is no key of 1 to 200 characters of ASCII without a blank")
    return text
