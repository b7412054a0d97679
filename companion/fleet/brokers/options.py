"""The options by which a server takes positions from a broker of MQTT, and publishes changes to it."""

import argparse
import re
from dataclasses import dataclass
from pathlib import Path
from typing import TYPE_CHECKING

from fleet.errors import FleetError
from fleet.options import some_ticks, whole
from fleet.ways.fields import add_column_arguments
from fleet.ways.planes import Plane, add_plane_arguments, comment, plane_in, settled, wanted_plane

if TYPE_CHECKING:
    from fleet.serve.log import Log

_BROKER = re.compile(r"(?:([!-?A-~]{1,100})@)?([A-Za-z0-9_.-]+|\[[0-9A-Fa-f:]+\])(?::([0-9]{1,5}))?")
_PORT = 1883
DEFAULT_TOPIC = "fleet/positions/+"
DEFAULT_PREFIX = "fleet"
_NAMES = "names.csv"


class BadBroker(FleetError):
    """The options of the broker can't be had together, or with what is there."""

    exit_status = 2


@dataclass(frozen=True, slots=True)
class BrokerAddress:
    """A broker, and the name and the password with which it is used."""

    host: str
    port: int
    user: str | None = None
    password: str | None = None

    def __str__(self) -> str:
        return f"{self.host}:{self.port}"


def add_broker_arguments(parser: argparse.ArgumentParser) -> None:
    """Adds the options of the broker."""
    group = parser.add_argument_group(
        "positions from MQTT",
        "Each message is an object of JSON with a longitude and a latitude, and what else --column and --attribute name.",
    )
    group.add_argument(
        "--mqtt", metavar="USER@HOST:PORT", type=_broker,
        help="take positions from the topics of this broker, and publish what changes of registered queries",
    )  # fmt: skip
    group.add_argument(
        "--mqtt-password", metavar="FILE", type=Path, help="a file with the password of the user"
    )
    group.add_argument(
        "--topic", metavar="FILTER", action="append",
        help=f"the topics of positions; what stands for + and # is the id, where a message has none ({DEFAULT_TOPIC})",
    )  # fmt: skip
    group.add_argument(
        "--publish", metavar="PREFIX", type=_prefix, default=DEFAULT_PREFIX,
        help=f"what the topics begin with to which is published ({DEFAULT_PREFIX}): PREFIX/changes/QUERY, "
        "PREFIX/silent and PREFIX/server",
    )  # fmt: skip
    group.add_argument(
        "--class", dest="class_name", metavar="CLASS", help="the class of the objects (else the only one with a place)"
    )
    group.add_argument(
        "--names", metavar="FILE", type=Path,
        help=f"a csv of the names that ids have which are no names ({_NAMES} in the log's folder)",
    )  # fmt: skip
    group.add_argument(
        "--hold", metavar="TICKS", type=some_ticks,
        help="for how long a speed holds; from then on the object counts as standing (else it goes on)",
    )  # fmt: skip
    group.add_argument(
        "--silent", metavar="SECONDS", type=whole(1, 31_536_000, "seconds"),
        help="remove an object of which nothing is heard for so long, until it reports again; reports that are as old "
        "aren't taken (else all stay)",
    )  # fmt: skip
    add_plane_arguments(group, can_choose=False)
    add_column_arguments(group, "property")


def broker_of(arguments: argparse.Namespace) -> BrokerAddress | None:
    """The broker that the options name; None where there is none. Raises BadBroker and OSError."""
    if arguments.mqtt is None:
        return None
    if arguments.follow:
        raise BadBroker("a reader takes no positions, so --mqtt isn't for it")
    address: BrokerAddress = arguments.mqtt
    if arguments.mqtt_password is None:
        return address
    password = arguments.mqtt_password.read_text("utf-8").strip()
    return BrokerAddress(address.host, address.port, address.user, password)


def names_path(arguments: argparse.Namespace, folder: Path) -> Path:
    """The file of the names of ids."""
    path: Path = arguments.names or folder / _NAMES
    return path


def kept_plane(arguments: argparse.Namespace, log: "Log") -> Plane:
    """The plane that the log names, or else an option; then the log names it from now on. Raises BadBroker, PlaneFault
    and what a commit raises."""
    plane = settled(wanted_plane(arguments), plane_in([log.plane]), log.path)
    if plane is None:
        raise BadBroker(
            "it isn't known on which plane the places lie: --zone EPSG:CODE or --local LON,LAT says it"
        )
    if not log.plane:
        log.name_plane(comment(plane).encode())
    return plane


def _broker(text: str) -> BrokerAddress:
    match = _BROKER.fullmatch(text)
    if match is None or int(match.group(3) or _PORT) > 65_535:
        raise argparse.ArgumentTypeError(f"{text} isn't of the form HOST:PORT or USER@HOST:PORT")
    return BrokerAddress(match.group(2).strip("[]"), int(match.group(3) or _PORT), match.group(1))


def _prefix(text: str) -> str:
    if not re.fullmatch(r"[A-Za-z0-9_.-]+(/[A-Za-z0-9_.-]+)*", text):
        raise argparse.ArgumentTypeError(f"{text} isn't a topic of letters, digits, _, ., - and /")
    return text
