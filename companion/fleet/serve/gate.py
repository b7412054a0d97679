"""Who may come in: a token, and addresses of this machine alone where there is none."""

import hmac
import ipaddress
import re
import socket
from pathlib import Path

from fleet.errors import FleetError

LEAST_TOKEN = 16
"""The least bytes of a token."""
ALLOW_SECONDS = 10.0
"""How long a client has to give its token."""

_TOKEN = re.compile(rb":token[ \t]+([^ \t]+)[ \t]*")


class BadGate(FleetError):
    """The token isn't one, or the address isn't one to be reached without a token."""

    exit_status = 2


class Gate:
    """Lets clients in: all of them, or those that give the token."""

    def __init__(self, token: bytes = b"") -> None:
        self._token = token

    @property
    def is_open(self) -> bool:
        """Whether no token is needed."""
        return not self._token

    def lets_in(self, line: bytes) -> bool:
        """Whether the line gives the token. How long it takes doesn't tell how much of it is right."""
        match = _TOKEN.fullmatch(line)
        given = match.group(1) if match else b""
        return hmac.compare_digest(given, self._token)


def gate_of(file: Path | None) -> Gate:
    """The gate with the token that a file has. Raises BadGate and OSError."""
    return Gate() if file is None else Gate(token_of(file))


def token_of(file: Path) -> bytes:
    """The token that a file has, without the blanks round it. Raises BadGate and OSError."""
    token = file.read_bytes().strip()
    if len(token) < LEAST_TOKEN or not token.isascii() or len(token.split()) != 1:
        raise BadGate(f"{file} has no token: one word of at least {LEAST_TOKEN} characters of ASCII")
    return token


def check_host(host: str, gate: Gate) -> None:
    """Raises BadGate where other machines can reach the address and no token is needed."""
    try:
        found = socket.getaddrinfo(host, None, type=socket.SOCK_STREAM)
    except OSError as error:
        raise BadGate(f"the address {host} can't be used: {error.strerror}") from None
    addresses = {ipaddress.ip_address(str(each[4][0]).partition("%")[0]) for each in found}
    if gate.is_open and not all(address.is_loopback for address in addresses):
        raise BadGate(f"other machines can reach {host}: that needs --token")
