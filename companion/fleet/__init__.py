"""A companion of DOMINO: a client library, a shell, a runner and a server round the program."""

__version__ = "0.1.0"
