"""A stream of Redis as the log of several servers: one writes it, and any number of readers follow it."""
