"""Brokers of messages: positions that come by topics, and changes that are published to them."""
