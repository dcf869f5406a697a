"""Keeps the feed of a Jaqhumpi server at the best chain of a Namecoin Core node."""

__version__ = "0.1.0"
