"""Makes a snapshot of names from the file of a Namecoin Core node's unspent outputs."""

__version__ = "0.1.0"
