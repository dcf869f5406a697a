"""Shows the names of a Namecoin chain as pages on this machine, over a Jaqhumpi program of its own."""

__version__ = "0.1.0"
