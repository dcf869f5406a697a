"""Limits that a program is started with: each gives a function that `subprocess` calls before the program (`preexec_fn`)."""
import resource
import signal


def memory(size):
    """The program gets an address space of so many bytes and no more."""

    def limit():
        resource.setrlimit(resource.RLIMIT_AS, (size, size))

    return limit


def file_size(size):
    """No file gets longer than so many bytes. A write behind them has the system end the program by a signal, SIGXFSZ, as a shell leaves
    it: so whoever makes none goes on."""

    def limit():
        signal.signal(signal.SIGXFSZ, signal.SIG_DFL)
        resource.setrlimit(resource.RLIMIT_FSIZE, (size, size))

    return limit


def stack(size):
    """The program gets a stack of so many bytes and no more."""

    def limit():
        resource.setrlimit(resource.RLIMIT_STACK, (size, size))

    return limit
