"""Files that come to their place when they are whole."""
import contextlib
import os
import secrets

BUFFER = 2**18


@contextlib.contextmanager
def placed(path):
    """A new file beside the path, which comes to stand there once all is written and synced; where that fails, nothing is left."""
    new = path.with_name(f".snapshot-{secrets.token_hex(8)}.new")
    try:
        with open(new, "xb", BUFFER) as out:
            yield out
            out.flush()
            os.fsync(out.fileno())
        os.replace(new, path)
        sync_folder(path.parent)
    except BaseException:
        new.unlink(missing_ok=True)
        raise


def sync_folder(folder):
    handle = os.open(folder, os.O_RDONLY | os.O_DIRECTORY)
    try:
        os.fsync(handle)
    finally:
        os.close(handle)
