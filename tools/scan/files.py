"""Files that are there whole or not at all."""

import os
import tempfile


def write_whole(name, content):
    """Writes the bytes under another name in the same folder, and renames the file: whoever sees the name sees all of it. A device or a
    pipe is written to as it is. Raises OSError with this name."""
    try:
        if os.path.exists(name) and not os.path.isfile(name):
            with open(name, "wb") as file:
                file.write(content)
        else:
            replace(os.path.realpath(name), content)
    except OSError as fault:
        fault.filename, fault.filename2 = name, None
        raise


def replace(name, content):
    """Makes the file of that content in one step."""
    handle, other = tempfile.mkstemp(prefix=".part-", dir=os.path.dirname(name))
    try:
        with os.fdopen(handle, "wb") as file:
            file.write(content)
        mask = os.umask(0)
        os.umask(mask)
        os.chmod(other, 0o666 & ~mask)
        os.replace(other, name)
    except BaseException:
        try:
            os.unlink(other)
        except OSError:
            pass
        raise
