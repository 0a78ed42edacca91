"""Files that only their owner may read: what is in them may have secrets. Not proved."""
import os
import tempfile

from .shown import shown
from .statuses import CantWrite


def folder_of(path):
    """The folder that is given, made where it isn't there, or a new one."""
    try:
        if path is None:
            return tempfile.mkdtemp(prefix='warmgate-look-')
        os.makedirs(path, mode=0o700, exist_ok=True)
    except OSError as error:
        raise CantWrite(error.errno, f'{shown(path or tempfile.gettempdir(), 300)}: {error.strerror}') from None
    return path


def write(path, data):
    """Writes a file that only its owner may read."""
    try:
        with open(os.open(path, os.O_WRONLY | os.O_CREAT | os.O_TRUNC, 0o600), 'wb') as file:
            os.fchmod(file.fileno(), 0o600)
            file.write(data)
    except OSError as error:
        raise CantWrite(error.errno, f'{shown(path, 300)}: {error.strerror}') from None
