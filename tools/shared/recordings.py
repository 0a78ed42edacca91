"""The folder of a recording of tools/record, or what tools/look wrote. Not proved."""
import glob
import os

from .shown import quoted
from .statuses import Unreadable


# The script in a folder that tools/look wrote.
LOOKED_AT = 'script.jsonl'


def is_looked_at(path):
    """Whether a folder is one that tools/look wrote."""
    return all(os.path.exists(os.path.join(path, name)) for name in (LOOKED_AT, 'report.jsonl'))


def scripts_of(path):
    """The paths of the scripts of what is given: of a recording's folder those of its streams, of one of tools/look its script, and else the
    file itself."""
    if not os.path.isdir(path):
        return [path]
    if is_looked_at(path):
        return [os.path.join(path, LOOKED_AT)]
    found = sorted(glob.glob(f'{glob.escape(path)}/stream-[0-9][0-9][0-9].jsonl'))
    alone = os.path.join(path, 'client.jsonl')
    found += [alone] if os.path.exists(alone) else []
    if not found:
        raise Unreadable(f'{quoted(path, 200)} is no recording of tools/record, and no folder of tools/look: it has no client.jsonl, '
                         f'no stream-001.jsonl and no {LOOKED_AT}')
    return found
