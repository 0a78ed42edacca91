"""The archive and the libraries in it. The same entries give the same bytes."""
import gzip
import io
import os
import re
import tarfile

from . import said


def libraries(program):
    """The shared libraries of a program and their loader, as ldd names them; none where it is static or no such program."""
    return sorted(set(re.findall(r'(?:=> |^\s*)(/\S+) \(0x', said('ldd', program), re.M)))


def owner(path):
    """Debian's package of a library, with its version; its lists may name a file of /usr/lib as one of /lib."""
    real = os.path.realpath(path)
    name = next(filter(None, (said('dpkg-query', '-S', it).partition(': ')[0] for it in (real, path, re.sub('^/usr', '', real)))), '')
    return said('dpkg-query', '-W', '-f', '${Package} ${Version}', name) if name else ''


def archive(name, entries, seconds):
    """The bytes of the package: the same entries give the same."""
    packed = io.BytesIO()
    with gzip.GzipFile('', 'wb', 9, packed, mtime=0) as zipped, tarfile.open(fileobj=zipped, mode='w', format=tarfile.GNU_FORMAT) as tar:
        for path in sorted(entries):
            data, is_command = entries[path]
            entry = tarfile.TarInfo(f'{name}/{path}')
            entry.size, entry.mtime, entry.mode = len(data), seconds, 0o755 if is_command else 0o644
            tar.addfile(entry, io.BytesIO(data))
    return packed.getvalue()
