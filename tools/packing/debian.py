"""The Debian package: where its files stand, what it depends on, and its bytes. The same files give the same bytes.

The program and the helpers stand in /usr/lib/warmgate, as in the archive, and their commands in /usr/bin: warmgate, and warmgate-NAME for
tools/NAME. The documents and examples are in /usr/share/doc/warmgate. Libraries are Debian's own.
"""
import datetime
import email.utils
import gzip
import hashlib
import io
import os
import re
import tarfile

from .archive import owner

LIB, DOC, MAN, COMPLETIONS = 'usr/lib/warmgate', 'usr/share/doc/warmgate', 'usr/share/man/man1', 'usr/share/bash-completion/completions'
MAN_PAGE, COMPLETION = 'docs/warmgate.1', 'tools/completions/warmgate.bash'
PROGRAM = f'{LIB}/bin/warmgate'
OVERRIDES = """# The program is what the gate has built, byte for byte: PROVENANCE has its sum.
warmgate: unstripped-binary-or-object [usr/lib/warmgate/bin/warmgate]
"""
COPYRIGHT = """Copyright (C) {year} {author}, and the others whom the history of the repository names.

The repository states no licence. Ask its owner before you pass this package on.
"""
CONTROL = """Package: warmgate
Version: {version}
Architecture: amd64
Maintainer: {author}
Installed-Size: {size}
Depends: {depends}
Recommends: python3-grpcio, python3-protobuf
Section: net
Priority: optional
Description: shows what a configuration stream does to a proxy
 warmgate replays a recorded xDS stream line by line, and writes a journal:
 every reply to the control plane, a verdict on every resource, which clusters
 and listeners warm, serve and drain, and which host a connection reaches.
 .
 The program is verified. Its helpers, warmgate-explain and others, print and
 draw a journal, and make scripts of Envoy's config dumps.
"""


class Link(str):
    """Where a symbolic link leads."""


def version_of(checkout):
    """0+git, the day, the time and the commit: a later commit is a later version."""
    moment = datetime.datetime.fromtimestamp(checkout.seconds, datetime.timezone.utc)
    return f'0+git{moment:%Y%m%d.%H%M%S}.{checkout.short}' + ('+changed' if checkout.has_changes else '')


def deb(checkout, entries, shared):
    """The bytes of a package of the archive's entries without its libraries; `shared` are those of the program."""
    version, files = version_of(checkout), placed(checkout, entries)
    size = sum(len(data) for data, _ in files.values() if not isinstance(data, Link)) // 1024 + 1
    control = CONTROL.format(version=version, author=checkout.author, size=size, depends=', '.join(depends(entries['bin/warmgate'][0], shared)))
    sums = ''.join(f'{hashlib.md5(data).hexdigest()}  {path}\n' for path, (data, _) in sorted(files.items()) if not isinstance(data, Link))
    about = {'control': (control.encode(), False), 'md5sums': (sums.encode(), False)}
    members = [('debian-binary', b'2.0\n'), ('control.tar.gz', packed(about, checkout.seconds)), ('data.tar.gz', packed(files, checkout.seconds))]
    return b'!<arch>\n' + b''.join(member(name, data, checkout.seconds) for name, data in members)


def placed(checkout, entries):
    """(path, (bytes or a link, whether it is a command)) of each file."""
    files = {f'{LIB}/{path}': entry for path, entry in entries.items() if path in ('bin/warmgate', 'PROVENANCE') or path.startswith('tools/') and path != COMPLETION}
    files.update((f'{DOC}/{path}', (data, False)) for path, (data, _) in entries.items() if path.startswith(('docs/', 'examples/')) or path.endswith('.md'))
    del files[f'{DOC}/{MAN_PAGE}']
    files.update((path, (for_python(data), True)) for path, (data, is_command) in files.items() if is_command and path != PROGRAM)
    files[f'{LIB}/warmgate'] = (installed_words(entries['warmgate'][0]), True)
    commands = {'warmgate': '../lib/warmgate/warmgate'}
    commands.update((f'warmgate-{path[6:]}', f'../lib/warmgate/{path}') for path in helpers(entries))
    files[f'{MAN}/warmgate.1.gz'] = (zipped(entries[MAN_PAGE][0]), False)
    files[f'{COMPLETIONS}/warmgate'] = (entries[COMPLETION][0], False)
    for name, target in commands.items():
        files[f'usr/bin/{name}'] = (Link(target), False)
        if name != 'warmgate':
            files[f'{MAN}/{name}.1.gz'] = (Link('warmgate.1.gz'), False)
            files[f'{COMPLETIONS}/{name}'] = (Link('warmgate'), False)
    files[f'{DOC}/copyright'] = (COPYRIGHT.format(year=checkout.date[:4], author=checkout.author).encode(), False)
    files[f'{DOC}/changelog.gz'] = (zipped(changelog(checkout).encode()), False)
    files['usr/share/lintian/overrides/warmgate'] = (OVERRIDES.encode(), False)
    return files


def helpers(entries):
    """The paths of the commands in tools/."""
    return sorted(path for path, (_, is_command) in entries.items() if is_command and re.fullmatch('tools/[a-z_]+', path))


def for_python(data):
    """A command in Python begins with Debian's own."""
    return re.sub(rb'^#!/usr/bin/env python3\n', b'#!/usr/bin/python3\n', data)


def installed_words(data):
    """The text of ./warmgate, which names the helpers and itself as they are called where they are installed."""
    return re.sub(rb'tools/([a-z]+)', rb'warmgate-\1', data.replace(b'./warmgate ', b'warmgate '))


def changelog(checkout):
    day = email.utils.format_datetime(datetime.datetime.fromtimestamp(checkout.seconds, datetime.timezone.utc))
    return f'warmgate ({version_of(checkout)}) unstable; urgency=medium\n\n  * Of the commit {checkout.commit}.\n\n -- {checkout.author}  {day}\n'


def depends(program, shared):
    """What the package needs: Python, and the packages of the program's libraries, of libc at least the version whose names it has."""
    found = {name.split(' ')[0].partition(':')[0] for name in map(owner, shared) if name}
    versions = [tuple(map(int, version.split(b'.'))) for version in re.findall(rb'GLIBC_(\d+\.\d+)', program)]
    least = {'libc6': f'libc6 (>= {".".join(map(str, max(versions)))})'} if versions else {}
    return ['python3 (>= 3.9)', *sorted(least.get(name, name) for name in found | set(least))]


def zipped(data):
    packed_data = io.BytesIO()
    with gzip.GzipFile('', 'wb', 9, packed_data, mtime=0) as file:
        file.write(data)
    return packed_data.getvalue()


def packed(files, seconds):
    """The bytes of a tar of files, with the folders above them."""
    made, folders = io.BytesIO(), set()
    with tarfile.open(fileobj=made, mode='w', format=tarfile.GNU_FORMAT) as tar:
        for path in sorted(files):
            data, is_command = files[path]
            parts = path.split('/')[:-1]
            for depth in range(len(parts) + 1):
                folder = '/'.join(['.', *parts[:depth]])
                if folder not in folders:
                    folders.add(folder)
                    tar.addfile(entry_of(folder, seconds, 0o755, tarfile.DIRTYPE))
            if isinstance(data, Link):
                entry = entry_of(f'./{path}', seconds, 0o777, tarfile.SYMTYPE)
                entry.linkname = str(data)
                tar.addfile(entry)
            else:
                entry = entry_of(f'./{path}', seconds, 0o755 if is_command else 0o644)
                entry.size = len(data)
                tar.addfile(entry, io.BytesIO(data))
    return zipped(made.getvalue())


def entry_of(name, seconds, mode, kind=tarfile.REGTYPE):
    entry = tarfile.TarInfo(name)
    entry.mtime, entry.mode, entry.type, entry.uname, entry.gname = seconds, mode, kind, 'root', 'root'
    return entry


def member(name, data, seconds):
    """A member of an ar archive."""
    return f'{name:<16}{seconds:<12}{0:<6}{0:<6}{"100644":<8}{len(data):<10}`\n'.encode() + data + b'\n' * (len(data) % 2)


def unpacked(package, folder):
    """Unpacks the files of a package, as dpkg does, without it."""
    with open(package, 'rb') as file:
        data, place = file.read(), 8
    while place < len(data):
        name, size = data[place:place + 16].decode().strip(), int(data[place + 48:place + 58])
        if name.startswith('data.tar'):
            with tarfile.open(fileobj=io.BytesIO(data[place + 60:place + 60 + size])) as tar:
                tar.extractall(folder)
        place += 60 + size + size % 2
    return os.path.isdir(f'{folder}/{LIB}')
