"""What each published picture shows, kept so that a worker's choice can be told long after. Not proved."""
import bisect

from .addresses import socket_of
from .choices import choose
from .machine import Machine
from .profiles import ENVOY


class Pictured(Machine):
    """A machine that keeps what its pictures show."""

    def __init__(self, workers, format, profile):
        super().__init__(workers, format, profile)
        self.as_envoy = profile == ENVOY
        self.at_address, self.by_name, self.histories = {}, {}, {}

    def make(self, kind, item, is_in_place=False):
        super().make(kind, item, is_in_place)
        row = self.rows[self.next - 1]
        self.place_of(row)[row.number] = row
        self.histories[row.number] = ([], [])

    def place_of(self, row):
        """Where the generations are that one is looked for among: those of its address, or of its name."""
        return (self.at_address.setdefault(socket_of(row.content), {}) if row.kind == 'lds' else self.by_name.setdefault(row.name, {}))

    def destroy(self, number):
        row = self.rows.get(number)
        super().destroy(number)
        if row:
            self.place_of(row).pop(number)
            self.histories.pop(number)

    def publish(self, at):
        changed = [self.rows[number] for number in self.unpublished if number in self.rows]
        super().publish(at)
        for row in changed:
            if row.is_shown():
                versions, values = self.histories[row.number]
                versions.append(self.last)
                values.append(pictured(row))

    def choice(self, members, worker):
        return choose(Picture(self, self.held[worker]), members)

    def shown_in(self, rows, version):
        """(the generation of these that the picture of a version shows, what it shows of it, what that lacks), or None."""
        for row in rows.values():
            if row.in_picture(version, self.last):
                versions, values = self.histories[row.number]
                return (row, *values[bisect.bisect_right(versions, version) - 1])
        return None


class Picture:
    """A published picture, as a choice asks for it."""

    def __init__(self, machine, version):
        self.machine, self.version, self.tells_chains = machine, version, machine.as_envoy

    def listener(self, address, port):
        """The listener of TCP at an address."""
        return self.machine.shown_in(self.machine.at_address.get((address, port, False), {}), self.version)

    def cluster(self, name):
        return self.machine.shown_in(self.machine.by_name.get(name, {}), self.version)


def pictured(row):
    """What a picture shows of a generation: the hosts that may be chosen, or the routes of each name; and what lacks a secret."""
    if row.kind == 'cds':
        return [host for host in row.assigned if host[3] and (not row.checked or row.results.get(host[0]) is True)], row.lacks()
    return {name: table for (_, name), table in row.tables.items()}, row.lacks()


def follower(reading, format):
    """A machine that follows a journal of a script, and keeps the pictures, so that it can tell why a connection went where it went."""
    return Pictured(reading.workers, format, reading.profile)
