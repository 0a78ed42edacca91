"""What of a history is shown: the lines and names that were chosen, and in which order the names stand. `marks` are (line, words) of places
that are drawn as lines across all rows."""
import fnmatch

RANKS = 5
MOST_OPEN = 30
FEW_NAMES = 14


def number_of(x):
    """A place on the axis as a line."""
    return str(int(x))


class View:
    """`first` and `after` bound the axis; `only` is a pattern of names."""

    def __init__(self, history, first=None, last=None, only=None, marks=()):
        self.history, self.only, self.marks = history, only, list(marks)
        self.first = max(1, first or 1)
        self.after = min(history.end, last + 1) if last is not None else history.end
        self.after = max(self.after, self.first + 1)
        self.whole = self.first == 1 and self.after == history.end
        self.bands = [band for key, band in sorted(history.bands.items(), key=lambda item: (item[0][0] == 'cds', item[0][1]))
                      if self.names(band.name) and (self.lives(band) or any(self.at(r.x) for r in band.refusals))]
        self.left, self.anew = self.envoy_waits()
        self.left_of = {(wait.kind, wait.name): wait for wait in self.left}
        self.ranks = {id(band): self.rank(band) for band in self.bands}

    def names(self, name):
        return self.only is None or fnmatch.fnmatchcase(name, self.only)

    def at(self, x):
        return self.first <= x <= self.after

    def overlaps(self, start, stop):
        return start <= self.after and (stop is None or stop >= self.first)

    def span(self):
        return self.after - self.first

    def percent(self, x):
        """A place as a percentage of the track, 1.2 % of which is free at its end."""
        x = min(max(x, self.first), self.after)
        return round((x - self.first) / self.span() * 98.8, 3)

    def lives(self, band):
        return [life for life in band.lives if self.overlaps(life.born, life.stop)]

    def all_lives(self):
        return sorted((life for band in self.bands for life in self.lives(band)), key=lambda life: life.number)

    def refusals(self):
        return [refusal for refusal in self.history.refusals if self.at(refusal.x) and self.names(refusal.name)]

    def connections(self):
        names = {life.number for life in self.all_lives() if life.kind == 'lds'} if self.only is not None else None
        return [connection for connection in self.history.connections
                if self.overlaps(connection.x, connection.counted) and (names is None or connection.listener in names)]

    def lost(self):
        return [] if self.only is not None else [lost for lost in self.history.lost if self.at(lost[0])]

    def pictures(self):
        return [(x, version) for x, version in self.history.pictures if self.at(x)]

    def envoy_waits(self):
        """What Envoy would do otherwise: (waits that go on at the end, new generations that it would warm)."""
        found = [wait for wait in self.history.waits if self.at(wait.at) and self.names(wait.name)]
        return [wait for wait in found if wait.goes_on()], [wait for wait in found if wait.changed]

    # Trouble

    def long_wait(self):
        return max(8, self.span() * 0.04)

    def rank(self, band):
        """0 waits at the end, 1 an outage, 2 a refusal or connections that weren't served, 3 a long wait, 4 a long drain, 5 quiet."""
        lives = self.lives(band)
        if any(life.end is None and life.spans[-1][0] == 'warms' for life in lives):
            return 0
        if any(life.of('empty') for life in lives):
            return 1
        if any(self.at(refusal.x) for refusal in band.refusals) or any(c.not_served() and self.at(c.x) for c in band.connections):
            return 2
        if (band.kind, band.name) in self.left_of:
            return 3
        if any(stop - start >= self.long_wait() for life in lives for _, start, stop, _ in life.of('warms')):
            return 3
        if any(life.drained is not None and (life.end is None or life.stop - life.drained > self.span() * 0.05) for life in lives):
            return 4
        return RANKS

    def ordered(self):
        """(bands that stand open, bands with trouble that are folded, quiet bands)."""
        troubled = sorted((band for band in self.bands if self.ranks[id(band)] < RANKS), key=lambda band: self.ranks[id(band)])
        quiet = [band for band in self.bands if self.ranks[id(band)] == RANKS]
        if len(self.bands) <= FEW_NAMES:
            return troubled + quiet, [], []
        return troubled[:MOST_OPEN], troubled[MOST_OPEN:], quiet
