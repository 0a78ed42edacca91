"""The lines of a script that is made, read by the rules of scripts as they are written: each once."""
from shared import script
from shared.statuses import Unreadable
from shared.whole import Whole


class NoScript(Unreadable):
    """A line that was made is none of a script: its place in the script and in the input, in words."""


class Checked:
    """`reading` has what was read of the header, and with `keeps` of each line."""

    def __init__(self, is_whole, keeps):
        self.reading, self.keeps = script.Reading(), keeps
        self.reading.whole = Whole() if is_whole else None

    def head(self, data, origin):
        """Reads the header. `origin` says what it was made of."""
        self.refuse(script.read_line(self.reading, 1, data, False), origin)

    def line(self, number, data):
        """(the line, None), or (None, the fault)."""
        _, _, fault = next(script.cut(data))
        if fault:
            fault.line = number
        fault = fault or script.read_line(self.reading, number, data, False)
        if fault:
            return None, fault
        return self.reading.lines[-1] if self.keeps else self.reading.lines.pop(), None

    def refuse(self, fault, origin):
        if fault:
            raise NoScript(words_of(fault, origin))


def words_of(fault, origin):
    told = '; '.join(' '.join(filter(None, part)) for part in fault.complaints[:3])
    return f'line {fault.line} of the script would be no line of one (fault {fault.kind}), made of {origin}: {told}'
