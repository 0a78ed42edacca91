"""Fields of messages and resources in the proto3 JSON forms that docs/FORMATS.md lists. Not proved.

A Reader collects what is broken: (rule, path, words). A form gives the value, None where the field is absent, or WRONG.
"""
import functools
import re

from .profiles import ENVOY, OWN
from .shown import value_shown

WRONG = object()
MAX_NAME = 512
MAX_U32 = 2 ** 32 - 1
U32 = 'a whole number from 0 to 4294967295'
MAX_I64 = 2 ** 63 - 1
I64 = f'a whole number from 0 to {MAX_I64}, or the decimal text of one of 64 bits'
DURATION = re.compile(r'(-?)([0-9]{1,12})(?:\.([0-9]{1,9}))?s')
MOST_SECONDS = 315576000000

DISCOVERY = {'STATIC': 0, 'STRICT_DNS': 1, 'LOGICAL_DNS': 2, 'EDS': 3, 'ORIGINAL_DST': 4}
HEALTH = {'UNKNOWN': 0, 'HEALTHY': 1, 'UNHEALTHY': 2, 'DRAINING': 3, 'TIMEOUT': 4, 'DEGRADED': 5}
PROTOCOL = {'TCP': 0, 'UDP': 1}
SOURCE = {'ANY': 0, 'SAME_IP_OR_LOOPBACK': 1, 'EXTERNAL': 2}


@functools.lru_cache(1024)
def camel(name):
    return re.sub(r'_([a-z])', lambda found: found.group(1).upper(), name)


def get(holder, name):
    """A member by its name or its lowerCamelCase name; None where it is absent."""
    if not isinstance(holder, dict):
        return None
    found = holder.get(name)
    return holder.get(camel(name)) if found is None else found


def key_of(holder, name):
    """The spelling in which a member stands in its holder."""
    return name if holder.get(name) is not None or camel(name) not in holder else camel(name)


def size(text):
    return len(text.encode('utf-8'))


def lower(text):
    """A text with ASCII letters as lower case."""
    return text.lower() if text.isascii() else ''.join(letter.lower() if letter.isascii() else letter for letter in text)


class Reader:
    """Reads fields by either spelling, and notes each broken rule with its path. `as_envoy` is whether resources are read by the profile envoy."""

    def __init__(self, profile=OWN, form_rule=6):
        self.form_rule, self.broken, self.as_envoy = form_rule, [], profile == ENVOY

    def breaks(self, rule, path, words):
        self.broken.append((rule, path, words))

    def wrong(self, path, words):
        self.breaks(self.form_rule, path, words)
        return WRONG

    def least(self):
        """The broken rule of the least number, the first of it in order of reading; None where nothing is broken."""
        return min(self.broken, key=lambda broken: broken[0], default=None)

    def any(self, holder, name, path):
        """A member by its name or its lowerCamelCase name."""
        if not isinstance(holder, dict):
            return None
        second = camel(name)
        written, other = holder.get(name), holder.get(second)
        if second != name and written is not None and other is not None:
            return self.wrong(f'{path}.{second}', f'stands in both spellings, {name} and {second}')
        return other if written is None else written

    def path_of(self, holder, name, path):
        second = camel(name)
        spelled = name if isinstance(holder, dict) and holder.get(name) is not None else second
        return f'{path}.{spelled}' if path else spelled

    def form(self, holder, name, path, wanted, read):
        value = self.any(holder, name, path)
        if value is None or value is WRONG:
            return value
        result = read(value)
        if result is WRONG:
            return self.wrong(self.path_of(holder, name, path), f'is {value_shown(value)} and not {wanted}')
        return result

    def text(self, holder, name, path):
        return self.form(holder, name, path, 'a text', lambda v: v if isinstance(v, str) else WRONG)

    def object(self, holder, name, path):
        return self.form(holder, name, path, 'an object', lambda v: v if isinstance(v, dict) else WRONG)

    def boolean(self, holder, name, path):
        return self.form(holder, name, path, 'true or false', lambda v: v if isinstance(v, bool) else WRONG)

    def number(self, holder, name, path):
        return self.form(holder, name, path, U32, number32)

    def number64(self, holder, name, path):
        return self.form(holder, name, path, I64, number64)

    def duration(self, holder, name, path):
        """The sign of a duration: -1, 0 or 1."""
        return self.form(holder, name, path, 'a duration such as "5s" or "0.25s"', duration)

    def enumeration(self, holder, name, path, table):
        return self.form(holder, name, path, 'one of ' + ', '.join(table), lambda v: enumeration(v, table))

    def elements(self, holder, name, path, wanted, kind):
        """The elements of a list, each of the type `kind`; [] where it is absent or wrong."""
        found = self.form(holder, name, path, 'an array', lambda v: v if isinstance(v, list) else WRONG)
        if found is None or found is WRONG:
            return [] if found is None else WRONG
        for place, element in enumerate(found):
            if not isinstance(element, kind):
                where = f'{self.path_of(holder, name, path)}[{place}]'
                return self.wrong(where, f'is {value_shown(element)} and not {wanted}')
        return found

    def members(self, holder, path, forms):
        """The members that are there, each read by its form: {name: value or WRONG}, in the order of `forms`."""
        found = {name: form(self, holder, name, path) for name, form in forms.items()}
        return {name: value for name, value in found.items() if value is not None}

    def objects(self, holder, name, path):
        return self.elements(holder, name, path, 'an object', dict)

    def texts(self, holder, name, path):
        return self.elements(holder, name, path, 'a text', str)

    def numbers(self, holder, name, path):
        found = self.elements(holder, name, path, 'anything', object)
        numbers = [number32(element) for element in found] if found is not WRONG else []
        if WRONG not in numbers:
            return found if found is WRONG else numbers
        place = numbers.index(WRONG)
        return self.wrong(f'{self.path_of(holder, name, path)}[{place}]', f'is {value_shown(found[place])} and not {U32}')


def number32(value):
    if isinstance(value, str):
        if not re.fullmatch(r'[0-9]{1,10}', value):
            return WRONG
        value = int(value)
    if type(value) is not int or not 0 <= value <= MAX_U32:
        return WRONG
    return value


def number64(value):
    if isinstance(value, str):
        number = decimal(value)
        return WRONG if number is None else number
    return value if type(value) is int and 0 <= value <= MAX_I64 else WRONG


def decimal(text):
    """The number of 64 bits with a sign that a decimal text writes: a minus or none, then 1 to 19 digits; else None."""
    number = int(text) if re.fullmatch(r'-?[0-9]{1,19}', text) else None
    return number if number is not None and -MAX_I64 - 1 <= number <= MAX_I64 else None


def duration(value):
    if not isinstance(value, str):
        return WRONG
    parts = DURATION.fullmatch(value)
    if not parts or int(parts.group(2)) > MOST_SECONDS:
        return WRONG
    if not (parts.group(2) + (parts.group(3) or '')).strip('0'):
        return 0
    return -1 if parts.group(1) else 1


def enumeration(value, table):
    if isinstance(value, str):
        return table.get(value, WRONG)
    return value if type(value) is int and value in table.values() else WRONG
