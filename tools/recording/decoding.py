"""Messages from the wire as trees of the proto3 JSON mapping, and the other way for requests.

`json_format` of protobuf isn't used: it fails at an Any of a type that it doesn't know, and drops members that it doesn't
know. Here both are printed and counted.
"""
import base64
from collections import Counter

from google.protobuf import empty_pb2
from google.protobuf.message import DecodeError

from shared.fields import camel
from shared.shown import escaped, quoted

from .messages import CLASSES, ENUMS, FULL_NAMES

TYPE = 'type.googleapis.com/'
WRAPPERS = ('google.protobuf.UInt32Value', 'google.protobuf.BoolValue')
VARINT, FIXED_64, LENGTH_DELIMITED, GROUP, FIXED_32 = 0, 1, 2, 3, 5


class NotDecoded(Exception):
    """The bytes are no message of the type that they should be."""


def decoded(name, data):
    """The message of a full name, or NotDecoded."""
    try:
        return CLASSES[name].FromString(data)
    except (DecodeError, UnicodeDecodeError, ValueError) as refused:
        raise NotDecoded(f'{len(data)} bytes are no {name}: {escaped(refused)}') from None


OUTLINE = {4: 0, 5: 1}


def outline(data):
    """(type, nonce) of a response that can't be decoded, which both protocols have at the same numbers; None where they can't be read."""
    found = [None, None]
    try:
        for field in empty_pb2.Empty.FromString(data).UnknownFields():
            if field.field_number in OUTLINE and field.wire_type == LENGTH_DELIMITED:
                found[OUTLINE[field.field_number]] = field.data.decode()
    except (DecodeError, UnicodeDecodeError, ValueError, TypeError):
        pass
    return found


class Printer:
    """Prints messages as trees. `unknown` counts what it printed without knowing it, in words."""

    def __init__(self):
        self.unknown = Counter()

    def tree(self, message):
        """The object of a message: its members in lowerCamelCase, and the unknown ones as unknownField and the number."""
        full = FULL_NAMES.get(message.DESCRIPTOR.name, message.DESCRIPTOR.full_name)
        tree = {camel(field.name): self.member(full, field, value) for field, value in message.ListFields()}
        unknown = {}
        for name, value in self.unknown_members(message.UnknownFields()):
            self.unknown[f'{full} has {name}'] += 1
            unknown.setdefault(name, []).append(value)
        tree.update((name, values[0] if len(values) == 1 else values) for name, values in unknown.items())
        return tree

    def member(self, full, field, value):
        if field.label != field.LABEL_REPEATED:
            return self.value(full, field, value)
        if field.message_type and field.message_type.name.endswith('InitialResourceVersionsEntry'):
            return {entry.key: entry.value for entry in value}
        return [self.value(full, field, element) for element in value]

    def value(self, full, field, value):
        if field.message_type is None:
            names = ENUMS.get((full, field.name), [])
            if field.type == field.TYPE_INT64:
                return str(value)
            return names[value] if isinstance(value, int) and value < len(names) else value
        kind = field.message_type.full_name
        if kind == 'google.protobuf.Any':
            return self.any(value)
        if kind == 'google.protobuf.Duration':
            return duration(value)
        if kind == 'google.protobuf.Struct':
            return struct(value)
        return value.value if kind in WRAPPERS else self.tree(value)

    def any(self, value):
        """A body with its @type. One of a type that isn't known, or that can't be decoded, has its bytes as base64."""
        name = value.type_url.rpartition('/')[2]
        if name in CLASSES:
            try:
                return {'@type': value.type_url, **self.tree(decoded(name, value.value))}
            except NotDecoded:
                self.unknown[f'a body is no {name}, though it says so'] += 1
        else:
            self.unknown[f'a body of the type {quoted(name, 120) if name else "(none)"}'] += 1
        return {'@type': value.type_url, 'value': base64.b64encode(value.value).decode()}

    def unknown_members(self, fields):
        for field in fields:
            value = field.data
            if field.wire_type == LENGTH_DELIMITED:
                value = base64.b64encode(value).decode()
            elif field.wire_type == GROUP:
                value = dict(self.unknown_members(value))
            yield f'unknownField{field.field_number}', value


def duration(value):
    sign = '-' if value.seconds < 0 or value.nanos < 0 else ''
    fraction = f'.{abs(value.nanos):09}' if value.nanos else ''
    return f'{sign}{abs(value.seconds)}{fraction}s'


def struct(value):
    return {name: struct_value(part) for name, part in value.fields.items()}


def struct_value(value):
    kind = value.WhichOneof('kind')
    if kind == 'struct_value':
        return struct(value.struct_value)
    if kind == 'list_value':
        return [struct_value(part) for part in value.list_value.values]
    return None if kind in (None, 'null_value') else getattr(value, kind)


def encoded(name, tree):
    """The message of a full name from its tree, in this project's members alone: what a request of a journal has."""
    message = CLASSES[name]()
    fields = {camel(field.name): field for field in message.DESCRIPTOR.fields}
    for member, value in tree.items():
        field = fields[member]
        target = getattr(message, field.name)
        if member == 'initialResourceVersions':
            for key, version in value.items():
                target.add(key=key, value=version)
        elif field.label == field.LABEL_REPEATED:
            target.extend(value)
        elif field.message_type is not None and field.message_type.full_name == 'google.protobuf.Struct':
            put_struct(target, value)
        elif field.message_type is not None:
            target.CopyFrom(encoded(FULL_NAMES[field.message_type.name], value))
        else:
            setattr(message, field.name, value)
    return message


def put_struct(target, tree):
    """The members of a JSON object into a struct."""
    target.SetInParent()
    for key, value in tree.items():
        put_value(target.fields[key], value)


def put_value(target, value):
    if isinstance(value, dict):
        put_struct(target.struct_value, value)
    elif isinstance(value, list):
        target.list_value.SetInParent()
        for part in value:
            put_value(target.list_value.values.add(), part)
    elif value is None:
        target.null_value = 0
    elif isinstance(value, bool):
        target.bool_value = value
    elif isinstance(value, str):
        target.string_value = value
    else:
        target.number_value = value
