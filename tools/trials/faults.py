"""Faults by line and kind: of scripts, and of scripts with their journals."""
import tempfile

from shared import script
from trials import called, tool

HEADER = b'{"workers":1}\n'
SETTLE = b'{"op":"settle","worker":0}\n'
ACCEPT = '{"op":"accept","worker":0,"conn":1,"address":"10.1.0.1","port":80%s}\n'
CDS = 'type.googleapis.com/envoy.config.cluster.v3.Cluster'


def message(text):
    return HEADER + ('{"op":"response","message":%s}\n' % text).encode()


def padded(line, size):
    return line + b' ' * (size - len(line))


JOURNAL = b'{"format":2,"workers":1}\n'
ROW = b'{"actor":"w0","answer":{"closed":[],"version":0},"at":2,"op":"settle","step":0}\n'
END = b'{"end":1}\n'

# (words, input, line and kind of the fault or None)
FAULTS = [
    ('no input', b'', (1, 8)),
    ('a header alone', b'{"workers":1}', None),
    ('blanks round a header', b' \t{"workers":1}\r\n', None),
    ('an empty first line', b'\n', (1, 4)),
    ('workers as a text', b'{"workers":"1"}\n', (1, 5)),
    ('workers 1.0', b'{"workers":1.0}\n', (1, 5)),
    ('workers true', b'{"workers":true}\n', (1, 5)),
    ('17 workers', b'{"workers":17}\n', (1, 5)),
    ('16 workers', b'{"workers":16}\n', None),
    ('the last of repeated keys', b'{"workers":17,"workers":1}\n', None),
    ('auto null', b'{"workers":1,"auto":null}\n', (1, 5)),
    ('an empty node', b'{"workers":1,"node":""}\n', (1, 5)),
    ('a node of 513 bytes', b'{"workers":1,"node":"' + 'é'.encode() * 256 + b'x"}\n', (1, 5)),
    ('a node of 512 bytes', b'{"workers":1,"node":"' + 'é'.encode() * 256 + b'"}\n', None),
    ('a member of another kind of line', b'{"workers":1,"op":"connect"}\n', (1, 5)),
    ('an array', HEADER + b'[]\n', (2, 6)),
    ('op null', HEADER + b'{"op":null}\n', (2, 6)),
    ('worker 1 of 1', HEADER + b'{"op":"settle","worker":1}\n', (2, 7)),
    ('a worker beyond 32 bits', HEADER + b'{"op":"settle","worker":4294967296}\n', (2, 6)),
    ('a worker of -0', HEADER + b'{"op":"settle","worker":-0}\n', (2, 6)),
    ('pick of 64 bits', HEADER + (ACCEPT % ',"pick":18446744073709551615').encode(), None),
    ('pick beyond 64 bits', HEADER + (ACCEPT % ',"pick":18446744073709551616').encode(), (2, 6)),
    ('a path of 8192 bytes', HEADER + (ACCEPT % f',"path":"{"p" * 8192}"').encode(), None),
    ('a host of 513 bytes', HEADER + (ACCEPT % f',"host":"{"h" * 513}"').encode(), (2, 6)),
    ('an empty host', HEADER + (ACCEPT % ',"host":""').encode(), None),
    ('a timeout of eds without a name', HEADER + b'{"op":"fetchTimeout","type":"eds"}\n', (2, 6)),
    ('a time to live of all clusters', HEADER + b'{"op":"ttlExpired","type":"cds"}\n', (2, 6)),
    ('a time to live', HEADER + b'{"op":"ttlExpired","type":"cds","name":"a"}\n', None),
    ('NaN', HEADER + b'{"op":NaN}\n', (2, 4)),
    ('a number out of range', HEADER + b'{"op":1e400}\n', (2, 4)),
    ('a whole number out of range', HEADER + b'{"op":' + b'9' * 400 + b'}\n', (2, 4)),
    ('a number of 5000 digits after a point', HEADER + b'{"op":0.' + b'9' * 5000 + b'}\n', (2, 6)),
    ('half a pair of surrogates', HEADER + b'{"op":"\\ud800"}\n', (2, 4)),
    ('a pair of surrogates', HEADER + b'{"op":"\\ud83d\\ude00"}\n', (2, 6)),
    ('an escaped backslash before u', HEADER + b'{"op":"\\\\ud800"}\n', (2, 6)),
    ('a control character', HEADER + b'{"op":"a\tb"}\n', (2, 4)),
    ('no UTF-8', HEADER + b'{"op":"\xff"}\n', (2, 4)),
    ('a form feed between lines', HEADER + b'\x0c{"op":"connect"}\n', (2, 4)),
    ('nesting 127', message('{"typeUrl":"t","nonce":"1","x":' + '[' * 125 + ']' * 125 + '}'), None),
    ('nesting 128', message('{"typeUrl":"t","nonce":"1","x":' + '[' * 126 + ']' * 126 + '}'), (2, 4)),
    ('nesting of 100,000', HEADER + b'[' * 100000 + b'\n', (2, 4)),
    ('brackets in a text', message('{"typeUrl":"t","nonce":"1","x":"' + '[' * 200 + '"}'), None),
    ('a message in an array', message('[]'), (2, 6)),
    ('a message of another type', message('{"typeUrl":"t","nonce":"1","resources":5}'), None),
    ('no type', message('{"nonce":"1"}'), None),
    ('both spellings', message('{"typeUrl":"t","type_url":"t","nonce":"1"}'), (2, 6)),
    ('both spellings, one null', message('{"typeUrl":"t","type_url":null,"nonce":"1"}'), None),
    ('a null element', message('{"typeUrl":"%s","nonce":"1","resources":[null]}' % CDS), (2, 6)),
    ('null lists', message('{"typeUrl":"%s","nonce":"1","resources":null,"removedResources":null}' % CDS), None),
    ('a body of no form', message('{"typeUrl":"%s","nonce":"1","resources":[{"name":"a","resource":5,"ttl":7}]}' % CDS), None),
    ('a removed name that is a number', message('{"typeUrl":"%s","nonce":"1","removed_resources":[1]}' % CDS), (2, 6)),
    ('the longest line', padded(b'{"workers":1}', 4194304), None),
    ('a line too long', padded(b'{"workers":1}', 4194305), (1, 1)),
    ('a line too long whose begin is no JSON', padded(b'x', 4194305), (1, 1)),
    ('200,000 lines', HEADER + SETTLE * 199999, None),
    ('200,001 lines', HEADER + SETTLE * 200000, (200001, 2)),
    ('the largest input', (padded(b'{"workers":1}', 4194303) + b'\n') + (padded(SETTLE[:-1], 4194303) + b'\n') * 15, None),
    ('one byte more', (padded(b'{"workers":1}', 4194303) + b'\n') + (padded(SETTLE[:-1], 4194303) + b'\n') * 15 + b' ', (17, 3)),
    ('a fault before the limit', b'x\n' + b' ' * 67108864, (1, 4)),
]

# The same for a script and its journal.
AUDITS = [
    ('a journal', HEADER + JOURNAL + ROW + END, None),
    ('a journal of format 1', HEADER + JOURNAL.replace(b'2', b'1', 1) + ROW + END, None),
    ('another format', HEADER + JOURNAL.replace(b'2', b'3', 1) + ROW + END, (2, 9)),
    ('other workers', HEADER + b'{"format":2,"workers":2}\n' + ROW + END, (2, 9)),
    ('a null format', HEADER + b'{"format":null}\n', (2, 9)),
    ('no journal', HEADER, (2, 9)),
    ('no end line', HEADER + JOURNAL + ROW, (4, 9)),
    ('another number', HEADER + JOURNAL + ROW + b'{"end":2}\n', (4, 9)),
    ('a line after the end', HEADER + JOURNAL + ROW + END + b'\n', (5, 9)),
    ('a line too long after the end', HEADER + JOURNAL + ROW + END + b' ' * 4194305, (5, 1)),
    ('a blank', HEADER + JOURNAL + ROW.replace(b':2', b': 2') + END, (3, 9)),
    ('a carriage return', HEADER + JOURNAL + ROW[:-1] + b'\r\n' + END, (3, 9)),
    ('keys in another order', HEADER + JOURNAL + b'{"end":0,"actor":1}\n', (3, 9)),
    ('an answer of another operation', HEADER + JOURNAL + ROW.replace(b'settle', b'reap') + END, (3, 9)),
    ('any actor', HEADER + JOURNAL + ROW.replace(b'w0', b'w9') + END, None),
    ('an actor with a zero in front', HEADER + JOURNAL + ROW.replace(b'w0', b'w00') + END, (3, 9)),
    ('generation 0', HEADER + JOURNAL + b'{"actor":"main","answer":{"reaped":[0]},"at":2,"op":"reap","step":0}\n' + END, (3, 9)),
    ('an empty list of names', HEADER + JOURNAL + b'{"actor":"stream","answer":{"requests":[{"resourceNamesSubscribe":[],"typeUrl":"'
     + CDS.encode() + b'"}]},"at":2,"op":"connect","step":0}\n' + END, (3, 9)),
    ('V255', HEADER + JOURNAL + b'{"actor":"stream","answer":{"requests":[],"verdicts":["V255"]},"at":2,"op":"response","step":0}\n' + END, None),
    ('V256', HEADER + JOURNAL + b'{"actor":"stream","answer":{"requests":[],"verdicts":["V256"]},"at":2,"op":"response","step":0}\n' + END, (3, 9)),
    ('V01', HEADER + JOURNAL + b'{"actor":"stream","answer":{"requests":[],"verdicts":["V01"]},"at":2,"op":"response","step":0}\n' + END, (3, 9)),
    ('a fault of the script', b'x\n' + JOURNAL, (1, 4)),
]


def run(check):
    with tempfile.TemporaryDirectory() as folder:
        for audit, table in ((False, FAULTS), (True, AUDITS)):
            for words, data, wanted in table:
                fault_is(check, audit, words, data, wanted, f'{folder}/input')


def fault_is(check, audit, words, data, wanted, path):
    reading = script.read_script(data, audit)
    found = (reading.faults[0].line, reading.faults[0].kind) if reading.faults else None
    check(found == wanted, f'{words}: fault {found}, wanted {wanted}')
    if len(data) < 100000:
        with open(path, 'wb') as file:
            file.write(data)
        status, out, errors = called(tool('why'), *['--audit'] * audit, path)
        check(status == (1 if wanted else 0) and not errors, f'why on {words}: {status} {errors}')
        check(not wanted or out.startswith(f'line {wanted[0]}: fault {wanted[1]}: '), f'why on {words} says {out!r}')
