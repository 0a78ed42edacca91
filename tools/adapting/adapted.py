"""Inputs as they come, made a script: what tools/adapt, tools/look and tools/plan share."""
from shared.shown import read_file, shown

from .capture import Unreadable, documents, kind_of, text_of
from .script_of import ScriptOf
from .secrets import brought

SOURCES = ('auto', 'config-dump', 'delta', 'sotw', 'envoy-log')


def adapted(chosen, report):
    """The lines of the script."""
    return taken(chosen, report).finish()


def taken(chosen, report, keeps=False):
    """What makes the script, with all inputs taken. With `keeps` it keeps its lines as they were read."""
    texts = [text_at(path) for path in chosen.input]
    maker = ScriptOf(chosen, report, keeps, names_brought(texts))
    for number, (path, text) in enumerate(zip(chosen.input, texts)):
        before = maker.known
        for document in documents_of(path, text):
            if wanted(chosen.source, kind_of(document.tree)):
                with maker.placing():
                    maker.take(document, f'line {document.line} of {shown(path)}', number)
        if maker.known == before:
            raise Unreadable(f'{shown(path)} has no config dump, response, body, script or event')
    with maker.placing():
        maker.tell_state()
    return maker


def text_at(path):
    try:
        return text_of(read_file(path))
    except Unreadable as error:
        raise Unreadable(f'{shown(path)}: {error}') from None


def names_brought(texts):
    """The names of the secrets that responses of the input bring, as far as it can be read."""
    try:
        return {name for text in texts for name in brought(text)}
    except Unreadable:
        return set()


def documents_of(path, text):
    """The documents of a file, whose text is known."""
    try:
        yield from documents(text)
    except Unreadable as error:
        raise Unreadable(f'{shown(path)}: {error}') from None


def wanted(source, kind):
    """Whether a document of this kind is taken under --from."""
    if source == 'config-dump':
        return kind in (source, 'body', 'statuses', None)
    if source == 'envoy-log':
        return kind in ('log', 'health', None)
    return True
