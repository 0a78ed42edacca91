"""What tools/look is given: files as they are, and of a recording's folder its scripts, with what its clients refused."""
import os

from adapting.capture import documents, text_in, text_of
from adapting.report import MEMBERS
from shared.fields import get
from shared.recordings import scripts_of
from shared.shown import read_file, shown
from shared.statuses import Unreadable
from shared.urls import KINDS


def inputs_of(paths):
    """(files for adapt, files of requests) of paths. The requests of a recording are those of a client that was relayed."""
    files, requests = [], []
    for path in paths:
        found = scripts_of(path)
        files += found
        if os.path.isdir(path):
            streams = [one for one in found if os.path.basename(one).startswith('stream-')]
            requests += [name for name in (f'{one[:-len(".jsonl")]}.requests.jsonl' for one in streams) if os.path.exists(name)]
    return files, requests


def client_errors(paths):
    """(type, nonce, words) of each refusal in files of requests."""
    for path in paths:
        for document in documents(text_of(read_file(path))):
            message = get(document.tree, 'message')
            error = get(message, 'error_detail')
            if isinstance(error, dict):
                yield KINDS.get(text_in(message, 'type_url')), text_in(message, 'response_nonce'), text_in(error, 'message') or 'without details'


def report_of(folder):
    """The lines of the report in a folder that tools/look wrote."""
    lines = [document.tree for document in documents(text_of(read_file(f'{folder}/report.jsonl')))]
    if not all(isinstance(line, dict) and set(line) == MEMBERS for line in lines):
        raise Unreadable(f'{shown(folder, 200)}/report.jsonl is no report of tools/look')
    return lines
