"""Processes of the trials, each ended by its own id, and what they write."""
import contextlib
import importlib.machinery
import importlib.util
import io
import json
import os
import signal
import socket
import subprocess
import sys
import threading
import time

TOOLS = os.path.dirname(os.path.dirname(os.path.dirname(os.path.realpath(__file__))))
MOST = 60


def until(good, seconds=MOST):
    """Waits for something to become so. Whether it did."""
    end = time.monotonic() + seconds
    while time.monotonic() < end:
        if good():
            return True
        time.sleep(0.05)
    return False


def free_port():
    with socket.socket() as found:
        found.bind(('127.0.0.1', 0))
        return found.getsockname()[1]


def recorded(*words):
    """(status, standard output, standard error) of tools/record as a process of its own, which it needs for its signals."""
    done = subprocess.run([sys.executable, '-B', f'{TOOLS}/record', *words], capture_output=True, text=True, timeout=2 * MOST)
    return done.returncode, done.stdout, done.stderr


LOADER = importlib.machinery.SourceFileLoader('loaded_record', f'{TOOLS}/record')
RECORD = importlib.util.module_from_spec(importlib.util.spec_from_loader(LOADER.name, LOADER))
LOADER.exec_module(RECORD)


# Trials run side by side, and what one of them catches of standard output is that of the whole process.
OUTPUT = threading.Lock()


def called(*words):
    """The same in this process."""
    out, errors = io.StringIO(), io.StringIO()
    with OUTPUT, contextlib.redirect_stdout(out), contextlib.redirect_stderr(errors):
        try:
            status = RECORD.main(list(words))
        except SystemExit as ended:
            status = ended.code
    return status, out.getvalue(), errors.getvalue()


@contextlib.contextmanager
def started(words, errors, front=(), **how):
    """A process, ended by Ctrl-C and waited for. `front` is a command that starts it."""
    with open(errors, 'w') as file:
        process = subprocess.Popen([*front, sys.executable, '-B', *words], stderr=file, **how)
    try:
        yield process
    finally:
        process.send_signal(signal.SIGINT)
        try:
            process.wait(MOST)
        except subprocess.TimeoutExpired:
            process.kill()
            process.wait()


def lines_of(path):
    with open(path, encoding='utf-8') as file:
        return [json.loads(line) for line in file]


@contextlib.contextmanager
def relay_started(folder, upstream, *words, front=()):
    """A relay on a free port, which it gives: its files are in folder/out, what it says in folder/relay.err, and its exit status, once it has
    ended, in folder/relay.status."""
    port, errors = free_port(), f'{folder}/relay.err'
    command = [f'{TOOLS}/record', '--listen', f'127.0.0.1:{port}', '--upstream', f'127.0.0.1:{upstream}', '--out', f'{folder}/out']
    with started([*command, '--seconds', str(4 * MOST), *words], errors, front) as process:
        until(lambda: 'listening' in text_of(errors))
        yield port
    with open(f'{folder}/relay.status', 'w') as file:
        file.write(str(process.returncode))


def text_of(path):
    with open(path, encoding='utf-8') as file:
        return file.read()


def joined(folder, name, *streams):
    """The scripts and the requests of several streams as one script and its requests: (script, requests)."""
    script, requests = f'{folder}/{name}.jsonl', f'{folder}/{name}.requests.jsonl'
    with open(script, 'w') as file:
        for place, stream in enumerate(streams):
            file.writelines(text_of(f'{stream}.jsonl').splitlines(True)[place > 0:])
    with open(requests, 'w') as file:
        file.writelines(text_of(f'{stream}.requests.jsonl') for stream in streams)
    return script, requests
