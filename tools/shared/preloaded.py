"""A built program, run with a small library before it that counts, and refuses memory or fails a device where it is asked to. Not proved."""
import collections
import hashlib
import os
import subprocess
import tempfile

from . import script as scripts
from .finding import LEGAL, walked

TOP = os.path.dirname(os.path.dirname(os.path.dirname(os.path.realpath(__file__))))
BUILT = f'{TOP}/crates/warmgate/out/warmgate'
ROWS = f'{TOP}/crates/worked_rows/data'
EXAMPLES = f'{TOP}/examples'
LEGAL_LINE = b'{"finding":"legal"}\n'
SOURCE = r'''
#define _GNU_SOURCE
#include <errno.h>
#include <fcntl.h>
#include <stdio.h>
#include <stdlib.h>
#include <string.h>
#include <sys/syscall.h>
#include <unistd.h>

extern void *__libc_malloc(size_t);
extern void *__libc_calloc(size_t, size_t);
extern void *__libc_realloc(void *, size_t);
extern void *__libc_memalign(size_t, size_t);
extern void __libc_free(void *);
static unsigned long calls, in_thread, reads, writes, failed, refused, failing_read, failing_write, piece;
static long left;
static int begun;

// counts a call, and tells whether it is the one that has to fail
static int fails(unsigned long *count, unsigned long failing, int error) {
    if (!begun || __atomic_add_fetch(count, 1, __ATOMIC_RELAXED) != failing) return 0;
    failed = 1;
    errno = error;
    return 1;
}

static int refuses(void) {
    if (begun && !in_thread && syscall(SYS_gettid) != getpid()) in_thread = calls + 1;
    return fails(&calls, refused, ENOMEM);
}
static void *counted(void *made) {
    if (made) __atomic_add_fetch(&left, 1, __ATOMIC_RELAXED);
    return made;
}
void *malloc(size_t size) { return refuses() ? NULL : counted(__libc_malloc(size)); }
void *calloc(size_t count, size_t size) { return refuses() ? NULL : counted(__libc_calloc(count, size)); }
void *aligned_alloc(size_t bound, size_t size) { return refuses() ? NULL : counted(__libc_memalign(bound, size)); }
int posix_memalign(void **place, size_t bound, size_t size) {
    void *made = aligned_alloc(bound, size);
    if (!made) return ENOMEM;
    *place = made;
    return 0;
}
void *realloc(void *old, size_t size) {
    if (refuses()) return NULL;
    void *made = __libc_realloc(old, size);
    if (!old) return counted(made);
    if (!made && !size) __atomic_sub_fetch(&left, 1, __ATOMIC_RELAXED);
    return made;
}
void free(void *old) {
    if (old) __atomic_sub_fetch(&left, 1, __ATOMIC_RELAXED);
    __libc_free(old);
}

ssize_t read(int device, void *place, size_t size) {
    if (device == 0 && fails(&reads, failing_read, EIO)) return -1;
    return syscall(SYS_read, device, place, device == 0 && piece && piece < size ? piece : size);
}
ssize_t write(int device, const void *place, size_t size) {
    if (device == 1 && fails(&writes, failing_write, EIO)) return -1;
    return syscall(SYS_write, device, place, device == 1 && piece && piece < size ? piece : size);
}

static unsigned long number_of(const char *name) {
    const char *text = getenv(name);
    return text ? strtoul(text, NULL, 10) : 0;
}
static unsigned long peak(void) {
    char text[4096] = "";
    int file = open("/proc/self/status", O_RDONLY);
    if (file < 0 || syscall(SYS_read, file, text, sizeof text - 1) < 0) return 0;
    const char *line = strstr(text, "VmHWM:");
    return line ? strtoul(line + 6, NULL, 10) : 0;
}
__attribute__((constructor)) static void begin(void) {
    refused = number_of("REFUSED");
    failing_read = number_of("FAILING_READ");
    failing_write = number_of("FAILING_WRITE");
    piece = number_of("PIECE");
    begun = 1;
}
__attribute__((destructor)) static void end(void) {
    char text[200];
    if (!begun || !getenv("TELLS")) return;
    begun = 0;
    int size = snprintf(text, sizeof text, "%lu %lu %ld %lu %lu %lu %lu", calls, in_thread, left, reads, writes, failed, peak());
    syscall(SYS_write, (int)number_of("TELLS"), text, size);
}
// a program with threads may end by this, which runs no destructor
void _exit(int status) {
    end();
    syscall(SYS_exit_group, status);
    __builtin_unreachable();
}
'''

# What the library tells of a run: its allocations, the number of the first one that a thread beside the main one made, or 0, the blocks
# that weren't given back, the reads of standard input, the writes to standard output, whether the call came that had to fail, and the
# peak memory in KB.
Told = collections.namedtuple('Told', 'allocations in_thread left reads writes failed peak')
# A run's exit status, None where it hung, its output, and what the library told, None where it didn't.
Ran = collections.namedtuple('Ran', 'status output told')


class Missing(Exception):
    """Something that a tool needs isn't there, in words."""


class Program:
    """A built program, each run bounded in time. What it needs stands in the folder, which the caller makes and removes."""

    def __init__(self, path, folder, seconds):
        self.path, self.folder, self.seconds = os.path.abspath(path), folder, seconds
        if not os.access(self.path, os.X_OK):
            raise Missing(f'{path} is missing')
        self.library, self.legal = built(folder), {}
        usage = subprocess.run([self.path], input=b'', capture_output=True, timeout=seconds).stderr.decode(errors='replace')
        self.commands = [form.split()[0] for form in usage.partition('warmgate ')[2].split(' | ') if form]

    def run(self, words, path, **settings):
        """A run on the bytes of a file, or on none where the path is None."""
        settings = {name: str(value) for name, value in settings.items()}
        reader, teller = os.pipe()
        with open(reader, 'rb') as tells, open(path or os.devnull, 'rb') as source:
            environment = os.environ | {'LD_PRELOAD': self.library, 'TELLS': str(teller)} | settings
            try:
                process = subprocess.Popen([self.path, *words], stdin=source, stdout=subprocess.PIPE, stderr=subprocess.DEVNULL,
                                           env=environment, pass_fds=(teller,))
            finally:
                os.close(teller)
            try:
                output = process.communicate(timeout=self.seconds)[0]
            except subprocess.TimeoutExpired:
                process.kill()
                process.communicate()
                return Ran(None, b'', None)
            told = tells.read()
        return Ran(process.returncode, output, Told(*map(int, told.split())) if told else None)

    def run_undisturbed(self, name, words, path, **settings):
        """The same of a run in which nothing fails, which has to end and to tell."""
        ran = self.run(words, path, **settings)
        if ran.status is None:
            raise Missing(f'{name} wasn\'t done in {self.seconds} seconds with nothing failing')
        if ran.told is None:
            raise Missing(f'{name}: the program doesn\'t load the library that counts: is it linked with the C library?')
        return ran

    def file_of(self, data):
        """A file of the folder with these bytes."""
        with tempfile.NamedTemporaryFile(dir=self.folder, delete=False) as file:
            file.write(data)
        return file.name

    def is_legal(self, path, journal):
        """Whether a journal is legal for the script of a file: by the command audit or, without it, by the tools' own walk."""
        both = with_journal(path, journal)
        key = hashlib.sha256(both).digest()
        if key not in self.legal:
            if 'audit' in self.commands:
                ran = subprocess.run([self.path, 'audit'], input=both, capture_output=True, timeout=self.seconds)
                self.legal[key] = (ran.returncode, ran.stdout) == (0, LEGAL_LINE)
            else:
                reading = scripts.read_script(both, audit=True)
                self.legal[key] = not reading.faults and walked(reading).finding == LEGAL
        return self.legal[key]

    def begins_legal(self, path, text):
        """Whether the whole lines of a text begin a journal that is legal for the script of a file, by the tools' own walk."""
        lines = text[:text.rfind(b'\n') + 1]
        count = lines.count(b'\n')
        if not count:
            return True
        if lines.splitlines()[-1].startswith(b'{"end":'):
            return self.is_legal(path, lines)
        both = with_journal(path, lines + b'{"end":%d}\n' % (count - 1))
        key = hashlib.sha256(both).digest()
        if key not in self.legal:
            reading = scripts.read_script(both, audit=True)
            walk = None if reading.faults else walked(reading)
            self.legal[key] = walk is not None and (walk.finding == LEGAL or walk.entry == count)
        return self.legal[key]


def with_journal(path, journal):
    """The script of a file with a journal after it."""
    with open(path, 'rb') as file:
        script = file.read()
    return script + b'\n' * (not script.endswith(b'\n')) + journal


def built(folder):
    """The small library, built in the folder."""
    source, library = f'{folder}/preloaded.c', f'{folder}/preloaded.so'
    with open(source, 'w') as file:
        file.write(SOURCE)
    try:
        subprocess.run(['cc', '-O1', '-shared', '-fPIC', '-o', library, source], check=True)
    except FileNotFoundError:
        raise Missing('a C compiler (cc) isn\'t installed') from None
    except subprocess.CalledProcessError:
        raise Missing('the C compiler (cc) doesn\'t build the library') from None
    return library


def name_of(words, path):
    """A command with its input, for a table."""
    return f'`{words}`' + (f' of `{os.path.basename(path)}`' if path else '')


def row(values):
    """Prints a row of a table."""
    print('| ' + ' | '.join(values) + ' |', flush=True)


def head(values):
    """Prints the head of a table."""
    row(values)
    row(['---'] * len(values))


def skipped(program, table):
    """Says which commands of a table the program hasn't."""
    lacking = sorted({words.split()[0] for words, *_ in table} - set(program.commands))
    if lacking:
        print(f'Not tried, as the program hasn\'t the command: {", ".join(lacking)}')
