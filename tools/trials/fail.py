"""tools/fail on a stand-in for the program, which writes what it reads and ends otherwise than it should where it is asked to."""
import os

from trials import TOP, content, loaded, on_stand_in, refuses_words

SCRIPT = f'{TOP}/examples/run/publish_and_accept.jsonl'
REPLAYED = f'{TOP}/crates/worked_rows/data/realistic.out'
# The second word says what a call that fails does.
PROGRAM = r'''
#include <fcntl.h>
#include <stdlib.h>
#include <string.h>
#include <unistd.h>
static char text[100000];
int main(int count, char **words) {
    const char *word = count > 1 ? words[1] : "", *way = count > 2 ? words[2] : "";
    size_t size = 0, reads = 0;
    if (!*word) { write(2, "usage: warmgate replay | run | soak SEED COUNT\n", 47); return 2; }
    while (strcmp(word, "soak")) {
        ssize_t got = read(0, text + size, sizeof text - size);
        reads++;
        if (got == 0) break;
        if (got > 0) { size += got; continue; }
        if (!strcmp(way, "hangs")) sleep(100);
        if (!strcmp(way, "writes")) write(1, "x", 1);
        if (!strcmp(way, "fails")) return 1;
        if (strcmp(way, "retries")) return 4;
    }
    if (!strcmp(way, "counts")) size = reads;
    if (!strcmp(word, "soak")) strcpy(text, "line\n"), size = 5;
    if (!strcmp(word, "run")) size = read(open(getenv(getpid() % 2 ? "FIRST" : "SECOND"), O_RDONLY), text, sizeof text);
    for (size_t at = 0; at < size;) {
        ssize_t put = write(1, text + at, size - at);
        if (put >= 0) { at += put; continue; }
        if (!strcmp(way, "loses")) { at++; continue; }
        if (!strcmp(way, "garbles")) write(1, "x\n", 2);
        return strcmp(way, "drops") ? 5 : 0;
    }
    return 0;
}
'''


def run(check):
    on_stand_in(check, 'tools/fail', PROGRAM, tries)


def tries(check, lines_of):
    def told(*words, data=b'in\nof\n', **settings):
        status, lines, errors = lines_of(*words, data=data, **settings)
        rows = [[part.strip() for part in line.split('|')[1:-1]] for line in lines[2:] if line.startswith('|')]
        return status, rows, [line for line in lines if not line.startswith('|')], errors

    wanted = [['replay', '1', '7', '6', '7', '6', '2', '0'], ['replay', '7', '2', '1', '2', '1', '2', '0'],
              ['replay', '65,536', '2', '1', '2', '1', '2', '0']]
    check(told('replay') == (0, wanted, [], b''), f'fail: {told("replay")}')
    soak = told('--pieces', '2', 'soak', '1', '60')
    check(soak == (0, [['soak 1 60', '2', '0', '3', '0', '3', '2', '0']], [], b''), f'fail of a command that reads nothing: {soak}')
    some = told('--pieces', '1', '--numbers', '2,6,9', '--jobs', '2', 'replay')
    check(some[1] == [['replay', '1', '7 (2 tried)', '6 (2 tried)', '2', '2', '2', '0']], f'fail of some calls: {some}')
    wrongs(check, told)
    journals(check, told)
    refuses_words(check, 'tools/fail', lines_of, ['--pieces', '0', 'replay'], ['--jobs', '0', 'replay'])
    every = told('--numbers', '1', '--all', FIRST=REPLAYED, SECOND=REPLAYED)
    check(every[0] == 0 and len(every[1]) == 9 and every[1][3][0] == '`run` of `realistic.in`' and every[2] == [
        'Not tried, as the program hasn\'t the command: audit, chains, dns, dump, sotw, tls'], f'fail --all: {every}')
    module = loaded('tools/fail')
    check(all(path is None or os.path.exists(path) for _, path in module.TABLE), 'fail --all: an input is missing')
    few, many = module.numbers_up_to(5000), module.numbers_up_to(6000)
    check(few == list(range(1, 5002)) and many[:102] == [*range(1, 101), 111, 148] and many[-102:] == [5883, *range(5901, 6002)],
          f'fail of many calls: {many}')


def wrongs(check, told):
    """What is said of a program that ends otherwise than it should."""
    for way, call, ended in (('hangs', 'read 2', 'hangs, 0 bytes written'), ('fails', 'read 2', 'status 1, 0 bytes written'),
                             ('writes', 'read 2', 'status 4, 1 bytes written'), ('retries', 'read 2', 'status 0, 6 bytes written'),
                             ('loses', 'write 2', 'status 0, 5 bytes written'), ('drops', 'write 2', 'status 0, 1 bytes written'),
                             ('garbles', 'write 2', 'status 5, 2 bytes written')):
        status, rows, others, _ = told('--pieces', '1', '--numbers', '2', 'replay', way)
        check(status == 1 and rows[0][7] == '1' and others == [f'replay {way}, 1 bytes at once, {call}: {ended}'],
              f'fail of a program that {way}: {rows} {others}')
    counts = told('--pieces', '2', '--numbers', '9', 'replay', 'counts')
    check(counts[0] == 1 and counts[2][0] == 'replay counts, 2 bytes at once: status 0, 4 bytes written', f'fail of a program that counts: {counts}')


def journals(check, told):
    """A threaded run may write any legal journal, and where a write fails a text that begins one."""
    first, second, wrong = (f'{TOP}/examples/run/publish_and_accept.{part}' for part in ('1.journal.jsonl', '2.journal.jsonl', '1.txt'))
    words = ('--pieces', '300', '--numbers', '1,2,3', 'run')
    status, rows, others, errors = told(*words, data=content(SCRIPT), FIRST=first, SECOND=second)
    check(status == 0 and rows[0][5] == '3' and rows[0][7] == '0', f'fail of a threaded run: {status} {rows} {others} {errors}')
    rows = told(*words, data=content(SCRIPT), FIRST=wrong, SECOND=wrong)[1]
    check(rows[0][5:] == ['1', '0', '3'], f'fail of a threaded run with a text that is no journal: {rows}')
