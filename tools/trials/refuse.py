"""tools/refuse on a stand-in for the program, which makes a few allocations and ends otherwise than it should where it is asked to."""
import os
from types import SimpleNamespace

from trials import TOP, content, loaded, on_stand_in, refuses_words

SCRIPT = f'{TOP}/examples/run/publish_and_accept.jsonl'
REPLAYED = f'{TOP}/crates/worked_rows/data/realistic.out'
# Reads its input and makes ten blocks of memory; writes a line a block after them. The word says what a refused third block does.
PROGRAM = r'''
#include <fcntl.h>
#include <pthread.h>
#include <stdlib.h>
#include <string.h>
#include <unistd.h>
static void *made[10];
static const char *word = "", *way = "";
static int ended(int status) {
    for (int place = 0; place < 10; place++) free(made[place]);
    return status;
}
static int make(void) {
    for (int place = 0; place < 10; place++) {
        made[place] = realloc(NULL, 100);
        if (made[place]) continue;
        if (place == 2 && !strcmp(way, "hangs")) sleep(100);
        if (place == 2 && !strcmp(way, "fails")) return 1;
        if (place == 2 && !strcmp(way, "writes")) { write(1, "other\n", 6); return 6; }
        if (place == 2 && !strcmp(way, "leaks")) { made[0] = NULL; return 6; }
        if (place == 9) continue;
        write(1, "line\n", strcmp(word, "run") ? 5 * (place / 5) : 0);
        return 6;
    }
    return 0;
}
static void *make_aside(void *status) { *(int *)status = make(); return NULL; }
int main(int count, char **words) {
    char piece[4096];
    pthread_t thread;
    int status = 6;
    word = count > 1 ? words[1] : "";
    way = count > 2 ? words[2] : "";
    if (!*word) { write(2, "usage: warmgate replay | run | soak SEED COUNT\n", 47); return 2; }
    if (strcmp(word, "soak")) while (read(0, piece, sizeof piece) > 0) {}
    if (!getenv("ASIDE")) status = make();
    else if (!pthread_create(&thread, NULL, make_aside, &status)) pthread_join(thread, NULL);
    if (status) return ended(status);
    if (strcmp(word, "run")) return ended(write(1, "line\n", 5) != 5);
    int journal = open(getenv(getpid() % 2 ? "FIRST" : "SECOND"), O_RDONLY);
    for (ssize_t size; (size = read(journal, piece, sizeof piece)) > 0;) write(1, piece, size);
    return ended(0);
}
'''


def run(check):
    on_stand_in(check, 'tools/refuse', PROGRAM, tries)


def tries(check, lines_of):
    def told(*words, **settings):
        status, lines, errors = lines_of(*words, **settings)
        return status, [part.strip() for part in lines[2].split('|')[1:-1]] if len(lines) > 2 else [], lines[3:], errors

    status, row, other, errors = told('replay')
    check((status, row[0], row[1], row[3:]) == (0, 'replay', '10', ['0', '9', '1', '0']) and row[2].endswith(' MB'),
          f'refuse: {status} {row} {other} {errors}')
    soak = told('soak', '1', '60')
    check((soak[0], soak[1][:2], soak[1][3:]) == (0, ['soak 1 60', '10'], row[3:]), f'refuse of words with numbers: {soak}')
    check(told('--every', '4', 'replay')[1][4:] == ['2', '0', '0'], 'refuse of each fourth allocation')
    check(told('--every', '0', 'replay')[1][4:] == ['0', '0', '0'], 'refuse of none')
    check(told('--numbers', '1,10,11', '--repeat', '3', '--jobs', '2', 'replay')[1][4:] == ['3', '6', '0'], 'refuse of some allocations, repeated')
    for word, words in (('fails', 'status 1, 0 bytes written, 0 blocks left'), ('writes', 'status 6, 6 bytes written, 0 blocks left'),
                        ('hangs', 'hangs, 0 bytes written'), ('leaks', 'status 6, 0 bytes written, 1 blocks left')):
        status, row, other, errors = told('replay', word)
        check(status == 1 and row[6] == '1' and other == [f'replay {word}, allocation 3: {words}'],
              f'refuse of a program that {word}: {status} {row} {other}')
    journals(check, told)
    tables(check, told)
    refuses_words(check, 'tools/refuse', lines_of, ['--every', '-1', 'replay'], ['--repeat', '0', 'replay'])


def journals(check, told):
    """A threaded run may write any legal journal."""
    first, second, wrong = (f'{TOP}/examples/run/publish_and_accept.{part}' for part in ('1.journal.jsonl', '2.journal.jsonl', '1.txt'))
    for other, wanted in ((second, (0, ['9', '1', '0'])), (wrong, (1, ['9', '0', '1']))):
        status, row, others, errors = told('run', data=content(SCRIPT), FIRST=first if other == second else other, SECOND=other)
        check((status, row[4:]) == wanted, f'refuse of a threaded run: {status} {row} {others} {errors}')


def tables(check, told):
    """The tables of --all, whose run is one of a thread beside the main one."""
    status, row, others, errors = told('--every', '5', '--all', FIRST=REPLAYED, SECOND=REPLAYED, ASIDE='1')
    repeated = [line for line in others if '10 of them, 100 times each' in line]
    check(status == 0 and row[0] == '`replay` of `realistic.in`' and any('each 100th' in line for line in others) and len(repeated) == 1
          and others[-1].startswith('Not tried') and 'tls' in others[-1], f'refuse --all: {status} {row} {others} {errors}')
    ends = [part.strip() for part in repeated[0].split('|')[5:-1]]
    check(sum(map(int, ends[:2])) == 200 and ends[2] == '0', f'refuse --all, repeated: {repeated}')
    module = loaded('tools/refuse')
    case = module.Case(None, ['run'], None, 'run', some=10, repeat=100)
    for allocations, in_thread, numbers in ((109, 10, range(10, 110, 11)), (19, 0, range(1, 20, 2)), (2, 1, (1, 2))):
        case.whole = SimpleNamespace(told=SimpleNamespace(allocations=allocations, in_thread=in_thread))
        check(case.numbers() == list(numbers), f'refuse, ten numbers of {allocations}: {case.numbers()}')
    check(all(path is None or os.path.exists(path) for _, path, *_ in module.TABLE + module.REPEATED), 'refuse --all: an input is missing')
