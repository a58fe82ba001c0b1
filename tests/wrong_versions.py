"""Shows that the tests find faults.

    wrong_versions.py CASES FOLDER [threads]

Builds client.c and far_lengths.c with the plain C version of bench/, which
must pass on the file CASES, then with the wrong versions of it that
wrong_edits.py, wrong_shapes.py, wrong_rules.py, wrong_halves.py and
wrong_imports.py have, which must not. With "threads" also threads.c under the
thread sanitizer. Nor may the client pass on streams that leave something out.

A wrong version is one edit, the first text of which becomes the second, or a
list of such edits.
"""

import multiprocessing.pool
import os
import shlex
import subprocess
import sys

import wrong_edits
import wrong_halves
import wrong_imports
import wrong_rules
import wrong_shapes

HERE = os.path.dirname(os.path.abspath(__file__))
ROOT = os.path.join(HERE, '..')
CC = shlex.split(os.environ.get('CC', 'cc'))
CALLS = ['desk_reading', 'desk_reading_two', 'curve_check', 'curve_read',
         'curve_pair', 'curve_sheet', 'curve_open', 'curve_write',
         'curve_fill_slopes', 'curve_import']
FLAGS = ['-std=c99', '-I' + os.path.join(ROOT, 'include'),
         '-I' + os.path.join(ROOT, 'bench')]
FLAGS += ['-Dplain_%s=%s' % (call, call) for call in CALLS]
COMPARED = (wrong_edits.COMPARED + wrong_shapes.COMPARED
            + wrong_rules.COMPARED + wrong_halves.COMPARED
            + wrong_imports.COMPARED)


class Test:
    """A program that takes cases, and what it is made of."""

    def __init__(self, name, words, parts, flags=(), fault=None):
        self.name, self.words, self.parts = name, words, parts
        self.flags = [*FLAGS, *flags]
        self.fault = fault                  # its status then; None for any
        self.objects = []

    def compile_parts(self, folder):
        """What is the same for every version."""
        for part in self.parts:
            made = os.path.join(folder, '%s-%s.o' % (self.name, part))
            source = os.path.join(HERE, part + '.c')
            subprocess.run([*CC, *self.flags, '-c', source, '-o', made],
                           check=True)
            self.objects.append(made)

    def status(self, name, text, folder, cases):
        """Its exit status with this text for plain.c; -1 if it goes on."""
        program = os.path.join(folder, name)
        with open(program + '.c', 'w', encoding='ascii') as file:
            file.write(text)
        subprocess.run([*CC, *self.flags, program + '.c', *self.objects,
                        '-o', program], check=True)
        with open(cases, 'rb') as stream:
            try:
                done = subprocess.run([program, *self.words], stdin=stream,
                                      stdout=subprocess.DEVNULL,
                                      stderr=subprocess.DEVNULL, timeout=60,
                                      env={**os.environ, **SANITIZER})
            except subprocess.TimeoutExpired:
                return -1
        return done.returncode

    def finds(self, status):
        """Whether this status says that the version is wrong."""
        return status != 0 if self.fault is None else status == self.fault


# Of the thread sanitizer, its own status is wanted: another answer, with which
# threads.c ends too, comes by chance.
RACE = 66
SANITIZER = {'TSAN_OPTIONS': 'exitcode=%d history_size=7' % RACE}
CLIENT = Test('client', ['1', 'first'], ['client', 'stream', 'lend'])
FAR = Test('far', [], ['far_lengths'])
THREADS = Test('threads', ['1', '1'], ['threads', 'stream'],
               ['-g', '-pthread', '-fsanitize=thread'], RACE)


def jobs(with_threads):
    """(test, edits), no edits for the right version."""
    groups = [(CLIENT, edits) for _, edits in COMPARED]
    groups += [(FAR, wrong_edits.FAR + wrong_imports.FAR)]
    if with_threads:
        groups += [(THREADS, wrong_edits.SHARED + wrong_rules.SHARED
                    + wrong_imports.SHARED)]
    for test in dict.fromkeys(test for test, _ in groups):
        yield test, []
    for test, versions in groups:
        for edits in versions:
            yield test, edits if isinstance(edits, list) else [edits]


def fault_of(right, folder, cases, number, test, edits):
    """What is wrong with a test, by this version; or None."""
    name, text = '%s%d' % (test.name, number), right
    for old, new in edits:
        if right.count(old) != 1:
            return '%d times in bench/plain.c: %s' % (right.count(old), old)
        text = text.replace(old, new)
    status = test.status(name, text, folder, cases)
    if test.finds(status) if edits else status == 0:
        return None
    if not edits:
        return '%s: bench/plain.c itself does not pass' % test.name
    return '%s: not found: %s' % (test.name, ', and '.join(
        '%s for %s' % (new, old) for old, new in edits))


def left_out(program, cases):
    """Streams and words with which even the right version may not pass."""
    with open(cases, 'rb') as file:
        stream = file.read()
    examples = subprocess.run([sys.executable,
                               os.path.join(HERE, 'examples.py')],
                              stdout=subprocess.PIPE, check=True).stdout
    end = 39                                # bytes of the mark at the end
    for name, words, data, wanted in (
            ('all', ['1'], stream, 0),
            ('examples', ['1', 'some'], examples, 0),
            ('no end', ['1'], stream[:-end], 2),
            ('half a case', ['1'], stream[:-end - 3], 2),
            ('a wrong total', ['1'], stream[:-end] + b'\xff' + bytes(38), 2),
            ('too few cases', ['9999999'], stream, 1),
            ('refusals not seen', ['1'], examples, 1)):
        done = subprocess.run([program, *words], input=data,
                              stdout=subprocess.DEVNULL,
                              stderr=subprocess.DEVNULL)
        if done.returncode != wanted:
            yield 'client on a stream with %s: exit status %d' % (
                name, done.returncode)


def main():
    cases, folder, *words = sys.argv[1:]
    with open(os.path.join(ROOT, 'bench', 'plain.c'), encoding='ascii') as file:
        right = file.read()
    todo = list(jobs('threads' in words))
    for test in {test for test, _ in todo}:
        test.compile_parts(folder)

    def try_one(job):
        number, (test, edits) = job
        return fault_of(right, folder, cases, number, test, edits)

    with multiprocessing.pool.ThreadPool(2) as pool:
        faults = list(filter(None, pool.map(try_one, enumerate(todo), 1)))
    faults += left_out(os.path.join(folder, 'client0'), cases)
    for fault in faults:
        print('FAILED ' + fault)
    for name, edits in COMPARED:
        print('  %8d  %s' % (len(edits), name))
    wrong = [test for test, edits in todo if edits]
    print('  %8d  of lengths beyond 32 bits' % wrong.count(FAR))
    print('  %8d  with memory that threads share' % wrong.count(THREADS))
    print('  %8d  wrong versions in all, %d faults' % (len(wrong), len(faults)))
    return 1 if faults else 0


if __name__ == '__main__':
    sys.exit(main())
