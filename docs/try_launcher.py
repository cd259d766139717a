#!/usr/bin/env python3
"""The launcher against the program that it built: try_launcher.py, at the top of the repository.

Each run of ./picatq has to give the status and the standard output of crates/picatq/out/picatq, and on standard error what is said
here. What doesn't is told; the last line counts."""
import os, pathlib, re, resource, signal, subprocess, tempfile

TOP = pathlib.Path(__file__).resolve().parent.parent
LAUNCHER, PROGRAM = str(TOP / 'picatq'), str(TOP / 'crates/picatq/out/picatq')
ENDLESS = 'main => print(begun), loop.\nloop => loop.\n'
DEEP = 'deep(N) = 1 + deep(N+1).\n'
DEEP_WORDS = ['--steps', '1000000000', 'FILE', 'X = deep(1)']
# A program, the words, and what is said of it: of a part its lines, of a line its text, of anything else nothing.
RUNS = [
    ('p(1).\n', ['FILE', 'p(X)'], 'part 1 is line 1'),
    ('index (+) p(1). p(1).\n% a comment\nq(X) =>\n    p(X)\n    q(X).\n', ['FILE', 'p(X)'], 'part 3 is lines 3 to 5'),
    ('main => q.\n', ['--mode', 'run', 'FILE'], 'part 1 is line 1'),
    ("main =>\n    'a in 9'.\n", ['--mode=run', 'FILE'], 'part 1 is lines 1 to 2'),
    ("main =>\n    'a\\n in 9'.\n", ['--mode=run', 'FILE'], 'part 1 is lines 1 to 2'),
    ('p => true.\ntable q => true.\n', ['--mode', 'session', 'FILE'], 'part 2 is line 2'),
    ('p => true.\nq => p', ['--mode', 'print', 'FILE'], 'part 2 is line 2'),
    ('p => true.\n  q("a).\n', ['--steps', '7', 'FILE', 'p'], 'line 2:   q("a).'),
    ('p(170141183460469231731687303715884105728) => true.\n', ['FILE', 'p'], 'line 1: p(170141183460469231731687303715884105728) => true.'),
    ('p => true. q => true. p => true.\n', ['FILE', 'p'], None),
    ('p => true.\n', ['FILE', 'q'], None),
    ('p => true.\n', ['FILE', 'p'], None),
    ('p => true.\n', ['FILE', 'fail'], None),
    ('p => true.\n', ['FILE', 'throw(a)'], None),
    ('p => p.\n', ['--steps', '7', 'FILE', 'p'], None),
    ('p => true.\n', ['FILE'], None),
    ('p => true.\n', ['FILE/absent', 'p'], None),
    ('p => true.\n', ['--mode', 'demo', '1'], None),
    ('main => print(abc).\n', ['--mode', 'run', 'FILE'], None),
    ('main => print(abc), throw(a).\n', ['--mode', 'run', 'FILE'], None),
]
faults = 0


def tell(what, wanted, found):
    global faults
    if wanted != found:
        faults += 1
        print(f'{what}: wanted {wanted!r}, found {found!r}')


def words_in(file, words):
    return [word.replace('FILE', file, 1) for word in words]


def try_run(file, words, said):
    words = words_in(file, words)
    direct = subprocess.run([PROGRAM, *words], stdin=subprocess.DEVNULL, capture_output=True)
    launched = subprocess.run([LAUNCHER, *words], stdin=subprocess.DEVNULL, capture_output=True)
    tell(words, (direct.returncode, direct.stdout), (launched.returncode, launched.stdout))
    if said is not None:
        said = re.sub(r'^(part \d+ is lines? [\d to]+|line \d+)', lambda place: f'{place[0]} of {file}', said)
    tell(words, '' if said is None else f'picatq: {said}\n', launched.stderr.decode())


def children(parent):
    return [int(child) for child in pathlib.Path(f'/proc/{parent}/task/{parent}/children').read_text().split()]


def try_signal(file, number, to_group):
    """Each signal ends the run, whose output so far stands there."""
    run = subprocess.Popen([LAUNCHER, '--mode', 'run', '--steps', '1000000000000', file], stdin=subprocess.DEVNULL, stdout=subprocess.PIPE,
                           stderr=subprocess.PIPE, start_new_session=True)
    begun = run.stdout.read(5)
    if to_group:
        os.killpg(run.pid, number)
    else:
        os.kill(run.pid, number)
    try:
        output, errors = run.communicate(timeout=10)
    except subprocess.TimeoutExpired:
        os.killpg(run.pid, signal.SIGKILL)
        output, errors = run.communicate()
        errors += b'still running'
    tell(f'signal {number}', (-number, b'begun', b'', b''), (run.returncode, begun, output, errors))


def try_session(file):
    """A line is answered before the next is there."""
    run = subprocess.Popen([LAUNCHER, '--mode', 'session', file], stdin=subprocess.PIPE, stdout=subprocess.PIPE)
    for line, answer in (b'p(X)\n', b'X = 1\nyes\n'), (b';\n', b'X = 2\nyes\n'), (b';\n', b'no more\n'):
        os.write(run.stdin.fileno(), line)
        tell('session', answer, run.stdout.read(len(answer)))
    run.stdin.close()
    tell('session', 0, run.wait())


def try_memory(file):
    """A bound that is set stays, and one is set where there is none."""
    bound = 400_000 * 1024
    words = words_in(file, DEEP_WORDS)
    run = subprocess.run([LAUNCHER, *words], capture_output=True, preexec_fn=lambda: resource.setrlimit(resource.RLIMIT_AS, (bound, bound)))
    tell('memory', (9, b'want of memory\n', b''), (run.returncode, run.stdout, run.stderr))
    pathlib.Path(file).write_text(ENDLESS)
    run = subprocess.Popen([LAUNCHER, '--mode', 'run', file], stdout=subprocess.PIPE)
    run.stdout.read(5)
    limits = [re.search(r'Max address space\s+(\w+)', pathlib.Path(f'/proc/{child}/limits').read_text())[1] for child in children(run.pid)]
    run.terminate()
    run.communicate()
    tell('a bound is set', [True], [limit != 'unlimited' for limit in limits])


with tempfile.TemporaryDirectory() as folder:
    file = f'{folder}/tried.pi'
    for text, words, said in RUNS:
        pathlib.Path(file).write_text(text)
        try_run(file, words, said)
    pathlib.Path(file).write_text(ENDLESS)
    for number in signal.SIGHUP, signal.SIGINT, signal.SIGQUIT, signal.SIGTERM, signal.SIGUSR1, signal.SIGUSR2, signal.SIGKILL:
        try_signal(file, number, False)
        try_signal(file, number, True)
    pathlib.Path(file).write_text('index (-) p(1). p(2).\n')
    try_session(file)
    pathlib.Path(file).write_text(DEEP)
    try_memory(file)
print(f'{faults} faults')
raise SystemExit(faults > 0)
