#!/usr/bin/env python3
"""What reading takes: reading_memory.py PROGRAM [NAME..]

Texts of 5 MB are read by a built picatq, up to the line of their goal's fault. Of each is told the peak of memory (resident, of the
whole process) in bytes a byte of text, and how many megabytes were read in a second of a processor, the best of three runs."""
import os, pathlib, subprocess, sys, tempfile

SIZE = 5_000_000
EXAMPLES = pathlib.Path(__file__).parent.parent / 'examples'


def repeated(piece):
    return piece * (SIZE // len(piece))


def rules_of_their_own():
    """Pairs of rules, each with a name of its own."""
    pairs, size, number = [], 0, 0
    while size < SIZE:
        pairs.append(f'rule{number}(X,Y) ?=> X = {number}, Y = other{number}.\nrule{number}(X,Y), X > {number} => Y = [X|_].\n')
        size, number = size + len(pairs[-1]), number + 1
    return ''.join(pairs)


def in_a_list(piece):
    return f'p(X) => Y = [{repeated(piece)}1], Y = X.\n'


PUZZLE = '''puzzle(Digits) =>
    Digits = [S,E,N,D,M,O,R,Y],
    Digits :: 0..9,
    all_different(Digits), S > 0, M > 0,
    1000*S+100*E+10*N+D + 1000*M+100*O+10*R+E #= 10000*M+1000*O+100*N+10*E+Y,
    solve([ff], Digits).
'''

TEXTS = {
    'examples': lambda: repeated('\n'.join(path.read_text() for path in sorted(EXAMPLES.glob('*.pi')))),
    'rules of their own': rules_of_their_own,
    'rules of 41 bytes': lambda: repeated('p(X) => p(X), p(1), p(a), p(X+1), p(_Y).\n'),
    'rules with a condition': lambda: repeated('p(X),X>1=>X=1.\n'),
    'rules p(X)=>X=1.': lambda: repeated('p(X)=>X=1.\n'),
    'rules p(1)=>p(2).': lambda: repeated('p(1)=>p(2).\n'),
    'rules p=>p.': lambda: repeated('p=>p.\n'),
    "functions' rules": lambda: repeated('f(X)=X+1,X>1=>true.\n'),
    'functions f(12)=34.': lambda: repeated('f(12)=34.\n'),
    'functions f(1)=2.': lambda: repeated('f(1)=2.\n'),
    'functions f=1.': lambda: repeated('f=1.\n'),
    'facts of three places': lambda: 'index (+,-,-)\n' + repeated('p(123,abc,"x").\n'),
    'facts p(1).': lambda: 'index (+)\n' + repeated('p(1).\n'),
    'a list of names': lambda: in_a_list('abcdefghij,'),
    'a list of numbers': lambda: in_a_list('123,'),
    'a list of numbers of ten digits': lambda: in_a_list('1700000000,'),
    'a list of quoted atoms': lambda: in_a_list("'ab',"),
    'a list of names alike': lambda: in_a_list('r10,r20,'),
    'a list of digits': lambda: in_a_list('1,'),
    'a list of letters': lambda: in_a_list('a,'),
    'a list of lists': lambda: in_a_list('[1],'),
    'arithmetic': lambda: repeated('f(X) = X*X + 2*X + 1.\n'),
    'arithmetic without blanks': lambda: repeated('f(X)=X*X+2*X+1.\n'),
    'a puzzle': lambda: repeated(PUZZLE),
    'a list of -X': lambda: in_a_list('-X,'),
    'sums of 500 digits': lambda: in_a_list('1+' * 499 + '1,'),
    'runs of 500 signs': lambda: in_a_list('-' * 500 + 'X,'),
    'a conjunction': lambda: f'p => {repeated("p,")}p.\n',
    'a call': lambda: f'p => X = $f({repeated("1,")}1), X = X.\n',
}


def run(program, file):
    """The peak in bytes, the seconds of a processor and the last line. A shell stands between, so that the peak isn't this script's."""
    words = ['sh', '-c', '"$@"; exit $?', 'sh', program, file, 'X = ']
    child = subprocess.Popen(words, stdout=subprocess.PIPE, stderr=subprocess.STDOUT)
    out = child.stdout.read()
    _, _, usage = os.wait4(child.pid, 0)
    return usage.ru_maxrss * 1024, usage.ru_utime + usage.ru_stime, out.decode(errors='replace').splitlines()[-1]


def main():
    if len(sys.argv) < 2:
        print(__doc__)
        return 2
    program = os.path.abspath(sys.argv[1])
    with tempfile.TemporaryDirectory() as folder:
        for name in sys.argv[2:] or TEXTS:
            text = TEXTS[name]().encode()
            file = pathlib.Path(folder, 'text.pi')
            file.write_bytes(text)
            runs = [run(program, str(file)) for _ in range(3)]
            peak, seconds, line = min(runs)[0], min(seconds for _, seconds, _ in runs), runs[0][2]
            print(f'{name}: {peak / len(text):.1f} bytes a byte, {len(text) / seconds / 1e6:.1f} MB/s ({line})', flush=True)
    return 0


sys.exit(main())
