#!/usr/bin/env python3
"""Random texts against a built picatq: random_texts.py PROGRAM KIND COUNT [SEED]

KIND is what the texts are: program, goal or session (its input). Of each run its status and its last line have to be of the table in
CAUSES.md, nothing may stand on standard error, and it has to end within five seconds. What doesn't is told; the last line counts."""
import collections, os, pathlib, random, re, subprocess, sys, tempfile, time

EXAMPLES = [path.read_bytes() for path in sorted((pathlib.Path(__file__).parent.parent / 'examples').glob('*.pi'))]
PIECES = [piece.encode('latin1') for piece in r'''p q X Y _ 1 0x1F 170141183460469231731687303715884105728 'a_b' ' " "ab" => ?=> = , ; -> ( ) [ ] { }
| : $ @ . .. % /* */ not once if then else elseif end foreach while do in := :: #= #\/ #~ ** ++ // mod + - * ~ < >= == != @< index (+,-)
import cp table p(X) q(1) member(X,[a,b]) true fail throw(e) catch(p(X),E,true) find_all(X,p(X)) print(a) nl printf("%w",X) length([1])
println(X) append(X,Y,[a])'''.split()] + [b' ', b'\n', b'\t', b'\r', b'. ', b'.\n', b';\n', b'\n;\n', b'\xc3\xa9', b'\xff', b'\0']
# What a goal and a session are asked of.
ASKED = b'''p(X) ?=> X = 1. p(X) ?=> X = 2. p(X) => X = [a|_]. q(1) => true. q(X), X > 3 => q(X-1).
f(0) = 1. f(N) = N*f(N-1), N > 0 => true. loop => loop. main => println(hello).
'''
FAULT = (rb'(program|goal): (TooLong|NotUtf8 at \d+|(BadToken|WideInteger) line \d+|Scattered .*/\d+|UnknownName .*/\d+ in \d+'
         rb'|(BadClause|TooDeep|BadDeclaration|TooManyVariables|NotBuilt) \d+)')
ENDS = {0: rb'(no more|stopped)', 1: rb'no', 3: FAULT, 4: rb'exception: .*', 5: rb'steps spent'}
IN_SESSION = rb'(yes|no query|' + b'|'.join(ENDS.values()) + rb')'
USAGE = b'usage: picatq [--answers N] [--steps N] [--work N] [--mode query|run|session|print|demo] FILE [GOAL]\n'


def mutated(source, text):
    text = bytearray(text)
    for _ in range(source.randrange(1, 6)):
        place, how = source.randrange(len(text) + 1), source.randrange(4)
        if how == 0:
            del text[place:place + source.randrange(1, 5)]
        elif how == 1:
            text[place:place] = source.choice(PIECES)
        elif how == 2:
            text[place:place + 1] = [source.randrange(256)]
        else:
            text[place:place] = text[place:place + source.randrange(1, 40)]
    return bytes(text)


def any_text(source, most, whole):
    """Bytes, printable characters, tokens with blanks between them or none, or a changed example or a part of one."""
    count, kind = source.randrange(most), source.randrange(5)
    if kind == 0:
        return source.randbytes(count)
    if kind == 1:
        return bytes(source.choice(b' \n\t') if source.random() < .15 else source.randrange(32, 127) for _ in range(count))
    if kind < 4:
        return (b'', b' ')[kind - 2].join(source.choice(PIECES) for _ in range(count // kind))
    example = source.choice(EXAMPLES)
    return mutated(source, example if whole else source.choice(example.split(b'=>'))[:most * 3])


def case(source, kind):
    """The words of a run, its file and its input."""
    if kind == 'program':
        text = any_text(source, 120, True)
        mode = source.choice(['print', 'run', 'session']) if source.randrange(10) == 0 else 'query'
        return mode, ['--steps=3000', f'--mode={mode}', 'text.pi', *(['true'] if mode == 'query' else [])], text, b''
    if kind == 'goal':
        goal = any_text(source, 60, False).replace(b'\0', b'')
        return 'query', ['--steps=3000', '--answers=50', '--', 'text.pi', goal], ASKED, b''
    lines = [any_text(source, 50, False) for _ in range(source.randrange(1, 6))]
    return 'session', ['--steps=3000', '--mode=session', 'text.pi'], ASKED, source.choice([b'\n', b'\n;\n']).join(lines)


def is_right(mode, status, out, err):
    """Texts that a goal writes may stand before a last line, with no line feed between."""
    last = out[:-1].rsplit(b'\n', 1)[-1] if out.endswith(b'\n') else None
    if err or status not in (0, 1, 2, 3, 4, 5):
        return False
    if status == 2:
        return out == USAGE
    if status == 0 and mode in ('print', 'run') or status == 0 and mode == 'session' and not out:
        return True
    if mode in ('print', 'session') and status not in (0, 3):
        return False
    end = IN_SESSION if mode == 'session' and status == 0 else ENDS[status]
    return last is not None and re.search(end + rb'$', last, re.S) is not None


def main():
    if len(sys.argv) < 4:
        print(__doc__)
        return 2
    program, kind, count, seed = os.path.abspath(sys.argv[1]), sys.argv[2], int(sys.argv[3]), (sys.argv + ['1'])[4]
    statuses, wrong, slowest = collections.Counter(), 0, 0.0
    with tempfile.TemporaryDirectory() as folder:
        for number in range(count):
            mode, words, text, given = case(random.Random(f'{kind} {seed} {number}'), kind)
            pathlib.Path(folder, 'text.pi').write_bytes(text)
            start = time.monotonic()
            try:
                done = subprocess.run([program, *words], cwd=folder, input=given, capture_output=True, timeout=20)
                status, out, err = done.returncode, done.stdout, done.stderr
            except subprocess.TimeoutExpired:
                status, out, err = 'no end', b'', b''
            seconds = time.monotonic() - start
            statuses[status], slowest = statuses[status] + 1, max(slowest, seconds)
            if seconds > 5 or not is_right(mode, status, out, err):
                wrong += 1
                print(f'{number}: {words} {text[:300]!r} {given[:300]!r}: {status} {out[-200:]!r} {err[:200]!r} {seconds:.2f} s', flush=True)
    print(f'{kind} {seed}: {count} texts, {wrong} wrong, statuses {dict(sorted(statuses.items(), key=str))}, slowest {slowest:.2f} s')
    return 1 if wrong else 0


sys.exit(main())
