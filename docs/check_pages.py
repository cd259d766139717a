#!/usr/bin/env python3
"""Runs what the pages show and compares what it writes: check_pages.py PROGRAM [PAGE..]

PROGRAM is a built picatq. Without PAGE it takes README.md, USE.md, LANGUAGE.md, BUILTINS.md, CAUSES.md and DIFFERENCES.md. Each difference is told, with
its page and line; the last line counts. CONTRIBUTING.md has the forms in which a page shows programs, commands and goals.

Each name of BUILTINS.md has to stand in the tables of built-in names of the sources, and each of those in BUILTINS.md. The time of a first
build in README.md is that of the launcher."""
import collections, dataclasses, os, pathlib, re, shutil, subprocess, sys, tempfile

TOP = pathlib.Path(__file__).resolve().parent.parent
PAGES = ['README.md', 'docs/USE.md', 'docs/LANGUAGE.md', 'docs/BUILTINS.md', 'docs/CAUSES.md', 'docs/DIFFERENCES.md']
BUILT_INS = 'docs/BUILTINS.md'
SECONDS = 120


@dataclasses.dataclass
class Block:
    """Lines of a fenced or an indented block, without fence and indent, and the number of the first one in its page."""
    line: int
    text: list
    is_fenced: bool


@dataclasses.dataclass
class Table:
    titles: list
    rows: list  # of pairs: number of the line, cells


# ---- reading pages

def blocks_of(lines):
    block, fence = None, False
    for number, line in enumerate(lines + [''], 1):
        if line.startswith('```'):
            fence = not fence
            if not fence:
                yield block
            block = Block(number + 1, [], True) if fence else None
        elif fence:
            block.text.append(line)
        elif line.startswith('    ') and (block or not lines[number - 2].strip()):
            block = block or Block(number, [], False)
            block.text.append(line[4:])
        elif block and not line.strip() and number <= len(lines):
            block.text.append('')
        elif block:
            yield block
            block = None


def cells_of(line):
    return [cell.strip().replace('\\|', '|') for cell in re.split(r'(?<!\\)\|', line.strip())[1:-1]]


def tables_of(lines):
    tables, is_inside = [], False
    for number, line in enumerate(lines, 1):
        if line.startswith('|') and not is_inside:
            tables.append(Table(cells_of(line), []))
        elif line.startswith('|') and not re.fullmatch(r'[|\- :]+', line):
            tables[-1].rows.append((number, cells_of(line)))
        is_inside = line.startswith('|')
    return tables


def spans_of(cell):
    return re.findall(r'`([^`]+)`', cell)


# ---- running

class Runs:
    """A folder in which commands run, with the program as `./picatq` and the programs of the examples."""

    def __init__(self, program):
        self.program = program
        self.count = self.wrong = 0

    def enter(self, folder):
        self.folder = pathlib.Path(folder)
        (self.folder / 'picatq').symlink_to(self.program)
        (self.folder / 'examples').symlink_to(TOP / 'examples')

    def run(self, words, given=''):
        try:
            done = subprocess.run(words, cwd=self.folder, input=given, stdout=subprocess.PIPE, stderr=subprocess.STDOUT, text=True, timeout=SECONDS)
        except subprocess.TimeoutExpired:
            return None, [f'no end within {SECONDS} seconds']
        return done.returncode, done.stdout.split('\n')

    def ask(self, program, goal):
        """The lines of a goal of a program. What the last one lacks is its line feed alone."""
        (self.folder / 'text.pi').write_text(program)
        return without_end(self.run(['./picatq', '--', 'text.pi', goal])[1])

    def compare(self, place, what, wanted, given):
        self.count += 1
        if wanted != given:
            self.wrong += 1
            print(f'{place}: {what}\n  the page: {wanted}\n  the run:  {given}', flush=True)


def without_end(lines):
    return lines[:-1] if lines and not lines[-1] else lines


def trimmed(lines):
    """Blanks at the end of a line aren't seen on a page."""
    lines = [line.rstrip() for line in lines]
    while lines and not lines[-1]:
        lines = lines[:-1]
    return lines


# ---- blocks

def check_terminal(runs, place, text):
    """Commands, each with what it writes. The status of one is `$?` in the next."""
    commands, status = [], 0
    for line in text:
        if line.startswith('$ '):
            commands.append((line[2:], []))
        else:
            commands[-1][1].append(line)
    for command, below in commands:
        if '--mode session' in command and '|' not in command and '<' not in command:
            check_session(runs, place, command, below)
            continue
        status, lines = runs.run(['bash', '-c', f'(exit {status})\n{command}'])
        runs.compare(place, command, trimmed(below), trimmed(lines))


def check_session(runs, place, command, below):
    """What is entered and what is written stand mixed: each line that isn't an answer to those before it is entered."""
    entered, seen, below = [], [], trimmed(below)
    while True:
        lines = trimmed(runs.run(['bash', '-c', command], ''.join(f'{line}\n' for line in entered))[1])
        fresh, rest = lines[len(seen):], below[len(entered) + len(seen):]
        if rest[:len(fresh)] != fresh or lines[:len(seen)] != seen:
            return runs.compare(place, f'{command}, {entered}', rest, fresh)
        rest, seen = rest[len(fresh):], lines
        if not rest:
            return runs.compare(place, command, [], [])
        entered.append(rest[0])


def check_command(runs, place, text):
    """A paragraph of commands, and what they write."""
    middle = text.index('') if '' in text else len(text)
    script, wanted = text[:middle], trimmed(text[middle + 1:])
    status, lines = runs.run(['bash', '-c', '\n'.join(script)])
    if wanted:
        runs.compare(place, script[0], wanted, trimmed(lines))
    else:
        runs.compare(place, script[0], True, status in (0, 1))


def check_blocks(runs, page, lines):
    for block in blocks_of(lines):
        place, text = f'{page}:{block.line}', trimmed(block.text)
        first = text[:text.index('')] if '' in text else text
        name = re.fullmatch(r'% (\w+\.pi)', text[0]) if text else None
        if name:
            (runs.folder / name[1]).write_text('\n'.join(text) + '\n')
        elif text and text[0].startswith('$ '):
            check_terminal(runs, place, text)
        elif any(re.search(r'(^|[|] )\./picatq ', line) for line in first):
            check_command(runs, place, text)
        elif block.is_fenced:
            runs.compare(place, 'a block', 'a program or a terminal', text)


# ---- rows of tables

def without_yes(lines):
    """The lines of answers, without those that say that they are answers."""
    return [line for line in lines if line not in ('yes', 'no more')]


def check_example(runs, place, example):
    """`GOAL` gives `LINE`, `LINE`; also writes, raises, holds, fails, is refused, and of a program is read."""
    found = re.fullmatch(r'`([^`]+)` (gives|writes|raises|holds|fails|is refused:|is read)(.*)', example)
    if not found:
        return runs.compare(place, example, 'an example', 'something else')
    goal, verb, wanted = found[1], found[2], spans_of(found[3])
    if verb == 'is read':
        return runs.compare(place, goal, ['yes', 'no more'], runs.ask(goal, 'true'))
    lines = runs.ask('', goal)
    if verb in ('gives', 'writes'):
        runs.compare(place, goal, trimmed(wanted), trimmed(without_yes(lines)))
    elif verb == 'raises':
        runs.compare(place, goal, [f'exception: {ball}' for ball in wanted], lines)
    elif verb == 'is refused:':
        runs.compare(place, goal, wanted, lines)
    else:
        runs.compare(place, goal, {'holds': ['yes', 'no more'], 'fails': ['no']}[verb], lines)


def check_examples(runs, place, cell):
    """Examples parted by semicolons that stand outside of code."""
    parts = [''.join(part) for part in re.findall(r'((?:`[^`]*`|[^`;])+)', cell)]
    for part in filter(None, (part.strip() for part in parts)):
        check_example(runs, place, part)


def check_goal(runs, place, program, goal, wanted):
    """A row of README.md: what a goal of a program writes, or of the mode that stands in place of the goal."""
    (runs.folder / 'text.pi').write_text('\n'.join(program))
    words, given = ['text.pi'], ''
    for span in goal:
        if span.startswith('--'):
            words = span.split() + words
        elif '--mode' in words:
            given += f'{span}\n'
        else:
            words = [*words, span]
    runs.compare(place, goal, wanted, trimmed(runs.run(['./picatq', *words], given)[1]))


def check_line(runs, place, kind, text, wanted):
    """The one line that a program gives, whatever is asked of it, or a goal, or words."""
    kind = kind or wanted[0].split(':')[0]
    if kind == 'words':
        given = without_end(runs.run(['./picatq', *text.split()])[1])
    else:
        given = runs.ask(text, 'true') if kind == 'program' else runs.ask('', text)
    runs.compare(place, text, wanted, given)


def check_instance(runs, place, cell, wanted):
    """An instance of a line that is a program, a goal or words; others are told in prose."""
    found = re.match(r'(?:the (program|goal|words) )?`([^`]+)`(?:$|, where)', cell)
    if found:
        check_line(runs, place, found[1], found[2], wanted)


def check_tables(runs, page, lines):
    for table in tables_of(lines):
        for number, cells in table.rows:
            place, row = f'{page}:{number}', dict(zip(table.titles, cells))
            check_examples(runs, place, row.get('Examples', ''))
            check_examples(runs, place, row.get('Instead', ''))
            written = spans_of(row.get('What is written', row.get('Line', '')))
            if 'For instance' in row:
                check_instance(runs, place, row['For instance'], written)
            elif 'Elsewhere' in row and written:
                check_line(runs, place, None, *spans_of(row['Elsewhere']), written)
            elif 'A goal' in row:
                check_goal(runs, place, spans_of(row.get('A program', '')), spans_of(row['A goal']), written)


# ---- names

def names_of_sources():
    """Each name that the language builds in, with each number of its arguments."""
    text = (TOP / 'crates/pi_syntax/src/rows.rt').read_text()
    for name, least, most in re.findall(r'\("((?:[^"\\]|\\.)+)", (\d+), (\d+)\)', text):
        for count in range(int(least), int(most) + 1):
            yield f'{name}/{count}'.replace('\\\\', '\\')


def names_of_page(lines):
    for table in tables_of(lines):
        if table.titles[0] == 'Name':
            for number, cells in table.rows:
                spans = spans_of(cells[0])
                if ' to ' in cells[0]:
                    name, least, most = spans[0].rsplit('/', 1)[0], *(int(span.rsplit('/', 1)[1]) for span in spans)
                    spans = [f'{name}/{count}' for count in range(least, most + 1)]
                yield from spans


def check_names(runs, lines):
    page, sources = collections.Counter(names_of_page(lines)), set(names_of_sources())
    runs.compare(BUILT_INS, 'names that stand twice', [], [name for name, count in page.items() if count > 1])
    runs.compare(BUILT_INS, 'names that the language lacks', [], sorted(set(page) - sources))
    runs.compare(BUILT_INS, 'names that the page lacks', [], sorted(sources - set(page)))


def check_build_time(runs, text):
    told = re.search(r"^first_build='(.*)'$", (TOP / 'picatq').read_text(), re.M)
    runs.compare('README.md', 'the time of a first build', True, told is None or told[1] in text)


def main():
    if len(sys.argv) < 2:
        print(__doc__)
        return 2
    program = shutil.which(sys.argv[1]) or sys.argv[1]
    runs = Runs(os.path.abspath(program))
    for page in sys.argv[2:] or PAGES:
        text = (TOP / page).read_text()
        lines = text.split('\n')
        with tempfile.TemporaryDirectory() as folder:
            runs.enter(folder)
            check_blocks(runs, page, lines)
            check_tables(runs, page, lines)
        if page == BUILT_INS:
            check_names(runs, lines)
        if page == 'README.md':
            check_build_time(runs, text)
    print(f'{runs.count} compared, {runs.wrong} differ')
    return 1 if runs.wrong else 0


sys.exit(main())
