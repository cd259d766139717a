#!/usr/bin/env python3
"""The program as it would be, optimized and not proved: unproved.py CRATE PROGRAM, anywhere below the top of the repository.

It compiles the crate's text and all below it as `rt try` does, keeps the module that clang is handed, compiles that by itself at -O3
(or at what OPT says, as OPT=-O1) and without the sanitizer, and links it to PROGRAM. That takes two or three minutes, in which no
proof is made: a draft can so be counted, as by `valgrind --tool=callgrind`, before its lemmas are written. The traps on indexes and
sums stay, so counts are some percent above those of the proved program, and serve to compare two drafts. Nothing is claimed of PROGRAM."""
import ast, os, pathlib, shutil, subprocess, sys, tempfile

KEEPS = '''#!/usr/bin/env python3
import os, shutil, sys
keep, real = {keep!r}, {real!r}
with open(keep + '/{name}.words', 'a') as words:
    words.write(repr(sys.argv) + '\\n')
for word in sys.argv[1:]:
    if os.path.isfile(word) and not os.path.isabs(word):
        shutil.copy(word, keep)
os.execv(real, sys.argv)
'''


def kit():
    """Where the kit is: beside the folder of the page that it asks to be read first."""
    page = subprocess.run(['rt', 'doc'], capture_output=True, text=True, check=True).stdout
    return pathlib.Path(page.strip()).resolve().parent


def links(source, target, but=()):
    target.mkdir()
    for it in source.iterdir():
        if it.name not in but:
            (target / it.name).symlink_to(it)


def keeping(real, folder, keep):
    """A kit like the real one, whose clang and linker keep what they are handed."""
    links(real, folder, but=('bin', 'toolchain'))
    links(real / 'bin', folder / 'bin', but=('rt', 'rtlib.py'))
    for name in ('rt', 'rtlib.py'):
        shutil.copy(real / 'bin' / name, folder / 'bin' / name)
    links(real / 'toolchain', folder / 'toolchain', but=('bin',))
    links(real / 'toolchain/bin', folder / 'toolchain/bin', but=('clang', 'ld.lld'))
    for name in ('clang', 'ld.lld'):
        tool = folder / 'toolchain/bin' / name
        tool.write_text(KEEPS.format(keep=str(keep), real=str(real / 'toolchain/bin' / name), name=name))
        tool.chmod(0o755)
    return folder


def words_of(keep, name):
    """The words of a tool's first call."""
    return ast.literal_eval((keep / f'{name}.words').read_text().splitlines()[0])


def main():
    if len(sys.argv) != 3:
        sys.exit(__doc__.splitlines()[0])
    crate, program = sys.argv[1], pathlib.Path(sys.argv[2]).resolve()
    top = pathlib.Path(__file__).resolve().parent.parent
    with tempfile.TemporaryDirectory(prefix='unproved-') as made:
        real, keep = kit(), pathlib.Path(made, 'keep')
        keep.mkdir()
        copy = keeping(real, pathlib.Path(made, 'kit'), keep)
        tried = subprocess.run([copy / 'bin/rt', 'try'], cwd=top / 'crates' / crate, stdin=subprocess.DEVNULL, capture_output=True)
        if not (keep / 'module.bc').exists() or not (keep / 'ld.lld.words').exists():
            sys.exit(tried.stderr.decode(errors='replace') + f'{crate} gave no module')
        compiled = [word for word in words_of(keep, 'clang') if not word.startswith(('-O', '-fsanitize'))]
        subprocess.run([*compiled, os.environ.get('OPT', '-O3')], executable=real / 'toolchain/bin/clang', cwd=keep, check=True)
        shutil.copy(keep / 'module.o', keep / 'input-0')
        linked = words_of(keep, 'ld.lld')
        first, last = linked.index('--whole-archive'), linked.index('--no-whole-archive')
        subprocess.run([*linked[:first], *linked[last + 1:]], executable=real / 'toolchain/bin/ld.lld', cwd=keep, check=True)
        shutil.copy(keep / 'program', program)


main()
