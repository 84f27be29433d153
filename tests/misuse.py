"""Tries the misuses of tests/misuse: what a type forbids, so that the compiler refuses it before anything is to be proved. Last: 'N passed, M failed'.

A file there has lines 'file: PATH', 'old: TEXT', 'new: TEXT', each TEXT one line that stands once in the file, and 'error: NAME', the error that is wanted."""
import functools
import pathlib
import re
import shutil
import subprocess
import sys
import tempfile

ROOT = pathlib.Path(__file__).resolve().parent.parent


def copied(folder):
    shutil.copytree(ROOT / 'crates', folder / 'crates', ignore=shutil.ignore_patterns('out'))
    shutil.copy(ROOT / 'crates.txt', folder)


def tried(crate):
    """Whether the program of a crate runs as it stands, without a proof, and what was said."""
    r = subprocess.run(['rt', 'try'], cwd=crate, stdin=subprocess.DEVNULL, capture_output=True, text=True, timeout=600)
    return r.returncode, r.stdout + r.stderr


@functools.lru_cache
def asserts_that_it_runs(crate):
    status, said = tried(crate)
    assert status == 0, f'{crate.name} does not run as it stands: {said}'


def misuse(edit):
    words = dict(re.findall(r'^(file|old|new|error): (.*)$', edit.read_text(encoding='utf-8'), re.M))
    asserts_that_it_runs((ROOT / words['file']).parent.parent)
    with tempfile.TemporaryDirectory() as folder:
        folder = pathlib.Path(folder)
        copied(folder)
        source = folder / words['file']
        text = source.read_text(encoding='utf-8')
        assert text.count(words['old']) == 1, f"'old' stands {text.count(words['old'])} times in {words['file']}"
        source.write_text(text.replace(words['old'], words['new']), encoding='utf-8')
        status, said = tried(source.parent.parent)
    errors = re.findall(r'^(\S+?):\d+:\d+: error\[([\w-]+)\]', said, re.M)
    assert status == 1 and errors == [(f'src/{source.name}', words['error'])], said


def main():
    passed = failed = 0
    for edit in sorted((ROOT / 'tests' / 'misuse').glob('*.edit')):
        try:
            misuse(edit)
            passed += 1
            print('ok', edit.stem)
        except Exception as e:
            failed += 1
            print('FAILED', edit.stem, repr(e)[:1000])
    print(f'{passed} passed, {failed} failed')
    sys.exit(failed != 0)


main()
