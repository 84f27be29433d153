"""Runs the compiled programs and gathers their answers: exit status, standard output, and the refusal told on standard error."""
import array
import fcntl
import os
import pathlib
import re
import subprocess
import tempfile
import termios
import time
from collections import namedtuple

CRATES = pathlib.Path(__file__).resolve().parents[2] / 'crates'
LIMIT = 60  # seconds

Answer = namedtuple('Answer', 'status output told')


def built(program):
    return str(CRATES / program / 'out' / program)


def told(error):
    """None where nothing was told, (number, place) of a refusal, or the words as they are."""
    refusal = re.match(rb'refused, (\d+)(?:, place (\d+))?: [^\n]+\n', error)
    if refusal:
        return int(refusal[1]), int(refusal[2] or 0)
    return error.decode(errors='backslashreplace') or None


def run(program, data, *args):
    """The answer of a program to data that stand ready on its standard input."""
    done = subprocess.run([built(program), *args], input=data, capture_output=True, timeout=LIMIT)
    return Answer(done.returncode, done.stdout, told(done.stderr))


def unread(pipe):
    count = array.array('i', [0])
    fcntl.ioctl(pipe, termios.FIONREAD, count)
    return count[0]


def wait_until_read(process):
    """Waits until the program has read all that was written, so that the next piece is a reading of its own."""
    end = time.monotonic() + LIMIT
    while unread(process.stdin) and process.poll() is None:
        os.sched_yield()
        if time.monotonic() > end:
            raise TimeoutError('a piece was not read')


def run_pieces(program, pieces):
    """The answer of a program to data that come through a pipe piece by piece."""
    with tempfile.TemporaryFile() as output, tempfile.TemporaryFile() as error:
        process = subprocess.Popen([built(program)], stdin=subprocess.PIPE, stdout=output, stderr=error, bufsize=0)
        try:
            for piece in pieces:
                process.stdin.write(piece)
                wait_until_read(process)
            process.stdin.close()
        except BrokenPipeError:
            pass
        status = process.wait(timeout=LIMIT)
        output.seek(0)
        error.seek(0)
        return Answer(status, output.read(), told(error.read()))
