"""How the built program is run on stored input, and what it writes is compared."""
import array
import fcntl
import os
import pathlib
import select
import subprocess
import sys
import tempfile
import termios
import threading
import time

ROOT = pathlib.Path(__file__).resolve().parent.parent
KEYS = os.path.abspath(os.environ.get('KEYS', ROOT / 'target/bin/keys'))
SECONDS = 600
# a run in pieces is killed after so many seconds, and a piece is looked after so often
PATIENCE, PAUSE = 120, 0.00005


def held(file):
    """What a file holds; nothing where it is not there."""
    return file.read_bytes() if file.exists() else b''


def run(words, given, where):
    return subprocess.run([KEYS, *words], input=given, cwd=where, capture_output=True, timeout=SECONDS)


def run_in_pieces(words, given, pieces, where):
    """A run whose input comes through a pipe, in pieces of these lengths and the rest as one last piece, each handed over once the one before is taken. After the word `open` the pipe
    stays open until the program has ended by itself; one that does not is killed."""
    with tempfile.TemporaryFile() as out, tempfile.TemporaryFile() as error:
        with subprocess.Popen([KEYS, *words], cwd=where, bufsize=0, stdin=subprocess.PIPE, stdout=out, stderr=error) as child:
            timer = threading.Timer(PATIENCE, child.kill)
            timer.start()
            hand_over(child.stdin, given, [int(piece) for piece in pieces if piece != 'open'])
            if 'open' not in pieces:
                child.stdin.close()
            child.wait()
            timer.cancel()
        return subprocess.CompletedProcess(words, child.returncode, written(out), written(error))


def hand_over(pipe, given, lengths):
    """Writes the pieces as they are taken. A program may close its end, or end, before it has all: then there is no more to hand over."""
    try:
        for length in [*lengths, len(given)]:
            pipe.write(given[:length])
            given = given[length:]
            while waiting(pipe):
                time.sleep(PAUSE)
    except BrokenPipeError:
        pass


def waiting(pipe):
    """Whether bytes stand in a pipe and its reader is there to take them."""
    closed, held = select.poll(), array.array('i', [0])
    closed.register(pipe, 0)
    fcntl.ioctl(pipe, termios.FIONREAD, held)
    return held[0] > 0 and not closed.poll(0)


def written(file):
    file.seek(0)
    return file.read()


def differs(what, told, right):
    """The first line in which a text is not the right one."""
    told, right = told.split(b'\n'), right.split(b'\n')
    if told != right:
        line = next((n for n, pair in enumerate(zip(told, right)) if pair[0] != pair[1]), min(len(told), len(right)))
        yield f'{what}: line {line + 1} is {b"".join(told[line:line + 1])!r}, and must be {b"".join(right[line:line + 1])!r}'


def compared(what, done, output, error):
    """What is wrong with a run, by what it had to write to standard output and to standard error."""
    if done.returncode:
        yield f'{what} ends with status {done.returncode}'
    yield from differs(what, done.stdout, output)
    yield from differs(f'{what}, standard error', done.stderr, error)


def told(wrong, right):
    """Ends with 1 after naming what is wrong, and with 0 after saying that all is right."""
    print('\n'.join(wrong) if wrong else right)
    sys.exit(1 if wrong else 0)
