"""A program over streams as they may be: an input that comes in parts, a stream that isn't there, reads that are interrupted or fail (reads.c)."""
import os
import pathlib
import signal
import subprocess
import threading
import time

HERE = pathlib.Path(__file__).resolve().parent.parent
READS = HERE / "target" / "tests" / "reads.so"
MUCH = 100000  # bytes: more than a program ever writes
PATIENCE = 60  # seconds


def failing_reads():
    """The library of tests/reads.c, made anew."""
    READS.parent.mkdir(parents=True, exist_ok=True)
    subprocess.run(["gcc", "-std=c11", "-Wall", "-Wextra", "-Werror", "-shared", "-fPIC", "-o", READS, HERE / "tests" / "reads.c"], check=True)
    return READS


def with_reads(**words):
    """The environment of a program that the library is preloaded to: READS and SIGNALS are its words."""
    return {**os.environ, "LD_PRELOAD": str(READS), **words}


def feed(started, parts, pause):
    try:
        for part in parts:
            started.stdin.write(part)
            started.stdin.flush()
            time.sleep(pause)
        if started.stdin:
            started.stdin.close()
    except BrokenPipeError:  # the program ended before it had read all
        pass


def run(program, parts=(), closed=None, pause=0.02, **streams):
    """The exit status of a program, and what it writes on both outputs. The input comes part by part, and closed is a stream that it is started without."""
    started = subprocess.Popen([program], **{"stdin": subprocess.PIPE, "stdout": subprocess.PIPE, "stderr": subprocess.PIPE, **streams},
                               preexec_fn=None if closed is None else lambda: os.close(closed))
    late = threading.Timer(PATIENCE, started.kill)
    late.start()
    feed(started, parts, pause)
    out = started.stdout.read(MUCH) if started.stdout else b""
    if len(out) == MUCH:
        started.kill()
    err = started.stderr.read(MUCH) if len(out) < MUCH else b"far too much is written"
    status = started.wait()
    late.cancel()
    return status, out, err if status != -signal.SIGKILL else err or b"stopped, since it doesn't end"
