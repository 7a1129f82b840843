"""Runs of a program, and what they take: processor time and memory as the system counts them, and instructions as callgrind does."""
import argparse
import json
import os
import re
import resource
import signal
import subprocess

TOP = os.path.dirname(os.path.dirname(os.path.abspath(__file__)))


# The most memory of a run: what takes more is far beyond what it may, and the machine may have other work.
MOST = 3 << 30


class Runner:
    """A process that runs programs and tells what each took. It is forked before this one has grown, since a run's peak is no less
    than what the process had that it is forked from."""

    def __init__(self):
        down, up = os.pipe(), os.pipe()
        if os.fork() == 0:
            os.close(down[1]), os.close(up[0])
            serve(os.fdopen(down[0]), os.fdopen(up[1], "w"))
        os.close(down[0]), os.close(up[1])
        self.asks, self.told = os.fdopen(down[1], "w"), os.fdopen(up[0])

    def run(self, words, given, text, errors, seconds):
        """The status of a run on this file, which is ended behind so many seconds of processor time, those that it took, and its peak
        in kilobytes. The text and the lines of standard error go to files."""
        print(json.dumps([words, given, text, errors, seconds]), file=self.asks, flush=True)
        return json.loads(self.told.readline())


def serve(asked, told):
    # Ctrl-C ends neither this process nor a run: the bench tells what it has.
    signal.signal(signal.SIGINT, signal.SIG_IGN)
    for line in asked:
        words, given, text, errors, seconds = json.loads(line)
        made = os.O_WRONLY | os.O_CREAT | os.O_TRUNC
        ends = [os.open(given, os.O_RDONLY), os.open(text, made), os.open(errors, made)]
        pid = os.fork()
        if pid == 0:
            try:
                resource.setrlimit(resource.RLIMIT_CPU, (seconds, seconds + 1))
                resource.setrlimit(resource.RLIMIT_AS, (MOST, MOST))
                for place, end in enumerate(ends):
                    os.dup2(end, place)
                os.execv(words[0], words)
            finally:
                os._exit(127)
        for end in ends:
            os.close(end)
        _, status, used = os.wait4(pid, 0)
        print(json.dumps([os.waitstatus_to_exitcode(status), used.ru_utime + used.ru_stime, used.ru_maxrss]), file=told, flush=True)
    os._exit(0)


def counted(words, given, text=os.devnull):
    """The status of a run on this file, and the instructions that it took."""
    with open(given, "rb") as file, open(text, "wb") as out:
        ran = subprocess.run(["valgrind", "--tool=callgrind", "--callgrind-out-file=/dev/null", *words], stdin=file, stdout=out, stderr=-1)
    found = re.search(rb"Collected : (\d+)", ran.stderr)
    if found is None:
        raise SystemExit(f"nothing was counted of {' '.join(words)}: {ran.stderr.decode(errors='replace')[:500]}")
    return ran.returncode, int(found[1])


def asked(about):
    """The words of a bench: what it is to do alone, and the program, to which a bench may add its own."""
    words = argparse.ArgumentParser(description=about, formatter_class=argparse.RawDescriptionHelpFormatter)
    words.add_argument("--only", default="", metavar="WORD", help="the lines with this word alone")
    words.add_argument("program", nargs="?", default=f"{TOP}/out/arrowpipe", help="the arrowpipe beside whose arrowtree is the other one")
    return words


def programs(path):
    """The programs arrowpipe and arrowtree in a program's folder. The scripts of these names, which build, are no programs."""
    folder = os.path.dirname(os.path.abspath(path))
    both = [f"{folder}/{it}" for it in ("arrowpipe", "arrowtree")]
    for it in both:
        if not os.access(it, os.X_OK) or open(it, "rb").read(4) != b"\x7fELF":
            raise SystemExit(f"there is no program {it}")
    return both
