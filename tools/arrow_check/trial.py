"""Runs a function in a child process, where a crash, a hang or an exit of it is an outcome and does no harm."""
import ctypes
import json
import os
import resource
import select
import signal
import socket
import sys
import time
import traceback
from typing import Any, Callable, List, NamedTuple, Optional

Say = Callable[..., Any]  # say(value) hands a value of JSON over, say(value, waits=True) also gives the caller's answer
PR_SET_PDEATHSIG, GLANCE = 1, 0.05  # a call of prctl; seconds between two looks at whether a child is there
inside = False  # whether this is such a child, whose own children stay in its process group


class Outcome(NamedTuple):
    kind: str  # "ended", "raised", "exited", "signal" or "timeout"
    status: int  # where it exited by itself
    signal: int  # that it was ended by
    said: List[Any]  # what it handed over, in order
    why: str  # the exception that it raised, by type and message
    trace: str  # and its traceback
    folder: str  # where it was at its end, if that isn't where it began, else nothing

    @property
    def words(self) -> str:
        """What it did, where it didn't just return."""
        try:
            name = signal.Signals(self.signal).name if self.signal else ""
        except ValueError:
            name = f"signal {self.signal}"
        return {"signal": f"it is ended by {name}", "exited": f"it ends the process with status {self.status}",
                "timeout": "it takes too long", "raised": f"it raises {self.why}"}.get(self.kind, "it returns")


class Running:
    """A child at work on `act(say)`; `heard` answers it. The `seconds` are those in all, or with `each` up to each word."""

    def __init__(self, act: Callable[[Say], None], seconds: float, heard: Optional[Callable[[Any], Any]] = None,
                 each: bool = False) -> None:
        self.seconds, self.heard, self.each, self.said, self.read = seconds, heard, each, [], b""
        self.end: Any = None
        for stream in (sys.stdout, sys.stderr):
            if stream and not stream.closed:
                stream.flush()
        self.ears, mouth = socket.socketpair()
        held = signal.pthread_sigmask(signal.SIG_BLOCK, {signal.SIGINT, signal.SIGTERM})
        caller, leads = os.getpid(), not inside
        try:
            self.pid = os.fork()
            if not self.pid:
                be_child(act, mouth, self.ears, held, leads, caller)
            self.leads = leads
            if leads:
                try:
                    os.setpgid(self.pid, self.pid)
                except OSError:  # it did so itself, or has ended
                    pass
        finally:
            signal.pthread_sigmask(signal.SIG_SETMASK, held)
            mouth.close()
        self.until = time.monotonic() + seconds

    def wait(self) -> Outcome:
        """Answers what it says up to its end, or to the end of its time; then nothing of it is left."""
        late, talks = False, True
        try:
            while self.end is None:
                left = self.until - time.monotonic()
                gone = self.is_gone()
                if talks and select.select([self.ears], [], [], 0 if gone else max(0.0, min(left, GLANCE)))[0]:
                    talks = self.hear()
                elif gone:
                    break
                elif left <= 0:
                    late = True
                    break
                elif not talks:
                    time.sleep(0.001)
        finally:
            code = self.stop()
        end = self.end or {}
        kind = end.get("kind") or ("timeout" if late or code is None else "signal" if code < 0 else "exited")
        status = end.get("status", max(0, code or 0))
        return Outcome(kind, status, -code if kind == "signal" and code else 0, self.said, end.get("why", ""),
                       end.get("trace", ""), end.get("folder", ""))

    def is_gone(self) -> bool:
        """Whether the child has ended; it isn't reaped by that."""
        return os.waitid(os.P_PID, self.pid, os.WEXITED | os.WNOWAIT | os.WNOHANG) is not None

    def hear(self) -> bool:
        """Takes what is there to be read; false at the end of it."""
        try:
            read = self.ears.recv(1 << 16)
        except OSError:
            read = b""
        *lines, self.read = (self.read + read).split(b"\n")
        for line in lines:
            kind, value = json.loads(line)
            if kind == "end":
                self.end = value
                continue
            began = time.monotonic()
            self.said.append(value)
            answer = self.heard(value) if self.heard else None
            now = time.monotonic()
            self.until = now + self.seconds if self.each else self.until + now - began
            if kind == "ask":
                try:
                    self.ears.sendall(json.dumps(answer).encode() + b"\n")
                except OSError:  # it has ended in the meantime
                    pass
        return bool(read)

    def stop(self) -> Optional[int]:
        """Ends the child and its children; its status, below 0 for a signal, or None where it was this that ended it."""
        was_gone = self.is_gone()
        try:
            (os.killpg if self.leads else os.kill)(self.pid, signal.SIGKILL)
        except OSError:
            pass
        self.ears.close()
        code = os.waitpid(self.pid, 0)[1]
        return None if not was_gone else -os.WTERMSIG(code) if os.WIFSIGNALED(code) else os.WEXITSTATUS(code)


def be_child(act: Callable[[Say], None], mouth: socket.socket, ears: socket.socket, held: Any, leads: bool,
             caller: int) -> None:
    """The child's whole life. It ends with its caller; its standard output is its caller's standard error."""
    global inside
    end: Any = {"kind": "ended"}
    answers = mouth.makefile("rb")

    def say(value: Any, waits: bool = False, kind: str = "say") -> Any:
        mouth.sendall(json.dumps([kind if kind == "end" or not waits else "ask", value]).encode() + b"\n")
        return json.loads(answers.readline() or b"null") if waits else None

    try:
        inside = True
        ears.close()
        if leads:
            os.setpgid(0, 0)
        ctypes.CDLL(None).prctl(PR_SET_PDEATHSIG, signal.SIGKILL)
        if os.getppid() != caller:
            os._exit(1)
        resource.setrlimit(resource.RLIMIT_CORE, (0, 0))
        nothing = os.open(os.devnull, os.O_RDWR)
        os.dup2(nothing, 0)
        try:
            os.dup2(2, 1)
        except OSError:  # there is no standard error
            os.dup2(nothing, 1)
        for each in (signal.SIGINT, signal.SIGTERM):
            signal.signal(each, signal.SIG_DFL)
        signal.pthread_sigmask(signal.SIG_SETMASK, held)
        folder = os.getcwd()
        act(say)
        now = os.getcwd()
        end["folder"] = now if now != folder else ""
    except SystemExit as why:
        end = {"kind": "exited", "status": why.code if isinstance(why.code, int) else int(why.code is not None)}
    except BaseException as why:
        end = {"kind": "raised", "why": f"{type(why).__name__}: {why}", "trace": traceback.format_exc()}
    try:
        say(end, kind="end")
        for stream in (sys.stdout, sys.stderr):
            if stream and not stream.closed:
                stream.flush()
        ctypes.CDLL(None).fflush(None)
    finally:
        os._exit(0)


def run(act: Callable[[Say], None], seconds: float, heard: Optional[Callable[[Any], Any]] = None, each: bool = False,
        here: bool = False) -> Outcome:
    """What comes of `act(say)` in a child process, or with `here` in this one, where a crash is a crash."""
    if not here:
        return Running(act, seconds, heard, each).wait()
    said: List[Any] = []

    def say(value: Any, waits: bool = False) -> Any:
        said.append(value)
        answer = heard(value) if heard else None
        return answer if waits else None

    folder, why, trace = os.getcwd(), "", ""
    try:
        act(say)
    except Exception as raised:
        why, trace = f"{type(raised).__name__}: {raised}", traceback.format_exc()
    now = os.getcwd()
    os.chdir(folder)
    return Outcome("raised" if why else "ended", 0, 0, said, why, trace, now if now != folder else "")
