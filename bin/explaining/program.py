"""Calls of the proved program: which words it has, and what it prints."""
import os, pathlib, re, shlex, signal, subprocess, sys, threading, time
from typing import NamedTuple, Optional

TOP = pathlib.Path(__file__).resolve().parent.parent.parent
TIMED_OUT, NOT_STARTED = 124, 125
# what was said while the program was built
SAID = set()


class Answer(NamedTuple):
    """What a call answered: its words, status and texts, the signal that ended it if one did, and the seconds."""

    words: list
    status: int
    out: str
    notes: str
    signal: Optional[int]
    seconds: float


class Unstarted(Exception):
    """The program could not be run."""


class Stopped(Exception):
    """A signal ended what was done; its number."""


class Program:
    """The program that the variable FORESTER names, with words before its own if it likes, or else bin/forester: where
    nothing is built yet, as it runs from the sources, which says that nothing of it is proved."""

    def __init__(self, environment=os.environ):
        named = environment.get('FORESTER')
        self.command = shlex.split(named) if named else [str(TOP / 'bin' / 'forester'), *unproved()]
        self.usage = None
        self.running, self.lock, self.starting, self.stopped = set(), threading.RLock(), 0, None

    def options(self, command):
        """The options of one of its commands, by its own usage text."""
        if self.usage is None:
            answer = self.call([])
            if answer.status != 2:
                raise Unstarted(
                    f'{self.command[0]} without words ended with status {answer.status}, and not with a usage text: '
                    f'{answer.notes.strip()[:200]}'
                )
            self.usage = answer.notes
        line = re.search(rf'^.*\bforester {command} .*$', self.usage, re.MULTILINE)
        return re.findall(r'\[(--[a-z-]+)', line[0]) if line else []

    def call(self, words, seconds=None, waiting=None):
        """Runs it on words. What bin/forester says while it builds the program goes on to standard error."""
        begun, run, texts = time.monotonic(), self.start(words), [[], []]
        try:
            readers = [
                threading.Thread(target=read, args=it, daemon=True)
                for it in ((run.stdout, texts[0]), (run.stderr, texts[1]))
            ]
            for reader in readers:
                reader.start()
            timed_out = self.wait(run, begun, seconds, waiting)
        finally:
            end(run)
            with self.lock:
                self.running.discard(run)
        for reader in readers:
            reader.join(5)
        for stream in (run.stdout, run.stderr):
            stream.close()
        out, notes = (b''.join(it).decode('utf-8', 'replace') for it in texts)
        ended_by = -run.returncode if run.returncode < 0 and not timed_out else None
        status = TIMED_OUT if timed_out else 128 + ended_by if ended_by else run.returncode
        return Answer(words, status, out, notes, ended_by, time.monotonic() - begun)

    def start(self, words):
        """Starts it; a signal that comes meanwhile is heard when the run is known, so that it is ended too. Signals come
        to the main thread, so that a start in another one keeps none of them."""
        is_main = threading.current_thread() is threading.main_thread()
        with self.lock:
            self.starting += is_main
        try:
            run = subprocess.Popen(
                [*self.command, *words],
                stdin=subprocess.DEVNULL,
                stdout=subprocess.PIPE,
                stderr=subprocess.PIPE,
                start_new_session=True,
            )
            with self.lock:
                self.running.add(run)
        except OSError as failed:
            raise Unstarted(f'{self.command[0]}: {failed.strerror}') from failed
        finally:
            with self.lock:
                self.starting -= is_main
        if self.stopped:
            end(run)
            raise Stopped(self.stopped)
        return run

    def stop(self, number, _=None):
        """Hears a signal that is to end all of this."""
        self.stopped = number
        if not self.starting:
            raise Stopped(number)

    def wait(self, run, begun, seconds, waiting):
        """Waits until the program ends; whether its time was over before."""
        while True:
            spent = time.monotonic() - begun
            if seconds is not None and spent >= seconds:
                end(run)
                return True
            if waiting:
                waiting(spent)
            try:
                run.wait(min(0.5 if waiting else 3600, 3600 if seconds is None else seconds - spent))
                return False
            except subprocess.TimeoutExpired:
                pass

    def end_all(self):
        """Ends what still runs."""
        with self.lock:
            for run in self.running:
                end(run)


def unproved():
    """The word that runs the sources, where no program is built from them."""
    try:
        is_built = subprocess.run([TOP / 'bin' / 'build', '--is-built'], stdin=subprocess.DEVNULL).returncode == 0
    except OSError:
        is_built = True
    return [] if is_built else ['--unproved']


def read(stream, text):
    """Reads a stream to its end, and shows at once, and once, what is said while the program is built."""
    for line in iter(stream.readline, b''):
        if line.startswith(b'bin/'):
            if line not in SAID:
                SAID.add(line)
                sys.stderr.write(line.decode('utf-8', 'replace'))
                sys.stderr.flush()
        else:
            text.append(line)


def end(run):
    """Ends a run with all that it started; each runs in a session of its own."""
    if run.poll() is None:
        try:
            os.killpg(run.pid, signal.SIGKILL)
        except OSError:
            pass
        run.wait()


def version():
    """The line of `rt version` and the commit."""

    def line(*command):
        try:
            got = subprocess.run(command, cwd=TOP, capture_output=True, text=True, errors='replace', timeout=60)
            return got.stdout.strip().splitlines()[0] if got.returncode == 0 and got.stdout.strip() else None
        except (OSError, subprocess.TimeoutExpired):
            return None

    return [line('rt', 'version') or 'rt: not here', 'commit ' + (line('git', 'rev-parse', 'HEAD') or 'not known')]
