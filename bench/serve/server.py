"""The desk as a child process, and what /proc says of it."""
import atexit
import os
import socket
import subprocess
import tempfile
import threading
import time
from pathlib import Path

TICK = os.sysconf('SC_CLK_TCK')


def free_port():
    with socket.socket() as line:
        line.bind(('127.0.0.1', 0))
        return line.getsockname()[1]


def is_listening(port):
    """Whether a socket of this machine listens on the port. (It isn't tried by connecting: each connection counts.)"""
    rows = (row.split() for row in Path('/proc/net/tcp').read_text().splitlines()[1:])
    return any(row[3] == '0A' and row[1].endswith(f':{port:04X}') for row in rows)


class Server:
    """`giveup serve` on a port of its own, or at the doors of `doors`, until it ends by itself. `options` are further words of its command line."""

    def __init__(self, program, reference, script, connections, every=0, journal=None, limits=None, options=(), doors=None):
        self.port = None if doors else free_port()
        words = [program, 'serve', reference, str(self.port or '-'), '--script', script, '--connections', str(connections), '--every', str(every)]
        words += ['--doors', doors] if doors else []
        words += ['--journal', journal] if journal else []
        words += options
        self.child = subprocess.Popen(words, stdin=subprocess.DEVNULL, stdout=subprocess.PIPE, stderr=subprocess.PIPE, preexec_fn=limits)
        self.out, self.err, self.peak_kb = b'', b'', 0
        self.threads = [threading.Thread(target=part, daemon=True) for part in (self.read_out, self.read_err, self.watch)]
        for thread in self.threads:
            thread.start()
        end = time.monotonic() + 60
        while not (is_listening(self.port) if self.port else any(Path(doors).iterdir())):
            if self.child.poll() is not None or time.monotonic() > end:
                self.stop()
                raise SystemExit(f'the desk has no port: {self.err.decode(errors="replace")}')
            time.sleep(0.02)

    def read_out(self):
        self.out = self.child.stdout.read()

    def read_err(self):
        while piece := os.read(self.child.stderr.fileno(), 65536):
            self.err += piece

    def value_of(self, name):
        """A number that /proc has of the process, in kB, or 0 if it is gone."""
        try:
            rows = Path(f'/proc/{self.child.pid}/status').read_text().splitlines()
            return next((int(row.split()[1]) for row in rows if row.startswith(name)), 0)
        except OSError:
            return 0

    def watch(self):
        while self.child.poll() is None:
            self.peak_kb = max(self.peak_kb, self.value_of('VmHWM'))
            time.sleep(0.02)

    def processor_seconds(self):
        """User and system time so far; None if it has ended."""
        try:
            words = Path(f'/proc/{self.child.pid}/stat').read_text().rpartition(')')[2].split()
            return (int(words[11]) + int(words[12])) / TICK
        except OSError:
            return None

    def stop(self):
        self.child.kill()
        self.child.wait()

    def end(self, seconds=120):
        """Waits for its end: its status and the lines that it printed. None, and the lines so far, if it doesn't end in time."""
        try:
            self.child.wait(seconds)
        except subprocess.TimeoutExpired:
            self.stop()
            return None, ['the desk had not ended, and was killed']
        for thread in self.threads:
            thread.join(10)
        return self.child.returncode, (self.out + self.err).decode(errors='replace').splitlines()


def written(text):
    """A file with this text, which anybody may read and which is removed at the end."""
    file = tempfile.NamedTemporaryFile('w', prefix='serve-', delete=False)
    atexit.register(os.unlink, file.name)
    with file:
        file.write(text)
    os.chmod(file.name, 0o644)
    return file.name
