"""One run of the command: words and input in; status, output and standard error out."""
import os
import signal

SECONDS = 300


class Command:
    """Runs a program with its three streams in memory."""

    def __init__(self, program):
        self.program = program
        self.files = [os.memfd_create(name) for name in ("input", "output", "errors")]
        self.actions = [(os.POSIX_SPAWN_DUP2, file, place) for place, file in enumerate(self.files)]

    def run(self, words, source, environment=None):
        for file in self.files:
            os.ftruncate(file, 0)
            os.lseek(file, 0, os.SEEK_SET)
        written = 0
        while written < len(source):
            written += os.pwrite(self.files[0], source[written:], written)
        child = os.posix_spawn(self.program, [self.program, *words], environment or {}, file_actions=self.actions)
        signal.signal(signal.SIGALRM, lambda *_: os.kill(child, signal.SIGKILL))
        signal.alarm(SECONDS)
        _, ended = os.waitpid(child, 0)
        signal.alarm(0)
        output, errors = (os.pread(file, os.fstat(file).st_size, 0) for file in self.files[1:])
        return os.waitstatus_to_exitcode(ended), output, errors
