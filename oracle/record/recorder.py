# The recorder, asked call by call.
import subprocess


class Recorder:
    """A process of the recorder that answers a script on one of the streams: window or events."""

    def __init__(self, program, stream):
        self.process = subprocess.Popen([program, stream], stdin=subprocess.PIPE, stdout=subprocess.PIPE, text=True, bufsize=1)

    def ask(self, call):
        """The answer to a call."""
        self.process.stdin.write(call + '\n')
        return self.process.stdout.readline().rstrip('\n')
