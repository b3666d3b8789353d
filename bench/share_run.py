"""Runs of a program over an image: whole ones, and such that are asked a few lines at a time."""

import subprocess


def run(program, path, words, lines):
    done = subprocess.run([program, path, *words], input="".join(it + "\n" for it in lines).encode(), capture_output=True)
    return done.returncode, done.stdout.decode().splitlines(), done.stderr.decode()


class Session:
    """A run that is asked a few lines at a time."""

    def __init__(self, program, path):
        self.process = subprocess.Popen([program, path, "run"], stdin=subprocess.PIPE, stdout=subprocess.PIPE, text=True)

    def ask(self, lines):
        """The replies, each a list of lines; fewer where the run has ended."""
        self.process.stdin.write("".join(it + "\n" for it in lines))
        self.process.stdin.flush()
        replies = []
        while len(replies) < len(lines):
            reply = [self.process.stdout.readline().rstrip("\n")]
            while reply[-1] and not reply[-1].startswith(("ok", "no", "broken", "differs")):
                reply.append(self.process.stdout.readline().rstrip("\n"))
            replies.append(reply)
            if not reply[-1] or reply[-1].startswith(("broken", "differs")):
                break
        return replies

    def end(self):
        self.process.stdin.close()
        self.process.stdout.close()
        return self.process.wait()
