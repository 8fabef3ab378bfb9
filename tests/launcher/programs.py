"""Runs the program, by itself and through the launcher, in a fresh folder."""
import os
import resource
import shutil
import subprocess
import tempfile

TOP = os.path.dirname(os.path.dirname(os.path.dirname(os.path.abspath(__file__))))
FIRST = os.path.join(TOP, "examples", "first.hc")
BUILT = b"built: gates 41, flip-flops 8, rams 0\n"
SECONDS = 120


class Failure(Exception):
    pass


def limited(kind, soft, hard):
    """What a child does before it starts: it takes a limit of the system."""
    return lambda: resource.setrlimit(kind, (soft, hard))


class Programs:
    def __init__(self, program):
        self.program = program
        self.kept = tempfile.TemporaryDirectory(prefix="hcc-launcher-")
        self.folder = self.kept.name
        os.chmod(self.folder, 0o755)

    def path(self, name):
        return os.path.join(self.folder, name)

    def put(self, name, data):
        with open(self.path(name), "wb") as file:
            file.write(data if isinstance(data, bytes) else data.encode())

    def get(self, name):
        with open(self.path(name), "rb") as file:
            return file.read()

    def put_first(self, name="a.hc"):
        shutil.copyfile(FIRST, self.path(name))

    def end(self, words, program=None, explain=None, weight=None, **how):
        """Runs the program alone, or another command before its words; answers what it ended with."""
        asked = {"HCC_EXPLAIN": explain, "HCC_WEIGHT": weight}
        environment = {key: value for key, value in os.environ.items() if key not in asked}
        environment.update({key: value for key, value in asked.items() if value is not None})
        how = {"stdin": subprocess.DEVNULL, "stdout": subprocess.PIPE, "stderr": subprocess.PIPE, **how}
        command = [*(program or [self.program]), *words]
        try:
            return subprocess.run(command, cwd=self.folder, env=environment, timeout=SECONDS, **how)
        except subprocess.TimeoutExpired:
            raise Failure(f"{command[-4:]}: no end within {SECONDS} seconds") from None

    def launch(self, words, **how):
        """Runs the program as the launcher does."""
        return self.end(words, ["sh", os.path.join(TOP, "tools", "run"), self.program], **how)

    def want(self, ended, status, out=b"", err=None):
        """Fails where a run ended with another status, standard output or standard error."""
        if ended.returncode != status:
            raise Failure(f"{ended.args[-4:]}: status {ended.returncode}, not {status}: {ended.stdout} {ended.stderr}")
        if ended.stdout is not None and ended.stdout != out:
            raise Failure(f"{ended.args[-4:]}: standard output {ended.stdout}, not {out}")
        if err is not None and ended.stderr != err:
            raise Failure(f"{ended.args[-4:]}: standard error\n{ended.stderr.decode()}not\n{err.decode()}")
