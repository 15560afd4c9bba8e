"""A room: a copy of the tree in which a change is tried. What is proved already rt finds by itself."""
import os
import shutil
import signal
import subprocess
import tempfile


class Room:
    """A copy of the crates in a folder of its own under target/."""

    def __init__(self, name):
        os.makedirs("target", exist_ok=True)
        self.root = tempfile.mkdtemp(prefix=f"{name}-", dir="target")
        shutil.copytree("crates", f"{self.root}/crates", ignore=shutil.ignore_patterns("out"))
        shutil.copy("crates.txt", self.root)

    def checked(self, seconds, *crates):
        """The exit status of the first check of these crates that fails, or 0, and what the last one said; no status where one took too long."""
        status, said = 0, ""
        for crate in crates:
            status, said = self.ran(seconds, "rt", "check", folder=f"crates/{crate}")
            if status != 0:
                break
        return status, said

    def ran(self, seconds, *words, folder="."):
        """The exit status of a command, and what it said; no status where it took too long."""
        where = os.path.join(self.root, folder)
        child = subprocess.Popen(words, cwd=where, stdout=subprocess.PIPE, stderr=subprocess.STDOUT, text=True, start_new_session=True)
        try:
            said, _ = child.communicate(timeout=seconds)
            return child.returncode, said
        except subprocess.TimeoutExpired:
            os.killpg(child.pid, signal.SIGKILL)
            child.communicate()
            return None, ""

    def left(self):
        """Removes it."""
        shutil.rmtree(self.root)
