"""Environments with nothing of the repository in them, without network, in which the page of a package is followed."""

import os
import pathlib
import re
import shutil
import subprocess
import sys

PATIENCE = 600

# In seconds: how long a Debian of its own may take to come.
COMING = 300

FIRST_ANSWER = re.compile(r"\n## First answer\n(.*?)(?=\n## |\Z)", re.DOTALL)


def blocks(text, language):
    return re.findall(rf"```{language}\n(.*?)```", text, re.DOTALL)


def first_answer(page):
    """The commands of a page up to its first answer, and what it says that they print."""
    section = FIRST_ANSWER.search(page)[1]
    return blocks(section, "sh"), blocks(section, "text")[0]


def cut_off():
    """The words before a command that leave it no network; none where the system does not let us."""
    for words in (["unshare", "--net"], ["unshare", "--map-root-user", "--net"]):
        if shutil.which("unshare") and subprocess.run([*words, "true"], capture_output=True, check=False).returncode == 0:
            return words
    return []


def fresh_variables(home):
    """Variables of a user who has just come."""
    path = os.pathsep.join([os.path.dirname(sys.executable), "/usr/local/bin", "/usr/bin", "/bin"])
    offline = {"GOPROXY": "off", "GOFLAGS": "-mod=mod", "GOPATH": f"{home}/go", "GOCACHE": f"{home}/gocache"}
    quiet = {"PIP_DISABLE_PIP_VERSION_CHECK": "1", "NO_UPDATE_NOTIFIER": "1"}
    return {"PATH": path, "HOME": str(home), "LANG": "C.UTF-8", "npm_config_cache": f"{home}/npm", **offline, **quiet}


def run_in(folder, code, before=()):
    """Runs commands of a shell in a folder, up to the first that fails, as a fresh user; gives the status and all that was written."""
    home = folder / "home"
    home.mkdir(exist_ok=True)
    words = [*cut_off(), *before, "sh", "-eu", "-c", code]
    made = subprocess.run(words, cwd=folder, env=fresh_variables(home), capture_output=True, text=True, timeout=PATIENCE, check=False)
    return made.returncode, made.stdout, made.stderr


class Debian:
    """A Debian in a folder, made from nothing or copied from one that debootstrap has made."""

    def __init__(self, folder):
        self.folder = folder

    def come(self, made=None):
        """Makes it; gives why it did not come, or None."""
        if os.geteuid() != 0:
            return "it takes root to make a Debian in a folder"
        if made is not None:
            subprocess.run(["cp", "-a", f"{made}/.", self.folder], check=True)
            return None
        if shutil.which("debootstrap") is None:
            return "debootstrap is not here"
        # What it mounts is gone with it.
        words = ["unshare", "--mount", "debootstrap", "--variant=minbase", "stable", self.folder]
        try:
            came = subprocess.run(words, capture_output=True, timeout=COMING, check=False).returncode == 0
        except subprocess.TimeoutExpired:
            came = False
        return None if came else "no Debian came"

    def take(self, files):
        """Puts files where its user begins."""
        for file in files:
            shutil.copy2(file, self.folder / "root")

    def run(self, code):
        """Runs commands in it; gives the status and what was written."""
        words = [*cut_off(), "chroot", self.folder, "/usr/bin/env", "-i", "PATH=/usr/sbin:/usr/bin:/sbin:/bin", "HOME=/root", "sh", "-eu", "-c", f"cd\n{code}"]
        made = subprocess.run(words, capture_output=True, text=True, timeout=PATIENCE, check=False)
        return made.returncode, made.stdout, made.stderr

    def files_named(self, *marks):
        """The files whose names hold one of these marks, what its user has aside."""
        tests = " -o ".join(f"-name '*{mark}*'" for mark in marks)
        return self.run(f"find / -xdev -path /root -prune -o \\( {tests} \\) -print")[1].split()


def unpacked(folder, debs):
    """Unpacks packages for Debian into a folder, where none can be installed; gives the folder of their programs."""
    for deb in debs:
        subprocess.run(["dpkg-deb", "--extract", deb, folder], check=True)
    return pathlib.Path(folder) / "usr" / "bin"
