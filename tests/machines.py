"""Machines for the tests of tools/spread: servers of ssh on the loopback address, an `ssh` that stands in for them, and programs that
stand in for minimate's."""

import contextlib
import getpass
import os
import shutil
import signal
import socket
import subprocess
import sys
from pathlib import Path

import pytest

from clones import wait_for, write
from conftest import need
from programs import FIRST, PROGRAMS, program_of

# What a program does, as lines of a shell, before it answers. ROUND holds for the tasks of the second round until the file `passes` is
# there: all of them wait, since one that answered might end the one that waits.
NOTE = 'echo "${SSH_CONNECTION##* } $*" >> "$room/calls"'
TASK = '[ -n "$PARALLEL_SEQ" ]'
ROUND = '[ "$2" = --limit=3 ] && [ -n "$PARALLEL_SEQ" ] && [ ! -e "$room/passes" ]'
THERE = '[ "${SSH_CONNECTION##* }" = PORT ]'
HOLDS = {
    "nothing": "",
    "the first task of each round is killed": f'if [ "$1" = solve ] && {TASK} && mkdir "$room/killed$2" 2> /dev/null; then kill -9 $$; fi',
    "the first chunk is killed": f'if [ "$1" = batch ] && {TASK} && mkdir "$room/killed" 2> /dev/null; then kill -9 $$; fi',
    "the second round waits": f'if {ROUND}; then mkdir "$room/held" 2> /dev/null && echo $$ > "$room/holder"; sleep 300; fi',
    "one position waits": 'if [ "$1$2" = solve--limit=1 ] && [ "$6" = "POSITION" ]; then echo $$ > "$room/holder"; sleep 300; fi',
    "one machine waits": f'if {THERE}; then echo $$ > "$room/holder"; sleep 300; fi',
    "one machine's disk is full": f'if {THERE}; then exec "$program" "$@" > /dev/full; fi',
    "mate is said where there is none": f'if [ "$1" = solve ] && {TASK}; then echo "mate 1 $("$program" moves "$6" | head -n 1)"; exit; fi',
    "no mate is said without a proof": f'if [ "$1" = certify ] && {TASK}; then echo "none within ${{2#--limit=}}"; exit; fi',
}


class StandIn:
    """Programs that note each call, do one thing of HOLDS, and answer as the program of their name does."""

    def __init__(self, program, room, hold="nothing", port="", position=""):
        self.room, self.path = room, room / FIRST
        lines = HOLDS[hold].replace("PORT", str(port)).replace("POSITION", position)
        for name in PROGRAMS:
            head = f"#!/bin/sh\nroom='{room}'\nprogram='{program_of(program, name)}'\n"
            write(room / name, f"{head}{NOTE}\n{lines}\n" + 'exec "$program" "$@"\n', 0o755)

    def calls(self):
        return (self.room / "calls").read_text(encoding="utf-8").splitlines()

    def killed(self):
        return sorted(it.name for it in self.room.glob("killed*"))

    def holder(self):
        """Returns the process that waits, once there is one."""
        path = self.room / "holder"
        assert wait_for(lambda: path.exists() and path.read_text(encoding="ascii").strip(), 60), "no task waits"
        return int(path.read_text(encoding="ascii"))

    def pass_on(self):
        """From now on no task waits."""
        (self.room / "passes").mkdir()


def free_port():
    with socket.socket() as taken:
        taken.bind(("127.0.0.1", 0))
        return taken.getsockname()[1]


def below(process):
    """Returns a process and all that it and its children started."""
    try:
        children = Path(f"/proc/{process}/task/{process}/children").read_text(encoding="ascii").split()
    except OSError:
        children = []
    return [process, *(it for child in children for it in below(int(child)))]


def kill_all(process):
    for it in below(process):
        with contextlib.suppress(ProcessLookupError):
            os.kill(it, signal.SIGKILL)


class Servers:
    """Servers of ssh on the loopback address, as processes of this user, which take a new key alone."""

    SETTINGS = """ListenAddress 127.0.0.1
StrictModes no
UsePAM no
PidFile none
PasswordAuthentication no
PermitRootLogin prohibit-password
MaxStartups 100
"""
    CLIENT = """IdentitiesOnly yes
BatchMode yes
StrictHostKeyChecking no
UserKnownHostsFile /dev/null
LogLevel ERROR
ConnectTimeout 10
"""

    def __init__(self, folder, names):
        sshd = shutil.which("sshd", path=f"{os.environ['PATH']}:/usr/sbin:/usr/local/sbin")
        if not sshd:
            pytest.skip("no sshd on the path")
        need("ssh", "ssh-keygen")
        if os.getuid() == 0 and not os.path.isdir("/run/sshd"):
            pytest.skip("sshd of root wants /run/sshd")
        self.folder, self.ports, self.processes = folder, {}, {}
        for key in ("host", "user"):
            subprocess.run(["ssh-keygen", "-q", "-t", "ed25519", "-N", "", "-f", folder / key], check=True)
        for name in names:
            self.start(sshd, name)
        hosts = "".join(f"Host {name}\n  HostName 127.0.0.1\n  Port {port}\n" for name, port in self.ports.items())
        write(folder / "config", f"{hosts}Host *\nUser {getpass.getuser()}\nIdentityFile {folder}/user\n{self.CLIENT}")
        self.environment = {**os.environ, "PARALLEL_SSH": f"ssh -F {folder}/config"}

    def start(self, sshd, name):
        port = self.ports[name] = free_port()
        write(self.folder / name, f"{self.SETTINGS}Port {port}\nHostKey {self.folder}/host\nAuthorizedKeysFile {self.folder}/user.pub\n")
        with open(self.folder / f"{name}.log", "wb") as log:
            words = [sshd, "-D", "-e", "-f", self.folder / name]
            self.processes[name] = subprocess.Popen(words, stdin=subprocess.DEVNULL, stdout=log, stderr=log)
        with socket.socket() as client:
            is_up = wait_for(lambda: client.connect_ex(("127.0.0.1", port)) == 0, 10)
        assert is_up, (self.folder / f"{name}.log").read_text(encoding="utf-8", errors="replace")

    def end(self, name):
        """Ends a server and all that it started."""
        process = self.processes.pop(name)
        kill_all(process.pid)
        process.wait()

    def end_all(self):
        for name in list(self.processes):
            self.end(name)


# Stands in for `ssh`: it runs the command here, in a session of its own and without this environment, as a server of that name would.
SSH = """#!{python}
import os, subprocess, sys

FOLDER, PORTS = {folder!r}, {ports!r}


def is_down():
    return host not in PORTS or os.path.exists(os.path.join(FOLDER, host + ".down"))


words = sys.argv[1:]
while words[0].startswith("-"):
    del words[: 2 if words[0] in ("-F", "-S", "-i", "-l", "-o", "-p") else 1]
host = words[0].rpartition("@")[2]
command = " ".join(words[2:] if words[1:2] == ["--"] else words[1:])
status = 255
if not is_down():
    settings = {{"PATH": "/usr/local/bin:/usr/bin:/bin:/usr/sbin:/sbin", "SSH_CONNECTION": "127.0.0.1 1 127.0.0.1 " + str(PORTS[host])}}
    settings.update((name, os.environ[name]) for name in ("HOME", "USER", "LANG") if name in os.environ)
    process = subprocess.Popen(["/bin/sh", "-c", command], env=settings, start_new_session=True)
    with open(os.path.join(FOLDER, host + ".processes"), "a", encoding="ascii") as file:
        file.write(str(process.pid) + "\\n")
    # Its server may have ended meanwhile.
    if is_down():
        process.kill()
    status = process.wait()
if not 0 <= status < 255 or is_down():
    sys.exit("ssh: connect to host " + host + ": nobody serves it" if is_down() else 255)
sys.exit(status)
"""


class StandIns:
    """An `ssh` that stands in for such servers, first on the path."""

    def __init__(self, folder, names):
        self.folder, self.ports = folder, {name: number for number, name in enumerate(names, 1)}
        write(folder / "ssh", SSH.format(python=sys.executable, folder=str(folder), ports=self.ports), 0o755)
        kept = {name: value for name, value in os.environ.items() if name != "PARALLEL_SSH"}
        self.environment = {**kept, "PATH": f"{folder}:{os.environ['PATH']}"}

    def end(self, name):
        """Ends a server and all that it started."""
        (self.folder / f"{name}.down").touch()
        path = self.folder / f"{name}.processes"
        for process in map(int, path.read_text(encoding="ascii").split() if path.exists() else []):
            # The number may have been given to another process since.
            with contextlib.suppress(ProcessLookupError):
                if os.getsid(process) == process:
                    kill_all(process)

    def end_all(self):
        for name in self.ports:
            self.end(name)
