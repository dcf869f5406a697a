"""A system of its own with systemd as its first process, over this machine's files, in which nothing that is done is left.

It has namespaces of its own for mounts, processes, network and the rest, and an overlay in memory over the root. Where this machine
doesn't let a process have that, there is none.
"""
import contextlib
import os
import pathlib
import shutil
import signal
import subprocess
import tempfile
import time

SYSTEMD, SECONDS = "/lib/systemd/systemd", 30
NEEDED = ("unshare", "nsenter", "mount", "pivot_root", "systemctl")
NAMESPACES = ["--mount", "--pid", "--fork", "--ipc", "--uts", "--net", "--cgroup"]
# None of the units that the machine has enabled is started in it. The folder of settings is no overlay: once in six runs the listing of
# that folder failed right behind the removal of a file of it.
BOOT = """
set -e
mount --make-rprivate /
mount -t tmpfs none {room}
cd {room}
mkdir upper work root
mount -t overlay overlay -o lowerdir=/,upperdir={room}/upper,workdir={room}/work root
cd root
mount -t proc proc proc
mount -t sysfs -o ro sysfs sys
mount -t cgroup2 none sys/fs/cgroup
mount -t tmpfs none run
mount -t tmpfs none tmp
mkdir -p etc/jaqhumpi
mount -t tmpfs none etc/jaqhumpi
mount -t tmpfs none dev
for device in null zero full random urandom tty; do : >dev/$device; mount --bind /dev/$device dev/$device; done
mkdir dev/pts dev/shm dev/mqueue
mount -t devpts devpts dev/pts -o newinstance,ptmxmode=0666,mode=620
ln -s pts/ptmx dev/ptmx
ln -s /proc/self/fd dev/fd
: >dev/console
rm -f etc/systemd/system/*.wants/*
ln -sf /lib/systemd/system/multi-user.target etc/systemd/system/default.target
mkdir -p former
pivot_root . former
umount -l /former
export container=other
exec {systemd} --system --log-target=journal --show-status=no </dev/null >/dev/null 2>&1
"""


class System:
    def __init__(self, process):
        self.process = process

    def run(self, *words, **how):
        """Runs a program in it."""
        enter = ["nsenter", "-t", str(self.process), "-m", "-p", "-i", "-u", "-n", "-C", "--root", "--wd"]
        how = {"stdout": subprocess.PIPE, "stderr": subprocess.STDOUT, "stdin": subprocess.DEVNULL, "text": True, "timeout": SECONDS, **how}
        return subprocess.run([*enter, *map(str, words)], **how)

    def is_up(self):
        with contextlib.suppress(subprocess.TimeoutExpired):
            return self.run("systemctl", "is-system-running", timeout=5).stdout.strip() in ("running", "degraded")
        return False


def why_not():
    """Why this machine has none; None where it may have one."""
    missing = [name for name in NEEDED if shutil.which(name) is None] + [it for it in (SYSTEMD,) if not pathlib.Path(it).exists()]
    if missing:
        return f"{', '.join(missing)} is missing"
    return "this doesn't run as root" if os.geteuid() else None


def first_process(run):
    """The number of its first process, once that is systemd; None where it has ended."""
    until = time.monotonic() + SECONDS
    while time.monotonic() < until and run.poll() is None:
        with contextlib.suppress(OSError, ValueError, IndexError):
            child = int(pathlib.Path(f"/proc/{run.pid}/task/{run.pid}/children").read_text().split()[0])
            if pathlib.Path(f"/proc/{child}/comm").read_text().strip() == "systemd":
                return child
        time.sleep(0.1)
    return None


@contextlib.contextmanager
def booted():
    """A system that is up; None where this machine lets none be."""
    with tempfile.TemporaryDirectory(prefix="jaqhumpi-system-") as room, contextlib.ExitStack() as at_end:
        (pathlib.Path(room) / "boot").write_text(BOOT.format(room=room, systemd=SYSTEMD))
        words = ["unshare", *NAMESPACES, "--kill-child=KILL", "sh", f"{room}/boot"]
        run = subprocess.Popen(words, stdin=subprocess.DEVNULL, stdout=subprocess.DEVNULL, stderr=subprocess.DEVNULL)
        at_end.callback(run.wait)
        at_end.callback(run.kill)
        process = first_process(run)
        if process is None:
            yield None
            return
        at_end.callback(os.kill, process, signal.SIGKILL)
        system, until = System(process), time.monotonic() + SECONDS
        while not system.is_up() and time.monotonic() < until:
            time.sleep(0.2)
        yield system if system.is_up() else None
