"""Packages of contrib/ as pip installs them."""
import os
import re
import shutil
import subprocess
import sys

MISSING = re.compile(r"No module named '?(pip|setuptools)|invalid command 'bdist_wheel'")


def version_told(test, room, command, *folders):
    """What a command tells of its version where pip has installed these packages below the room. Without pip, setuptools or wheel
    the test is skipped."""
    target = room / "target"
    for folder in folders:
        shutil.copytree(folder, room / folder.name, ignore=shutil.ignore_patterns("tests", "__pycache__"))
    words = ["-m", "pip", "install", "--quiet", "--no-build-isolation", "--no-deps", "--target", target]
    words += [room / folder.name for folder in folders]
    # Debian's Python may have what this one lacks.
    for python in (sys.executable, "/usr/bin/python3"):
        run = subprocess.run([python, *words], stdout=subprocess.PIPE, stderr=subprocess.STDOUT, text=True)
        if is_able := not MISSING.search(run.stdout):
            break
    if not is_able:
        test.skipTest("pip, setuptools or wheel is missing here")
    test.assertEqual(run.returncode, 0, run.stdout)
    environment = {**os.environ, "PYTHONPATH": str(target)}
    return subprocess.run([target / "bin" / command, "--version"], env=environment, stdout=subprocess.PIPE, text=True).stdout
