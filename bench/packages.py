"""Debian's packages that a bench needs."""
import os
import shutil
import subprocess


def install(packages):
    """Installs these packages one after another, where this is root's and there is apt-get, after the lists of packages
    were read. A package that can't be had is left out."""
    if not packages or os.geteuid() != 0 or not shutil.which("apt-get"):
        return
    words = ["-y", "--no-install-recommends", "-o", "Acquire::Retries=0"]
    for command in (["update"], *(["install", *words, package] for package in packages)):
        try:
            subprocess.run(["apt-get", *command], capture_output=True, timeout=300, check=False)
        except subprocess.TimeoutExpired:
            return
