#!/usr/bin/env python3
"""The programs that tests want and that Debian has, each with its packages. `had(NAME..)` gives those that are there, once what is missing was installed where this
is root's. By itself this installs all of them: .ci/run does so while rt proves, so that no test waits for the network."""
import fcntl
import os
import shutil
import subprocess
import tempfile

PACKAGES = {
    **dict.fromkeys(["qemu-arm", "qemu-riscv32", "qemu-aarch64", "qemu-riscv64"], ["qemu-user"]),
    "qemu-system-arm": ["qemu-system-arm"],
    "arm-linux-gnueabihf-gcc": ["gcc-arm-linux-gnueabihf", "libc6-dev-armhf-cross"],
    "chromium": ["chromium"],
    "sg_get_config": ["sg3-utils"],
}
SECONDS = 300
# beside the repository, since rt removes target/ as it begins
LOG, LOCK = (os.path.join(tempfile.gettempdir(), f"gcf-packages.{end}") for end in ("log", "lock"))


def missing(names):
    return [name for name in names if not shutil.which(name)]


def installed(names, log):
    """Asks for the packages of these programs; the lists of what there is are fetched only where they do not have one."""
    command = ["apt-get", "-o", f"DPkg::Lock::Timeout={SECONDS}", "install", "-y", "-q", "--no-install-recommends", *sorted({package for name in names for package in PACKAGES[name]})]
    options = dict(stdin=subprocess.DEVNULL, stdout=log, stderr=subprocess.STDOUT, timeout=SECONDS, env={**os.environ, "DEBIAN_FRONTEND": "noninteractive"})
    if subprocess.run(command, **options).returncode:
        subprocess.run(["apt-get", "update", "-q"], **options)
        subprocess.run(command, **options)


def had(*names):
    """Those of the programs that are there. One asks at a time: who comes later finds what the one before was given."""
    if missing(names) and os.geteuid() == 0 and shutil.which("apt-get"):
        with open(LOCK, "w") as lock, open(LOG, "a") as log:
            fcntl.flock(lock, fcntl.LOCK_EX)
            try:
                if missing(names):
                    installed(missing(names), log)
            except subprocess.TimeoutExpired:
                pass
    return {name for name in names if shutil.which(name)}


if __name__ == "__main__":
    had(*PACKAGES)
