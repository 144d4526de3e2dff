"""What the tests from outside and the bench need of the machine: packages, a compiler for x86-64 (the library is
x86-64 code only), and qemu where the machine is another.  `python3 machine.py` installs what is missing."""

import os
import platform
import subprocess

ROOT = os.path.dirname(os.path.dirname(os.path.dirname(os.path.abspath(__file__))))
MADE = os.path.join(ROOT, "target", "outside")
NATIVE = platform.machine() in ("x86_64", "amd64")
RUN = [] if NATIVE else ["qemu-x86_64"]         # how a program is run
CC = ["x86_64-linux-gnu-gcc", "-O2", "-Wall", "-Wextra", "-static", "-I" + os.path.join(ROOT, "include")]
STREAM = os.path.join(MADE, "streamvbyte")      # Debian's libstreamvbyte for x86-64, unpacked

# What must be there, and the package that brings it.
NEEDED = {"/usr/bin/qemu-x86_64": "qemu-user", "/usr/bin/gcc": "gcc",
          "/usr/include/%s-linux-gnu/sys/cdefs.h" % platform.machine(): "libc6-dev"}
if not NATIVE:
    NEEDED.update({"/usr/bin/x86_64-linux-gnu-gcc": "gcc-x86-64-linux-gnu",
                   "/usr/x86_64-linux-gnu/lib/libc.a": "libc6-dev-amd64-cross"})


def run(*command, **options):
    subprocess.run(command, check=True, stdout=subprocess.DEVNULL, **options)


def as_root(*command):
    run(*(() if os.geteuid() == 0 else ("sudo",)), *command)


def install():
    """Installs the packages that are missing and unpacks libstreamvbyte."""
    os.makedirs(MADE, exist_ok=True)
    missing = [package for path, package in NEEDED.items() if not os.path.exists(path)]
    unpacked = os.path.exists(STREAM)
    if not unpacked and not NATIVE:
        as_root("dpkg", "--add-architecture", "amd64")
    if missing or not unpacked:
        as_root("apt-get", "update", "-q")
    if missing:
        as_root("apt-get", "install", "-q", "-y", "--no-install-recommends", *missing)
    if not unpacked:
        run("apt-get", "-o", "APT::Sandbox::User=root", "download", "-q", "libstreamvbyte-dev:amd64", cwd=MADE)
        package = [name for name in os.listdir(MADE) if name.endswith(".deb")][0]
        run("dpkg", "-x", package, STREAM, cwd=MADE)
        os.remove(os.path.join(MADE, package))


def build(name, *sources):
    """A program from sources, archives and flags, for x86-64; its command."""
    os.makedirs(MADE, exist_ok=True)
    program = os.path.join(MADE, name)
    run(*CC, *sources, "-o", program)
    return RUN + [program]


def stream_flags():
    """What a program over libstreamvbyte is built with, after its sources."""
    return ["-I" + STREAM + "/usr/include", STREAM + "/usr/lib/x86_64-linux-gnu/libstreamvbyte.a"]


if __name__ == "__main__":
    install()
