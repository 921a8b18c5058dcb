"""The list of crates for scripts: what crates.txt and tests/uses.txt say, and checksums."""
import hashlib
import subprocess
import sys

from . import TOP


def uses_in(path):
    """Returns each crate of a list, with the crates that it depends on."""
    listed = (line.partition("#")[0].partition(":") for line in path.read_text().splitlines())
    return {name.split()[0]: rest.split() for name, _, rest in listed if name.strip()}


def with_below(names, uses):
    """Returns those of these crates, and of all below them, that are listed: each behind those that
    it depends on."""
    order = []

    def take(name):
        if name in uses and name not in order:
            for it in uses[name]:
                take(it)
            order.append(name)

    for name in names:
        take(name)
    return order


def checksum(files, *texts):
    """Returns a checksum of the kit's name, of these texts and of files of the repository."""
    ran = subprocess.run(["rt", "version"], stdout=subprocess.PIPE, text=True)
    if ran.returncode:
        sys.exit("rt does not say which kit this is")
    sums = hashlib.sha256("\n".join([ran.stdout, *texts]).encode())
    for path in sorted(files):
        sums.update(f"{path.relative_to(TOP)}\n".encode() + path.read_bytes())
    return sums.hexdigest()[:16]
