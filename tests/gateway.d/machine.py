"""The same over SCTP: other parts of these tests, in a machine of QEMU's with the kernel's SCTP. Its root is this one's, with a
layer over it. Its time is counted in instructions while it works, so that what it measures does not depend on how slow it is.
There are lines of mISDN and of DAHDI, too."""
import os
import re
import shlex
import shutil
import subprocess
import sys
import tempfile

from checks import Missing, check, say
from program import HERE, ROOT, built

sys.path.insert(0, f"{ROOT}/tests/kernel")
import image
import modules

# Modules by their names, of which crc32c_generic has to be there before libcrc32c asks for it. What this kernel has built in is not
# in its package.
MODULES = ("crc32c_generic", "libcrc32c", "virtio", "virtio_ring", "virtio_pci_modern_dev", "virtio_pci_legacy_dev", "virtio_pci",
           "9pnet",
           "9pnet_virtio", "fscache", "netfs", "9p", "overlay", "udp_tunnel", "ip6_udp_tunnel", "sctp", "veth")
NEEDED = {"9p", "overlay", "sctp"}
SHORT, LONG = ("sctp",), ("sctp", "errors", "states", "messages", "takeover", "calls", "scale", "restarts")
MOST_SECONDS, LONG_SECONDS = 280, 3000


def more_modules(folder):
    """The files of the modules, kept beside the kernel; the package is fetched again if they are not."""
    with image.locked():
        if not all(os.path.exists(f"{folder}/{it}.ko") for it in NEEDED):
            fetch(folder)
    lack = [it for it in NEEDED if not os.path.exists(f"{folder}/{it}.ko")]
    if lack:
        raise Missing(f"the kernel has no module {', '.join(lack)}")
    return in_order({it: f"{folder}/{it}.ko" for it in MODULES if os.path.exists(f"{folder}/{it}.ko")})


def fetch(folder):
    """All modules are taken from the package once more."""
    package, version = re.fullmatch(r"(\S+)_([^_]+)", os.path.basename(folder)).groups()
    with tempfile.TemporaryDirectory(dir=image.cache(), prefix="fetch-") as work:
        os.mkdir(f"{work}/image")
        image.unpack(image.download(f"{package}={version}", work), f"{work}/image", *(f"*/{it}.ko*" for it in MODULES))
        for path in image.files_of(f"{work}/image"):
            to = f"{folder}/{os.path.basename(path).split('.ko')[0]}.ko"
            image.plain(path, f"{to}.part")
            os.rename(f"{to}.part", to)


def in_order(files):
    """Files of modules by their names, so that each comes after those that it says it depends on."""
    found, left = [], dict(files)
    while left:
        for name, path in left.items():
            with open(path, "rb") as file:
                depends = re.search(rb"\0depends=([^\0]*)\0", file.read())[1].decode()
            if not {*depends.replace("-", "_").split(",")} & {it.replace("-", "_") for it in left}:
                break
        found.append(left.pop(name))
    return found


def first_process(place, folder):
    """guest.c, with what tests/kernel has of machines, of mISDN's devices and of DAHDI's spans."""
    made, kernel = f"{place.top}/guest", f"{ROOT}/tests/kernel"
    os.makedirs(f"{place.top}/include", exist_ok=True)
    if not os.path.lexists(f"{place.top}/include/dahdi"):
        os.symlink(f"{folder}/dahdi", f"{place.top}/include/dahdi")
    built(["cc", "-std=c11", "-D_DEFAULT_SOURCE", "-O2", "-Wall", "-Wextra", "-Werror", "-static", f"-I{kernel}",
           f"-I{ROOT}/examples/c",
           f"-I{ROOT}/include", "-isystem", f"{place.top}/include", "-o", made, f"{HERE}/guest.c",
           *(f"{kernel}/{it}.c" for it in ("machine", "l1oip", "spans"))],
          "guest")
    return made


def boot(place, job, limit):
    """What the machine writes that runs a job."""
    folder = image.kernel()
    files = [*modules.dahdi(folder), *(f"{folder}/{it}.ko" for it in image.MODULES), *more_modules(folder)]
    work = place.folder("machine")
    with open(f"{work}/job", "w", encoding="utf-8") as file:
        file.write(job)
    with open(f"{work}/modules", "w", encoding="ascii") as file:
        file.write("".join(f"/{os.path.basename(it)}\n" for it in more_modules(folder)))
    image.disk([first_process(place, folder), *files, f"{work}/job", f"{work}/modules"], f"{work}/disk")
    line = "console=ttyS0 quiet panic=-1 oops=panic tsc=reliable nokaslr random.trust_cpu=off mitigations=off"
    words = ["qemu-system-x86_64", "-accel", "tcg", "-icount", "shift=1", "-rtc", "base=2026-01-01,clock=vm", "-cpu", "max", "-m",
             "1024",
             "-kernel", f"{folder}/kernel", "-initrd", f"{work}/disk", "-append", line, "-nographic", "-no-reboot", "-net", "none",
             "-vga", "none",
             "-virtfs", "local,path=/,mount_tag=host,security_model=none,readonly=on,multidevs=remap"]
    try:
        said = subprocess.run(words, stdin=subprocess.DEVNULL, stdout=subprocess.PIPE, stderr=subprocess.STDOUT, timeout=limit,
                              check=False).stdout
    except subprocess.TimeoutExpired as late:
        said = (late.stdout or b"") + f"\nthe machine was ended after {limit} s\n".encode()
    return said.decode(errors="replace").replace("\r", "")


def machine(place):
    """Parts of these tests over SCTP, in QEMU, with lines of mISDN and of DAHDI."""
    for tool in ("qemu-system-x86_64", "cpio", "apt-get", "apt-cache", "dpkg-deb", "tar", "xz"):
        if not shutil.which(tool):
            raise Missing(f"there is no {tool}")
    if not os.path.exists("/usr/include/libpri.h"):
        raise Missing("there is no libpri.h (libpri-dev)")
    for name, more in (("ends", {}), ("phones", {"library": False})):
        place.compiled(name, *["-lpri"] * (name == "phones"), **more)
    parts = LONG if place.is_long else SHORT
    words = [sys.executable, f"{ROOT}/tests/gateway", "--sctp", "--program", place.program, "--programs", place.top, "--keep",
             "/run/gateway", *parts]
    job = f"export PATH={shlex.quote(os.environ['PATH'])} HOME=/root; cd {shlex.quote(ROOT)}; {shlex.join(words)}"
    try:
        said = boot(place, job, LONG_SECONDS if place.is_long else MOST_SECONDS)
    except image.Missing as why:
        raise Missing(why) from why
    lines = [it[9:] for it in said.splitlines() if it.startswith("gateway: ")]
    end = re.search(r"^gateway: (\d+) passed, 0 failed$", said, re.M)
    check("the parts over SCTP", end and int(end[1]) > 10 and "guest: the job ended, 0" in said, said[-6000:])
    for it in lines[:-1]:
        say(f"machine: {it}")
