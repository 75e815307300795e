"""Debian's kernel of the day, by apt, kept in a folder outside of the repository; and its boot in QEMU."""
import contextlib
import fcntl
import lzma
import os
import re
import shutil
import struct
import subprocess
import tempfile

META = "linux-image-amd64"
MODULES = ("mISDN_core", "l1oip")
UNPACK = {".xz": ["xz", "-dc"], ".zst": ["zstd", "-dqc"]}


class Missing(Exception):
    """Something is not here that the test needs: the test is skipped."""


def cache():
    """The folder that is kept between runs."""
    return os.path.join(os.environ.get("XDG_CACHE_HOME") or os.path.expanduser("~/.cache"), "vithrynel", "kernel")


@contextlib.contextmanager
def locked():
    """In `with` nobody else changes what is kept: tests that run at the same time fetch it once."""
    os.makedirs(cache(), exist_ok=True)
    with open(f"{cache()}/lock", "w", encoding="ascii") as file:
        fcntl.flock(file, fcntl.LOCK_EX)
        yield


def words_of(words, **more):
    """What a command writes; None if it fails."""
    said = subprocess.run(words, stdout=subprocess.PIPE, stderr=subprocess.DEVNULL, check=False, **more)
    return said.stdout.decode(errors="replace") if said.returncode == 0 else None


def newest():
    """The package of today's kernel, and its version, as apt knows them."""
    shown = words_of(["apt-cache", "show", "--no-all-versions", META]) or ""
    found = re.search(r"^Depends:.*?\b(linux-image-\S+) \(= (\S+)\)", shown, re.M)
    if not found:
        raise Missing(f"apt knows no {META} (apt-get update)")
    return found.groups()


def download(package, folder):
    """The file of a package, fetched by apt."""
    said = subprocess.run(["apt-get", "-q", "download", package], cwd=folder, capture_output=True, text=True, check=False)
    files = [it for it in os.listdir(folder) if it.startswith(package.split("=")[0] + "_") and it.endswith(".deb")]
    if said.returncode != 0 or not files:
        raise Missing(f"apt-get can't download {package}")
    return os.path.join(folder, files[0])


def unpack(deb, folder, *names):
    """Files of a package, or all of it."""
    packed = subprocess.Popen(["dpkg-deb", "--fsys-tarfile", deb], stdout=subprocess.PIPE)
    wanted = ["--wildcards", *names] if names else []
    subprocess.run(["tar", "x", "-C", folder, *wanted], stdin=packed.stdout, stderr=subprocess.DEVNULL, check=False)
    packed.stdout.close()
    packed.wait()


def files_of(folder):
    return [os.path.join(at, it) for at, _, names in os.walk(folder) for it in names]


def plain(path, to):
    """A module as the kernel loads it."""
    words = UNPACK.get(os.path.splitext(path)[1])
    if words is None:
        shutil.copyfile(path, to)
    else:
        with open(to, "wb") as file:
            subprocess.run([*words, path], stdout=file, check=True)


def uncompressed(path):
    """The kernel of a boot image, which is in it at an offset that its head tells; None if it is compressed in another way. An
    emulated processor would take long to do so at each boot."""
    with open(path, "rb") as file:
        image = file.read()
    offset, length = struct.unpack_from("<II", image, 0x248)
    begin = (image[0x1F1] + 1) * 512 + offset
    packed = image[begin:begin + length - 4]
    if packed.startswith(b"\xfd7zXZ\0"):
        return lzma.decompress(packed)
    if packed.startswith(b"\x28\xb5\x2f\xfd") and shutil.which("zstd"):
        return subprocess.run(["zstd", "-dqc"], input=packed, stdout=subprocess.PIPE, check=True).stdout
    return None


def keep(work, folder):
    """The kernel and its modules of an unpacked package are put in a folder, whole or not at all."""
    made = f"{work}/kept"
    os.mkdir(made)
    for path in files_of(f"{work}/image"):
        name = os.path.basename(path)
        if name.startswith("vmlinuz-"):
            whole = uncompressed(path)
            with open(f"{made}/kernel", "wb") as file, open(path, "rb") as image:
                file.write(whole or image.read())
        elif name.split(".ko")[0] in MODULES:
            plain(path, f"{made}/{name.split('.ko')[0]}.ko")
    lack = {"kernel", *(f"{it}.ko" for it in MODULES)} - set(os.listdir(made))
    if lack:
        raise Missing(f"the kernel's package has no {', '.join(sorted(lack))}")
    os.rename(made, folder)


def kernel():
    """The folder with the kernel of today, and its modules; it is fetched if it isn't kept. If apt can't fetch it, one of before
    serves."""
    kept = cache()
    os.makedirs(kept, exist_ok=True)
    try:
        package, version = newest()
        folder = f"{kept}/{package}_{version}"
        with locked():
            if not os.path.isdir(folder):
                with tempfile.TemporaryDirectory(dir=kept, prefix="fetch-") as work:
                    os.mkdir(f"{work}/image")
                    unpack(download(f"{package}={version}", work), f"{work}/image", "./boot/vmlinuz-*", "*/isdn/mISDN/*")
                    keep(work, folder)
        return folder
    except Missing:
        before = sorted((f"{kept}/{it}" for it in os.listdir(kept) if os.path.exists(f"{kept}/{it}/kernel")), key=os.path.getmtime)
        if not before:
            raise
        return before[-1]


def disk(files, to):
    """The first file system of a machine: these files, the first of which is its first process."""
    with tempfile.TemporaryDirectory() as root:
        os.mkdir(f"{root}/dev")
        for path in files:
            shutil.copy(path, root)
        os.rename(f"{root}/{os.path.basename(files[0])}", f"{root}/init")
        names = "\n".join(sorted(os.listdir(root)))
        with open(to, "wb") as file:
            subprocess.run(["cpio", "-o", "-H", "newc", "--quiet"], cwd=root, input=names.encode(), stdout=file, check=True)


def boot(folder, files, words, limit):
    """What a machine writes whose first process is the first of these files, with these words. It has no network, needs no root and
    no /dev/kvm; its time is virtual, and passes at once while nothing happens. After so many seconds of real time it is ended."""
    with tempfile.TemporaryDirectory() as work:
        disk([*files, *(f"{folder}/{it}.ko" for it in MODULES)], f"{work}/disk")
        line = "console=ttyS0 quiet panic=-1 oops=panic tsc=reliable nokaslr random.trust_cpu=off mitigations=off -- "
        qemu = ["qemu-system-x86_64", "-accel", "tcg", "-icount", "shift=1,sleep=off", "-rtc", "base=2026-01-01,clock=vm", "-cpu",
                "qemu64", "-m", "256", "-kernel", f"{folder}/kernel", "-initrd", f"{work}/disk", "-append", line + " ".join(words),
                "-nographic", "-no-reboot", "-net", "none", "-vga", "none"]
        try:
            said = subprocess.run(qemu, stdin=subprocess.DEVNULL, stdout=subprocess.PIPE, stderr=subprocess.STDOUT, timeout=limit,
                                  check=False).stdout
        except subprocess.TimeoutExpired as late:
            said = (late.stdout or b"") + f"\nthe machine was ended after {limit} s\n".encode()
    return said.decode(errors="replace").replace("\r", "")
