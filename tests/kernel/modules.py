"""DAHDI's modules for Debian's kernel of the day: built from its dahdi-source with the headers of that kernel, by apt, and kept
beside it."""
import functools
import os
import re
import shutil
import subprocess
import tempfile

from image import Missing, download, files_of, locked, unpack, words_of

MODULES = ("dahdi.ko", "dahdi_dynamic.ko", "dahdi_dynamic_loc.ko")
# What Debian's own Kbuild has of these three.
KBUILD = """obj-m := dahdi.o dahdi_dynamic.o dahdi_dynamic_loc.o
dahdi-objs := dahdi-base.o dahdi-sysfs.o dahdi-sysfs-chan.o dahdi-version.o
ccflags-y := -I$(src)/../../include -I$(src) -w
"""


@functools.lru_cache(None)
def headers_of(folder):
    """The packages of the headers of a kernel that is kept, with what they depend on, and of DAHDI."""
    name, version = re.fullmatch(r"linux-image-(\S+)_([^_]+)", os.path.basename(folder)).groups()
    headers = f"linux-headers-{name}"
    more = re.findall(r"^ *Depends: (linux-\S+)$", words_of(["apt-cache", "depends", headers]) or "", re.M)
    return [f"{it}={version}" if it.startswith("linux-headers-") else it for it in (headers, *more)] + ["dahdi-source"]


def unpacked(folder, work):
    """All packages in one folder, and the source of DAHDI in another; answers that of the headers."""
    for package in headers_of(folder):
        os.mkdir(f"{work}/fetched")
        unpack(download(package, f"{work}/fetched"), work)
        shutil.rmtree(f"{work}/fetched")
    archive = [it for it in files_of(f"{work}/usr/src") if os.path.basename(it).startswith("dahdi.tar")]
    if not archive:
        raise Missing("dahdi-source has no source")
    subprocess.run(["tar", "xf", archive[0], "-C", work], check=True)
    headers = f"{work}/usr/src/{headers_of(folder)[0].partition('=')[0]}"
    with open(f"{headers}/Makefile", "r+", encoding="utf-8") as file:  # it includes another by where that would be installed
        text = file.read().replace("/usr/src/", f"{work}/usr/src/")
        file.seek(0)
        file.write(text)
    return headers


def build(folder, work):
    """The modules are built, and kept with DAHDI's headers."""
    headers = unpacked(folder, work)
    source = f"{work}/modules/dahdi"
    with open(f"{source}/include/dahdi/version.h", "w", encoding="utf-8") as file:
        file.write('#define DAHDI_VERSION "of dahdi-source"\n')
    with open(f"{source}/drivers/dahdi/Kbuild", "w", encoding="utf-8") as file:
        file.write(KBUILD)
    said = subprocess.run(["make", "-C", headers, f"M={source}/drivers/dahdi", "modules"], capture_output=True, text=True,
                          check=False)
    if said.returncode != 0:
        raise Missing("DAHDI can't be built for this kernel: " + " ".join(said.stderr.split())[-300:])
    os.makedirs(f"{folder}/dahdi", exist_ok=True)
    for path in files_of(f"{source}/include/dahdi"):
        shutil.copy(path, f"{folder}/dahdi")
    for name in MODULES:
        shutil.copy(f"{source}/drivers/dahdi/{name}", f"{folder}/{name}.part")
        os.rename(f"{folder}/{name}.part", f"{folder}/{name}")


def dahdi(folder):
    """The files of DAHDI's modules for a kernel that is kept, in the order in which they are loaded; beside them dahdi/user.h."""
    files = [f"{folder}/{it}" for it in MODULES]
    with locked():
        if not all(map(os.path.exists, files)):
            for tool in ("make", "gcc"):
                if not shutil.which(tool):
                    raise Missing(f"there is no {tool} to build DAHDI with")
            with tempfile.TemporaryDirectory(prefix="dahdi-") as work:
                build(folder, work)
    return files
