"""The Debian package: what is in it, how dpkg installs and removes it, and how safe its service is."""
import os
import re
import shutil

from checks import Missing, check, each
from program import ROOT, built, run

MAINTAINER = "A Packager <packager@debian.org>"
FILES = {"/etc/lapd-gateway.conf", "/usr/sbin/lapd-gateway", "/usr/lib/systemd/system/lapd-gateway.service",
         "/usr/lib/sysusers.d/lapd-gateway.conf",
         "/usr/share/man/man8/lapd-gateway.8.gz", "/usr/share/man/man5/lapd-gateway.conf.5.gz",
         "/usr/share/lintian/overrides/lapd-gateway",
         *(f"/usr/share/doc/lapd-gateway/{it}" for it in ("copyright", "changelog.gz",
                                                          *(f"examples/{it}" for it in os.listdir(f"{ROOT}/gateway/examples"))))}
MOST_EXPOSURE = 2.0
FORCE = "--force-depends,not-root,bad-path,script-chrootless"


def package(place):
    """The package's file."""
    lack = [it for it in ("cpack", "dpkg", "dpkg-deb") if not shutil.which(it)]
    if lack:
        raise Missing(f"there is no {' and no '.join(lack)}")

    def make():
        at = place.folder("package")
        built(["cmake", "-S", f"{ROOT}/gateway", "-B", at, "-DCMAKE_INSTALL_PREFIX=/usr", f"-DLAPD_MAINTAINER={MAINTAINER}"],
              "the package")
        built(["cmake", "--build", at, "-j", "2"], "the package")
        built(["cmake", "-E", "chdir", at, "cpack", "-G", "DEB"], "the package")
        return next(f"{at}/{it}" for it in os.listdir(at) if it.endswith(".deb"))
    return place.once("package", make)


def contents(place):
    """The files, and what the package asks for."""
    rows = run(["dpkg-deb", "-c", package(place)]).stdout.decode().splitlines()
    found = {it.split()[5][1:] for it in rows if not it.startswith("d")}
    check("the files of the package", found == FILES, found ^ FILES)
    check("they are root's", all(it.split()[1] == "root/root" for it in rows), rows)
    fields = run(["dpkg-deb", "-f", package(place)]).stdout.decode()
    for name in ("libsctp1", "libinih1", "libsystemd0", "libmicrohttpd12", "libc6", "systemd"):
        check(f"the package depends on {name}", re.search(rf"^Depends:.*\b{name}\b", fields, re.M), fields)
    said = run(["dpkg-deb", "--info", package(place), "conffiles"]).stdout.decode()
    check("its configuration is a conffile", said == "/etc/lapd-gateway.conf\n", said)


def installed(place):
    """dpkg installs it in a root of its own: the user and the service are there, and the configuration is good. Removed, it leaves
    the configuration, and purged nothing."""
    root = place.folder("root")
    os.makedirs(f"{root}/var/lib/dpkg/info")
    os.makedirs(f"{root}/var/lib/dpkg/updates")
    os.makedirs(f"{root}/etc")
    open(f"{root}/var/lib/dpkg/status", "w", encoding="ascii").close()
    dpkg = ["dpkg", f"--root={root}", f"--log={root}/log", FORCE]
    said = run([*dpkg, "-i", package(place)])
    check("dpkg -i", said.returncode == 0, (said.stdout + said.stderr).decode()[-600:])
    with open(f"{root}/etc/passwd", encoding="ascii") as file:
        check("the user of the gateway", re.search(r"^lapd-gateway:[^:]*:\d+:\d+:.*:/var/lib/lapd-gateway:/usr/sbin/nologin$",
                                                   file.read(), re.M), "")
    check("the service is enabled", os.path.lexists(f"{root}/etc/systemd/system/multi-user.target.wants/lapd-gateway.service"),
          "it is not")
    said = run([f"{root}/usr/sbin/lapd-gateway", "--check", f"{root}/etc/lapd-gateway.conf"])
    check("the configuration that is installed is good", said.returncode == 0, said.stderr)
    said = run([*dpkg, "-r", "lapd-gateway"])
    left = {f"{at[len(root):]}/{it}" for at, _, those in os.walk(root) for it in those if "/var/" not in at}
    check("dpkg -r", said.returncode == 0 and left & FILES == {"/etc/lapd-gateway.conf"}, (said.stderr, left & FILES))
    said = run([*dpkg, "-P", "lapd-gateway"])
    left = {f"{at[len(root):]}/{it}" for at, _, those in os.walk(root) for it in those
            if "lapd-gateway" in f"{at[len(root):]}/{it}"}
    check("dpkg -P", said.returncode == 0 and not left, (said.stderr, left))


def linted(place):
    """lintian tells nothing."""
    if not shutil.which("lintian"):
        raise Missing("there is no lintian")
    said = run(["lintian", "--tag-display-limit", "0", "-I", package(place)])
    rows = re.findall(r"^[EWI]: .*$", said.stdout.decode(), re.M)
    check("what lintian says", not rows, rows)


def safe(place):
    """The exposure of the service, as systemd-analyze measures it."""
    if not shutil.which("systemd-analyze"):
        raise Missing("there is no systemd-analyze")
    folder = place.folder("unit")
    said = run(["dpkg-deb", "-x", package(place), folder])
    unit = f"{folder}/usr/lib/systemd/system/lapd-gateway.service"
    said = run(["systemd-analyze", "verify", "--man=no", unit])
    lines = re.findall(r"^.*lapd-gateway.service:.*(?:Unknown|parse|Invalid|ignoring).*$", said.stderr.decode(), re.M)
    check("systemd knows each word of the service", not lines, lines)
    said = run(["systemd-analyze", "security", "--offline=true", f"--threshold={MOST_EXPOSURE * 10:.0f}", "--no-pager", unit])
    found = re.search(rb"Overall exposure level for lapd-gateway.service: ([\d.]+)", said.stdout)
    check(f"systemd-analyze security: at most {MOST_EXPOSURE}", said.returncode == 0 and found and float(found[1]) <= MOST_EXPOSURE,
          said.stdout[-300:])


def packaged(place):
    """The Debian package: its files, dpkg, lintian, and systemd-analyze security."""
    each(place, contents, installed, linted, safe)
