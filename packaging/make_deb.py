#!/usr/bin/env python3
"""make_deb.py PROGRAM FOLDER: makes the Debian package of a built program, in a folder that may be missing, and prints its path.

The package has what `make install` installs, so that no file is listed twice. SOURCE_DATE_EPOCH in the environment has to be the time, in
seconds since 1970, that each file in it gets. The same sources, program and time make the same bytes, by the same Python and dpkg. Needs
make and dpkg-deb.
"""
import email.utils
import gzip
import hashlib
import os
import re
import subprocess
import sys
import tempfile
from pathlib import Path

TOP = Path(__file__).resolve().parent.parent
MAINTAINER = "Tivelumon maintainers <maintainers@users.noreply.tivelumon.example>"
# Settings of a make that called this, or of its user.
OF_MAKE = {"DESTDIR", "PREFIX", "MAKEFLAGS", "MFLAGS", "MAKELEVEL"}
# Where Debian's zsh looks for the completions of packages, below PREFIX.
ZSH_FOLDER = "share/zsh/vendor-completions"
CONTROL = """\
Package: scramotp
Version: {version}
Architecture: amd64
Maintainer: {maintainer}
Installed-Size: {size}
Depends: libc6 (>= {libc}), python3 (>= 3.11)
Recommends: vim-tiny | editor, xxd
Suggests: bash-completion, sudo
Section: admin
Priority: optional
Description: check SCRAM logins and one-time codes, and audit their logs
 scramotp judges passwords by SCRAM-SHA-1 and SCRAM-SHA-256, and one-time codes
 by HOTP and TOTP, against a book of accounts. It logs each login with its
 codes, and judges such a log again. Each of its functions is proved to meet a
 contract.
 .
 A server runs it over pipes; it listens on no network. It needs a processor
 with SSE4.2.
"""
COPYRIGHT = """\
Format: https://www.debian.org/doc/packaging-manuals/copyright-format/1.0/
Upstream-Name: scramotp

Files: *
Copyright: {holders}
License: MIT
{text}
"""
# The bytes of the program are those that were built and tested, with their symbols.
OVERRIDES = "scramotp: unstripped-binary-or-object [usr/bin/scramotp]\n"
CHANGES = """\
scramotp ({version}) unstable; urgency=medium

  * See CHANGELOG.md.

 -- {maintainer}  {date}
"""


def installed(program: Path, root: Path) -> None:
    """Installs the program and all that belongs to it below a folder, as in /usr."""
    environment = {name: value for name, value in os.environ.items() if name not in OF_MAKE}
    words = ["make", "--silent", "install", f"PROGRAM={program}", f"DESTDIR={root}", "PREFIX=/usr", f"ZSH_FOLDER={ZSH_FOLDER}"]
    # The library for C is not in the package.
    words += ["CLIB_FOLDER=none", "PLUGIN_FOLDER=none"]
    subprocess.run(words, cwd=TOP, env=environment, check=True)


def compressed(path: Path) -> None:
    """Puts what `gzip -9n` makes of a file in its place."""
    path.with_name(f"{path.name}.gz").write_bytes(gzip.compress(path.read_bytes(), 9, mtime=0))
    path.unlink()


def for_debian(root: Path, version: str, moment: int) -> None:
    """Adds what a package has to have, and changes what Debian has in another form: it compresses pages, and names the system's Python."""
    for page in root.glob("usr/share/man/*/*"):
        compressed(page)
    for tool in filter(Path.is_file, root.glob("usr/share/scramotp/**/*")):
        tool.write_bytes(re.sub(rb"\A#!/usr/bin/env python3\n", b"#!/usr/bin/python3\n", tool.read_bytes()))
    doc, license_text = root / "usr/share/doc/scramotp", (TOP / "LICENSE").read_text(encoding="utf-8")
    [holders] = re.findall(r"^Copyright \(c\) (.*)$", license_text, re.M)
    terms = license_text.partition("\n\n")[2].partition("\n\n")[2]
    text = "".join(f" {line or '.'}\n" for line in terms.splitlines()).rstrip("\n")
    (doc / "copyright").write_text(COPYRIGHT.format(holders=holders, text=text), encoding="utf-8")
    # A version without a revision is that of a native package, whose changelog has this name.
    changes = doc / "changelog"
    date = email.utils.formatdate(moment)
    changes.write_text(CHANGES.format(version=version, maintainer=MAINTAINER, date=date), encoding="utf-8")
    compressed(changes)
    overrides = root / "usr/share/lintian/overrides/scramotp"
    overrides.parent.mkdir(parents=True)
    overrides.write_text(OVERRIDES, encoding="utf-8")


def libc_of(program: Path) -> str:
    """The oldest version of the C library that has all that the program takes from it."""
    versions = [tuple(map(int, it.split(b"."))) for it in re.findall(rb"\0GLIBC_([0-9.]+)(?=\0)", program.read_bytes())]
    return ".".join(map(str, max(versions)))


def described(root: Path, version: str) -> None:
    """Writes what dpkg reads of the package: the control file, and the checksums of the files."""
    files = sorted(path for path in root.rglob("*") if path.is_file())
    folders = [path for path in root.rglob("*") if path.is_dir()]
    # In units of 1024 bytes, one for each folder.
    size = len(folders) + sum(-(-path.stat().st_size // 1024) for path in files)
    sums = "".join(f"{hashlib.md5(path.read_bytes()).hexdigest()}  {path.relative_to(root)}\n" for path in files)
    control = CONTROL.format(version=version, maintainer=MAINTAINER, size=size, libc=libc_of(root / "usr/bin/scramotp"))
    (root / "DEBIAN").mkdir()
    (root / "DEBIAN/control").write_text(control, encoding="utf-8")
    (root / "DEBIAN/md5sums").write_text(sums, encoding="utf-8")


def settled(root: Path, moment: int) -> None:
    """Gives all files the same time, and modes that do not depend on the umask."""
    for path in [root, *root.rglob("*")]:
        path.chmod(0o755 if path.is_dir() or path.stat().st_mode & 0o100 else 0o644)
        os.utime(path, (moment, moment))


def built(root: Path, package: Path, moment: int) -> None:
    """Builds a package of a folder. Its files belong to root, in the order of their names."""
    environment = {**os.environ, "SOURCE_DATE_EPOCH": str(moment), "DPKG_DEB_THREADS_MAX": "1"}
    words = ["dpkg-deb", "--root-owner-group", "-Zxz", "-z9", "--build", root, package]
    subprocess.run(words, env=environment, stdout=subprocess.DEVNULL, check=True)


def main() -> int:
    if len(sys.argv) != 3:
        sys.exit(__doc__)
    program, folder = Path(sys.argv[1]).resolve(), Path(sys.argv[2]).resolve()
    if not (epoch := os.environ.get("SOURCE_DATE_EPOCH", "")).isdecimal():
        sys.exit("make_deb.py: SOURCE_DATE_EPOCH is not a time in seconds since 1970")
    moment = int(epoch)
    with tempfile.TemporaryDirectory() as root:
        installed(program, Path(root))
        version = subprocess.run([program, "--version"], capture_output=True, text=True, check=True).stdout.split()[1]
        folder.mkdir(parents=True, exist_ok=True)
        package = folder / f"scramotp_{version}_amd64.deb"
        for_debian(Path(root), version, moment)
        described(Path(root), version)
        settled(Path(root), moment)
        built(Path(root), package, moment)
    print(package)
    return 0


if __name__ == "__main__":
    try:
        sys.exit(main())
    except (OSError, subprocess.CalledProcessError) as fault:
        sys.exit(f"make_deb.py: {fault}")
