"""What the scripts on `make install` and on the package for Debian share: runs of make with a program, and the files that belong to an
installation."""
import os
import pathlib
import shutil
from typing import Any

from processes import Answer, ran
from suite import PROGRAM, TOP

# What make takes from the environment: where to install, and the settings of a make that called it, such as that of `make test`.
OF_MAKE = {"DESTDIR", "PREFIX", "MAKEFLAGS", "MFLAGS", "MAKELEVEL"}
ENVIRONMENT = {name: value for name, value in os.environ.items() if name not in OF_MAKE}
# Where completions go, below the folder that PREFIX names; of zsh, for what is no package of Debian.
COMPLETIONS = {
    path.name: f"share/{place}/{path.name.removesuffix('.bash')}"
    for place, form in [("bash-completion/completions", "*.bash"), ("zsh/site-functions", "_*"), ("fish/vendor_completions.d", "*.fish")]
    for path in (TOP / "completions").glob(form)
}


def made(
    target: str, program: str | pathlib.Path, top: pathlib.Path = TOP, path: str | pathlib.Path | None = None, **variables: Any
) -> Answer:
    """Makes a target with this program and these variables, in a folder with the Makefile, and with another PATH if one is given."""
    words = [shutil.which("make"), target, *(f"{name}={value}" for name, value in {"PROGRAM": program, **variables}.items())]
    return ran(words, cwd=top, env={**ENVIRONMENT, **({"PATH": str(path)} if path else {})})


def due_files(prefix: str | pathlib.Path) -> dict[str, tuple[bytes, int]]:
    """The bytes and the mode of each file of an installation, by its path below the folder that PREFIX names. Units have that folder's
    path in them."""
    names = ["README.md", "CHANGELOG.md", "CONTRIBUTING.md", "LICENSE", "HANDLES", "bench/README.md", "plugins/cyrus/README.md"]
    pages = [TOP / name for name in names]
    commands = [path for path in [*(TOP / "tools").iterdir(), *(TOP / "hosts").iterdir()] if path.is_file()]
    files = {f"share/scramotp/{path.name}": (path, 0o755) for path in commands}
    files |= {f"share/scramotp/{path.relative_to(TOP / 'hosts')}": (path, 0o644) for path in (TOP / "hosts/scramotp_host").glob("*.py")}
    files |= {f"share/doc/scramotp/{path.relative_to(TOP)}": (path, 0o644) for path in [*pages, *(TOP / "docs").rglob("*.*")]}
    files |= {f"share/man/man{path.suffix[1:]}/{path.name}": (path, 0o644) for path in (TOP / "man").iterdir()}
    files |= {place: (TOP / "completions" / name, 0o644) for name, place in COMPLETIONS.items()}
    files["bin/scramotp"] = (pathlib.Path(PROGRAM), 0o755)
    found = {place: (path.read_bytes(), mode) for place, (path, mode) in files.items()}
    for path in (TOP / "hosts/units").iterdir():
        found[f"lib/systemd/system/{path.name}"] = path.read_bytes().replace(b"/usr/local/", f"{prefix}/".encode()), 0o644
    return found
