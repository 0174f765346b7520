"""What is installed where: by `make install` below a prefix, and by the package below /usr."""

import os
import pathlib
import subprocess
import sys
import time

import completions
import helps
import kit
import notices
import pages

ROOT = pathlib.Path(__file__).resolve().parent.parent.parent
NAME = "pazgrot"
DOCUMENTS = f"share/doc/{NAME}"
# where zsh finds completions: those of Debian's packages lie elsewhere
ZSH, ZSH_OF_DEBIAN = "share/zsh/site-functions", "share/zsh/vendor-completions"
UNIT, CRON = "genedit@.service", "genedit.cron"
PLAIN, PROGRAM = 0o644, 0o755


def epoch():
    """The day of what is made, in seconds since 1970: SOURCE_DATE_EPOCH, else that of the commit, else now."""
    told = os.environ.get("SOURCE_DATE_EPOCH")
    if told:
        return int(told)
    ran = subprocess.run(["git", "-c", f"safe.directory={ROOT}", "log", "-1", "--format=%ct"], cwd=ROOT, capture_output=True, text=True, check=False)
    return int(ran.stdout.strip() or time.time())


def example_files():
    """The examples: scripts and texts with what is printed of them, a lesson, and how git and streams carry documents."""
    folder = ROOT / "examples"
    for it in sorted(folder.glob("*.expected")):
        yield it.relative_to(folder), it
        source = next(one for end in (".script", ".rle", "") if (one := it.with_suffix(end)).exists())
        yield source.relative_to(folder), source
    for it in sorted([*(folder / "git").iterdir(), *(folder / "streams").iterdir()]):
        yield it.relative_to(folder), it


class Layout:
    """The files that are installed, each with its path below the prefix, its bytes and its mode."""

    def __init__(self, program, prefix, is_package=False):
        self.program, self.prefix, self.is_package = program, prefix, is_package
        self.helps = helps.helps(program)

    def files(self):
        yield f"bin/{helps.PROGRAM}", pathlib.Path(self.program).read_bytes(), PROGRAM
        for path, content in [*self.made(), *self.filled_in()]:
            yield path, content, PLAIN
        for path, file in self.copied():
            yield path, file.read_bytes(), PROGRAM if os.access(file, os.X_OK) else PLAIN

    def made(self):
        """What is made from the helps."""
        for name, text in pages.pages(self.helps, helps.version(self.program), epoch(), helps.entries):
            yield f"share/man/man1/{name}", text.encode()
        zsh = ZSH_OF_DEBIAN if self.is_package else ZSH
        for path, made in (
            (f"share/bash-completion/completions/{helps.PROGRAM}", completions.bash),
            (f"{zsh}/_{helps.PROGRAM}", completions.zsh),
            (f"share/fish/vendor_completions.d/{helps.PROGRAM}.fish", completions.fish),
        ):
            yield path, made(self.helps).encode()

    def copied(self):
        """What is installed as it stands."""
        for it in sorted((ROOT / "examples" / "golly").iterdir()):
            yield f"share/{NAME}/golly/{it.name}", it
        yield f"share/{NAME}/{NAME}.html", ROOT / "share" / f"{NAME}.html"
        for name, path in example_files():
            yield f"{DOCUMENTS}/examples/{name}", path
        for name in ("CHANGELOG.md", "docs/FORMATS.md", "docs/FAULTS.md"):
            yield f"{DOCUMENTS}/{name.rpartition('/')[2]}", ROOT / name

    def filled_in(self):
        """What names the program's folder, and the licences of what is linked in."""
        for path, name in ((f"lib/systemd/system/{UNIT}", UNIT), (f"{DOCUMENTS}/examples/{CRON}", CRON)):
            text = (ROOT / "share" / name).read_text(encoding="utf-8")
            yield path, text.replace("@bindir@", f"{self.prefix}/bin").encode()
        try:
            yield f"{DOCUMENTS}/copyright", notices.text().encode()
        except kit.NoKit as why:
            # whoever installs as root may have another PATH; what is given to others has to have the licences
            if self.is_package:
                raise
            print(f"left out: {DOCUMENTS}/copyright: {why}", file=sys.stderr)
