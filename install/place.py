"""The place where all is installed, and a note there of what was put and of the folders that were made for it."""
import contextlib
import os
import pathlib
import shutil
import tempfile

NOTE = "share/safepoint/installed.txt"
# Python keeps what it compiles of the installed search here.
COMPILED = "share/safepoint/witness/__pycache__"
# Folders that are this project's alone.
OWN = ("share/safepoint/witness/", "share/safepoint/", "lib/safepoint/", "lib/cmake/safepoint/")


class Place:
    """A prefix with the folder before it. The note has a path below the prefix on each line; a folder's ends with /."""

    def __init__(self, prefix, destdir):
        self.prefix = prefix
        self.top = pathlib.Path(destdir + prefix) if destdir else pathlib.Path(prefix)

    def noted(self):
        with contextlib.suppress(FileNotFoundError):
            return (self.top / NOTE).read_text().splitlines()
        return []

    def begin(self, targets):
        """Makes the folders of these targets, and notes all, with what was noted before."""
        targets = [*targets, NOTE]
        made = [f"{os.path.relpath(it, self.top)}/" for it in self.lacking(targets)]
        for it in targets:
            (self.top / it).parent.mkdir(parents=True, exist_ok=True)
        lines = dict.fromkeys([*self.noted(), *made, *targets])
        (self.top / NOTE).write_text("".join(f"{it}\n" for it in lines))

    def lacking(self, targets):
        """The folders of these targets that aren't there, those above first."""
        wanted = {folder for it in targets for folder in (self.top / it).parents}
        return sorted((it for it in wanted if not it.exists()), key=lambda it: len(it.parts))

    def put(self, source, to, mode=0o644):
        target = self.top / to
        with tempfile.NamedTemporaryFile(dir=target.parent, delete=False) as it:
            part = it.name
        shutil.copyfile(source, part)
        os.chmod(part, mode)
        os.replace(part, target)

    def link(self, leads, to):
        target = self.top / to
        with tempfile.TemporaryDirectory(dir=target.parent) as folder:
            os.symlink(leads, f"{folder}/link")
            os.replace(f"{folder}/link", target)

    def remove(self, targets):
        """Removes these targets and what is noted. A folder goes where it was made here and has nothing of others."""
        noted = self.noted()
        folders = {*OWN, *(it for it in noted if it.endswith("/"))}
        for it in {*targets, NOTE, *noted}.difference(folders):
            (self.top / it).unlink(missing_ok=True)
        shutil.rmtree(self.top / COMPILED, ignore_errors=True)
        for it in sorted((self.folder(it) for it in folders), key=lambda it: -len(it.parts)):
            with contextlib.suppress(OSError):  # it isn't there, or has files of others
                it.rmdir()

    def folder(self, line):
        return pathlib.Path(os.path.normpath(self.top / line))
