"""Files and temporary folders."""
import contextlib
import os
import shutil
import stat
import tempfile


def read(path):
    with open(path, "rb") as file:
        return file.read()


def read_text(path):
    with open(path, encoding="utf-8") as file:
        return file.read()


def write(path, data):
    with open(path, "wb") as file:
        file.write(data)


def mode_of(path):
    return stat.S_IMODE(os.stat(path).st_mode)


def temporary_names(folder="."):
    """The temporary files that a program left in a folder."""
    return [name for name in os.listdir(folder) if name.endswith(".tmp")]


@contextlib.contextmanager
def folder_of_its_own(prefix):
    """A temporary folder, which is the working directory meanwhile."""
    home, folder = os.getcwd(), tempfile.mkdtemp(prefix=prefix)
    os.chdir(folder)
    try:
        yield folder
    finally:
        os.chdir(home)
        shutil.rmtree(folder, ignore_errors=True)
