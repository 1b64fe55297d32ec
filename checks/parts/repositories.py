"""Git repositories of witnesses."""
import subprocess


def git(folder, *words):
    return subprocess.run(["git", "-C", folder, *words], check=True, capture_output=True).stdout


def repository(path, name):
    """A new repository with an identity to commit under."""
    subprocess.run(["git", "init", "--quiet", "-b", "main", path], check=True)
    git(path, "config", "user.name", name)
    git(path, "config", "user.email", name + "@example.org")


def bare(path):
    subprocess.run(["git", "init", "--quiet", "--bare", "-b", "main", path], check=True)


def clones(*names):
    """Clones of a new remote, with an identity each."""
    bare("remote")
    for name in names:
        repository(name, name)
        git(name, "remote", "add", "origin", "../remote")
