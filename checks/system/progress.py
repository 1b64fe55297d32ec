"""What long commands show on a terminal."""
import contextlib
import os
import pty
import re
import shutil
import signal
import struct
import subprocess
import time

from checks.parts.clients import Client
from checks.parts.program import SECONDS
from checks.parts.scenes import scene
from checks.parts.terminals import read_beside
from checks.parts.waiting import wait_listening
from checks.parts.wrong import Wrong, expect, expect_true, short
from checks.system.common import make_sparse, pipe_to_write, without_torn_blocks

PROGRESS = rb"\r\x1b\[Kaudit: writing %s: [0-9.]+ of 30\.7 MB, [0-9.]+ MB/s, [0-9]+ s left"


@scene
def progress_is_shown_on_a_terminal(room):
    """A command that takes longer than a second says how far it is on a terminal, and erases that; otherwise it says
    nothing."""
    key = room.path("key")
    for name, option, is_terminal, wanted in (("shown", [], True, PROGRESS % b"shown"),
                                              ("hidden", ["--no-progress"], True, None),
                                              ("od\x1b[31m\n\u202ed", [], True,
                                               PROGRESS % rb"od\\x1b\[31m\\x0a\\u202ed"),
                                              ("piped", [], False, None)):
        status, output, messages = slow_format(room, is_terminal, name, "60000", key, *option)
        expect((status, output), (0, b"formatted 60000\n"), "format of %s" % name)
        if wanted is None:
            expect(messages, b"", "the messages of %s" % name)
        else:
            expect_true(re.search(wanted, messages) and messages.endswith(b"\r\x1b[K"),
                        "there is no progress: %s" % short(messages))
        os.remove(room.path(name))
    expect_progress_of_openings(room)
    if shutil.which("tmux"):
        expect_progress_in_tmux(room, key)


def slow_format(room, is_terminal, *words):
    """Formats a file, and is stopped for more than a second in the middle of it: status, output and messages. If it
    ended before that, it is done again."""
    for _ in range(10):
        with contextlib.suppress(FileNotFoundError):
            os.remove(room.path(words[0]))
        ours, theirs = pty.openpty() if is_terminal else os.pipe()
        begun = subprocess.Popen([room.executable, "format", *words], stdin=subprocess.DEVNULL, stdout=subprocess.PIPE,
                                 stderr=theirs, cwd=room.folder)
        messages, reader = read_beside(ours, theirs)
        was_stopped = stop_in_the_middle(begun, "wchar", 3_000_000, 25_000_000)
        output, _ = begun.communicate(timeout=SECONDS)
        reader.join()
        if was_stopped:
            return begun.returncode, output, without_torn_blocks(b"".join(messages))
    raise Wrong("no format was stopped in the middle of it")


OPENING = rb"(\r\x1b\[Kaudit: reading opened: [0-9.]+ MB, [0-9.]+ MB/s)+\r\x1b\[K"


def expect_progress_of_openings(room):
    """A daemon, `serve` and a follower show how far they have opened a store of 4 MB, and erase that before anything
    else is printed. Nothing is shown of what they do then."""
    _, _, root = make_sparse(room.path("opened"), 12000, 125)
    os.chmod(room.path("opened"), 0o600)
    state = b"125 %s" % root.hex().encode()
    path = room.path("socket")
    for words, printed in ((("daemon", "opened", path), b"ready %s\r\nstopped %s\r\n" % (state, state)),
                           (("serve", "opened", path, "1"), b"round 1 turns [0-9]+\r\n"),
                           (("append", "opened", "--follow", "--text", "5"), b"")):
        status, shown = slow_opening(room, path, *words)
        expect_true(status == 0 and re.fullmatch(OPENING + printed, shown),
                    "the opening of %s: %s" % (words[0], short((status, shown))))


def slow_opening(room, path, *words):
    """Runs a command on a terminal that opens a store, stops it for more than a second in the middle of that, and lets
    it end: its status, and what the terminal got. If the store was open before that, it is done again."""
    for _ in range(10):
        ours, theirs = pty.openpty()
        begun = room.start(*words, stdin=subprocess.PIPE, stdout=theirs, stderr=theirs)
        shown, reader = read_beside(ours, theirs)
        was_stopped = stop_in_the_middle(begun, "rchar", 400_000, 3_200_000)
        if words[0] in ("daemon", "serve"):
            wait_listening(path, begun)
        if words[0] == "daemon":
            room.done("stop", path)
        elif words[0] == "serve":
            Client(path).end()
        begun.stdin.close()
        begun.wait(SECONDS)
        reader.join()
        if was_stopped:
            return begun.returncode, b"".join(shown)
    raise Wrong("no opening was stopped in the middle of it")


def stop_in_the_middle(begun, moved, least, most):
    """Stops a process for more than a second once it has read (rchar) or written (wchar) some bytes, and returns
    whether it had moved no more than most of them."""
    size = 0
    while size < least and begun.poll() is None:
        with open("/proc/%d/io" % begun.pid) as file:
            size = int(next(line for line in file if line.startswith(moved + ":")).split()[1])
    if size > most or begun.poll() is not None:
        return False
    os.kill(begun.pid, signal.SIGSTOP)
    time.sleep(1.2)
    os.kill(begun.pid, signal.SIGCONT)
    return True


def expect_progress_in_tmux(room, key):
    """The same in a terminal that draws, of an export that comes slowly: the line is there, and nothing of it is
    left."""
    def tmux(*words):
        return subprocess.run(["tmux", "-L", "check%d" % os.getpid(), "-f", "/dev/null", *words], capture_output=True,
                              timeout=SECONDS, cwd=room.folder).stdout

    def wait_for(shown):
        end = time.time() + SECONDS
        while shown not in tmux("capture-pane", "-p"):
            expect_true(time.time() < end, "%r isn't drawn in tmux" % shown)
        return tmux("capture-pane", "-p")

    os.mkfifo(room.path("slow"))
    try:
        tmux("new-session", "-d", "-x", "120", "-y", "8", "sleep", str(SECONDS))
        # The terminal stays for a while: tmux may drop the last output of a command that ends a window.
        command = "\"$0\" verify slow \"$1\" 1:%s; sleep %d" % ("0" * 64, SECONDS)
        tmux("new-window", "sh", "-c", command, room.executable, key)
        with pipe_to_write(room.path("slow")) as export:
            export.write(struct.pack(">II", 1, 32696))
            time.sleep(1.2)
            export.write(bytes(100))
            wait_for(b"audit: reading slow: 0.0 MB, 0.0 MB/s")
        screen = wait_for(b"audit: entry 0: 40 Short")
        expect_true(b"reading" not in screen, "what is left in tmux: %s" % short(screen))
    finally:
        tmux("kill-server")
