"""The man page, completion, and the commands of README.md."""
import os
import re
import subprocess

from checks.parts import program
from checks.parts.files import mode_of, read_text, write
from checks.parts.places import PACKAGING, at_top
from checks.parts.program import done
from checks.parts.scenes import scene
from checks.parts.tools import needs
from checks.parts.wrong import expect, expect_true

COMPLETION = os.path.join(PACKAGING, "completion.bash")
# What comes after some words.
CASES = r"""
. "$1"
completes() {
    wanted=$1
    shift
    COMP_WORDS=("$@") COMP_CWORD=$(($# - 1)) COMPREPLY=()
    _audit
    [ "${COMPREPLY[*]}" = "$wanted" ] || echo "completion: '${*: 1}' is completed by '${COMPREPLY[*]}' and not by '$wanted'"
}
mkdir folder && touch 'a file' ask.key
completes help audit he
completes "append ask" audit a
completes verify audit help veri
completes "a file" audit show "a f"
completes folder audit export s fol
completes "a file" audit append --text 1 --follow "a f"
completes "a file" audit verify --text "a f"
completes "a file" audit prove s member 1 2 "a f"
completes "a file" audit ask s --timeout 3 entry 4 "a f"
completes "a file" audit daemon s x --reader "a f"
completes "a file" audit daemon s x --writer 1 : "a f"
completes "a file" audit daemon --writer 1 : p s "a f"
completes "a file" audit rotate o n 3 "a f"
completes "a file" audit disclose e k c "a f"
completes "" audit disclose e k c o --events 3
completes "" audit format s 1
completes export audit ask s ex
completes cut audit send s --text 1 --long c
completes "--text --timeout" audit send s --t
completes --until-refused audit send s --u
"""
HAS_OPTION = '. "$1"; COMP_WORDS=(audit "$2" "$3"); COMP_CWORD=2; _audit; [[ " ${COMPREPLY[*]} " == *" $3 "* ]]'


@scene
def scene_man_page():
    """The man page has no line over 80 columns, and no words run together."""
    needs("groff")
    words = ["groff", "-man", "-Tascii", "-P-cbou", "-rLL=80n", at_top("docs", "audit.1")]
    ended = subprocess.run(words, capture_output=True)
    expect((ended.returncode, ended.stderr), (0, b""), "what groff says of the man page")
    expect([line for line in ended.stdout.splitlines() if len(line) > 80], [], "lines over 80 columns")
    expect_true(b"ack 0 1 root" in b" ".join(ended.stdout.split()), "the man page has no 'ack 0 1 root'")


@scene
def scene_completion():
    """Words are completed, and each command and each option that the program's help has is among them."""
    needs("bash")
    ended = subprocess.run(["bash", "-c", CASES, "bash", COMPLETION], capture_output=True)
    expect((ended.stdout, ended.stderr), (b"", b""), "completion")
    commands = re.search('commands="(.*)"', read_text(COMPLETION))[1].split()
    for command in re.findall("(?m)^  ([a-z]+) ", done("help").decode()):
        expect_true(command in commands, "completion has no " + command)
        help_of = done("help", command).decode() if command != "help" else ""
        for option in re.findall(r"(?m)^ *(?:-h, )?(--[a-z-]*)", help_of):
            found = subprocess.run(["bash", "-c", HAS_OPTION, "bash", COMPLETION, command, option])
            expect(found.returncode, 0, "the completion of %s %s" % (command, option))


def commands_of_readme():
    """The second block of commands of its quick start."""
    page = read_text(at_top("README.md"))
    start = page[page.index("\n## Quick start\n"):]
    block = re.findall(r"(?:^    .*\n)+", start, re.M)[1]
    return "".join(line[4:] for line in block.splitlines(True))


@scene
def scene_readme():
    """The commands of README.md leave what they make where nobody else reads it, and nothing in the checkout."""
    os.makedirs("checkout/bin")
    os.mkdir("tmp")
    os.symlink(program.PATH, "checkout/bin/audit")
    write("commands", commands_of_readme().encode())
    ended = subprocess.run(["sh", "-eu", os.path.abspath("commands")], cwd="checkout", umask=0o022, capture_output=True,
                           env=dict(os.environ, TMPDIR=os.path.abspath("tmp")), timeout=program.SECONDS)
    expect(ended.returncode, 0, "the commands of README.md: %r" % (ended.stdout + ended.stderr))
    left = [os.path.join(place, name) for place, _, names in os.walk("checkout") for name in names]
    expect(left, ["checkout/bin/audit"], "the files in the checkout")
    made = [os.path.join(place, name) for place, folders, names in os.walk("tmp") for name in folders + names]
    expect([path for path in made if mode_of(path) & 0o077], [], "what others can read")
    verified, = (path for path in made if os.path.basename(path) == "verified")
    expect_true(re.search("(?m)^verified [1-9][0-9]* open", read_text(verified)), "README's commands verify no log")
