"""The tests of the built program, and of the texts of this repository: `bin/check` runs them, `bin/check --list` names
them.

`table.py` has the list. Each check is a module, or a package of one module for each theme, with `main(words)`; what
several of them use is in `parts`, and what has to be shell in `shell`. A check prints nothing if all is right, and its
status is 0. Otherwise it says what was expected and what came, and the status is 1. What can't be tested here is left
out in a line `left out: ..`; if that is all of it the status is 77.

A scene is a function marked `@scene`, which is played in a folder of its own. It lists what it requires with `needs`,
and is left out if that is missing. Python here is that of the standard library alone. Expected values are those of
published vectors or of model/, never this program's output; the formats decide where the two differ.
"""
# It makes the auditor's programs importable too.
import model  # noqa: F401
