"""Checks that a verification continues: what follows a state has the verdict that the whole log has.

usage: bin/check verify-on EXECUTABLE

The logs are made by the model and judged by the auditor's programs, which are written from docs/formats.md. Twenty logs
of 0 to 130 entries are cut at every entry: the state that the program saves there is the auditor's, and from it the
rest has the events, the verdict and the status that the whole has from the key. Small logs are also cut at every two
entries. Then faults of each kind are planted at up to two entries of each log, and it is cut there and at an earlier
entry. Last, more than five hundred states and tails are damaged; each is refused with its message and status, and
leaves no state. It starts some 4,900 processes.
"""
from checks.parts.files import folder_of_its_own
from checks.parts.scenes import program_of
from checks.verify_on.differences import differences


def main(words):
    program_of(words)
    with folder_of_its_own("verify-on-"):
        found = list(differences())
    for difference in found:
        print("verification that continues: " + difference)
    return 1 if found else 0
