"""The checks and the measurements: their names, modules, what each is for, and how long it takes on four cores."""
import glob
import os
from typing import NamedTuple


class Entry(NamedTuple):
    name: str
    about: str
    time: str
    module: str


def entries(package, rows):
    return {name: Entry(name, about, time, "%s.%s" % (package, name.replace("-", "_"))) for name, about, time in rows}


CHECKS = entries("checks", [
    ("case", "one folder of cases/: a whole command line, and what it prints", "at once"),
    ("tour", "the tour prints what examples/tour.txt has, and the auditor's programs agree with the program", "10 s"),
    ("auditor", "the auditor's programs answer as the program does, on what a tour left and on damaged copies", "8 s"),
    ("disclosed", "disclosures of random logs are the model's, and show no other event; also with faults", "40 s"),
    ("salvaged", "searches of random damaged stores with their first key are the model's; unreadable sectors", "20 s"),
    ("start", "starts with less and less memory, and by a path that is no text", "5 s"),
    ("memory", "verifications, searches and sessions with less and less memory, and a store of a million events", "20 s"),
    ("vectors", "the test vectors of docs/formats.md, by the model, the auditor's programs and the program", "5 s"),
    ("verify-on", "what follows a state has the verdict, events and state that the whole log has", "30 s"),
    ("system", "interaction with the operating system: streams, locks, modes, keys in memory, devices", "1 min"),
    ("daemon", "a daemon with clients that behave well beside others that don't", "20 s"),
    ("client", "the commands that ask a server, against servers that lie too; fleet and witness-git", "1 min"),
    ("library", "libauditstore and the Python package: verdicts, frames, clients, handlers, examples", "1 min"),
    ("serve-clients", "`serve` with 16 clients at a time, one of them cut off and one that sends noise", "1 s"),
    ("serve-rounds", "rounds of one client, and a client that sends without end up to the limit of passes", "30 s"),
    ("serve-kills", "a server is killed under 16 clients: each acknowledgement that one read is found", "20 s"),
    ("endure", "a program is killed while it appends: the store has all that was acknowledged", "10 s"),
    ("power", "the power of a disk is cut under the program: all that was acknowledged is there", "20 s"),
    ("feeds", "a daemon fed by a real rsyslogd, a file and a journal that are killed, under its unit's rules", "4 min"),
    ("network", "hosts over RELP and TLS, and through stunnel with client certificates", "10 s"),
    ("siem", "verified events get into SQLite once, each day those that are new", "1 s"),
    ("sealing", "first keys that are sealed to an auditor by age and gpg, and by commands that fail", "5 s"),
    ("chain", "logs that continue each other are verified in order, and broken chains are reported", "5 s"),
    ("rotating", "a log that goes on in prepared stores, killed at any moment, and a witness that follows it", "20 s"),
    ("anchors", "notes; anchors that are signed, stamped, killed and changed; marks, and times of events", "1 min"),
    ("metrics", "what `metrics` writes of stores and witnesses, and that its rules raise each alert", "10 s"),
    ("units", "the package and its units on a systemd that is booted in namespaces", "2 min"),
    ("install", "installing and removing, the man page, completion, README's commands, and the package", "20 s"),
    ("page", "the auditor's page in a headless Chromium", "3 min"),
    ("replicated", "a store on three NBD servers that are killed, and a machine that takes it over", "5 s"),
    ("replicated-ceph", "a store on a Ceph cluster whose OSDs are killed, and machines that fence each other", "50 s"),
    ("failover", "`failover` on two machines over an etcd of three members", "40 s"),
    ("placed", "random runs of the model with sources that are killed: none loses or doubles an event", "15 s"),
    ("model", "digests, entries, proofs and frames in tests and cases are those of the model", "30 s"),
    ("version", "the program names the logic that `rt version` prints", "at once"),
    ("man-page", "groff formats docs/audit.1 without warnings", "at once"),
    ("statement", "docs/statement.md leads through all that its functions cite", "2 s"),
    ("refusals", "each refusal in docs/refusals.md is brought about by a case or a test", "at once"),
    ("claims", "no document repeats a claim that was found too strong", "1 s"),
    ("words", "no name is defined in the specs of two crates, and only laws have tactics", "at once"),
    ("edits", "each edit of must-fail/ and attacks/ can be applied", "1 s"),
    ("names", "each name between backticks in the documents about the code is in the code", "2 s"),
    ("diagrams", "what the documents draw, list and link to exists", "1 s"),
    ("rooms", "the README of each crate names its files, and nothing that isn't there", "1 s"),
    ("lengths", "the pages have at most 20,000 words, each function in Python at most 40 lines", "2 s"),
    ("crates-table", "crates/README.md has the crates as crates.txt does", "at once"),
    ("commits", "the messages of new commits have the form that CONTRIBUTING.md asks for", "at once"),
])

BENCHES = entries("checks.bench", [
    ("store", "replays, trees, batches, openings, sessions, verifications (also what `bin/bench` alone measures)",
     "10 min"),
    ("sqlite", "a durable batch of small events in SQLite, beside what a store hashes and writes for it", "10 s"),
    ("daemon", "a daemon and its clients, by means over turns", "4 min"),
    ("sources", "what `send` and `file-feed` send with places, and `send` without", "2 min"),
    ("follow", "lines of a log piped to `append --follow`, and verified", "2 min"),
    ("read", "`read` of a million events, and of what is new after them", "5 min"),
    ("openings", "an opening of a million events, by turns with another executable's", "2 min"),
    ("disclosing", "`disclose` of one in a thousand of a million events, and `verify`, by turns", "4 min"),
    ("library", "proofs, exports and appends by libauditstore and the Python package", "1 min"),
    ("network", "hosts over TLS, and clients that are more than a daemon's places", "1 min"),
    ("replicas", "a store on Ceph and on an NBD quorum beside one in a file: rates, attaching, openings", "over 20 min"),
    ("fleet", "200 stores on one machine: daemons, looks, metrics, rotations", "20 s"),
    ("peers", "durable appends and verification beside SQLite, journald, rsyslogd and Go's tlog", "2 min"),
])


def files_of(name):
    """The files of a check's own: its module, or those of its package."""
    path = os.path.join(os.path.dirname(os.path.dirname(os.path.abspath(__file__))), *CHECKS[name].module.split("."))
    if os.path.isdir(path):
        return sorted(glob.glob(os.path.join(path, "**", "*.py"), recursive=True))
    return [path + ".py"]
