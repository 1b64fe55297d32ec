"""Command lines with less and less memory, until the program can't be loaded."""
from checks.parts import program
from checks.parts.rooms import with_data_limit
from checks.parts.wrong import expect_true

# Heap in KiB. A limit on the whole address space would also take the memory for the stack, and a process whose stack
# can't grow is killed by a signal.
MOST = 2000


def with_limit(kilobytes, *words, **how):
    return program.whole(*words, preexec_fn=with_data_limit(kilobytes), **how)


def loads(kilobytes):
    """Whether the program can be loaded: it prints help, or reports that memory is refused."""
    return with_limit(kilobytes, "--help")[0] in (0, 4)


def downwards(call, step, what):
    """Calls with less and less memory. The call returns the status of what it ran, and raises what is wrong with it; 4
    says that memory was refused, which has to happen."""
    refused, limit = 0, MOST
    while limit > 0 and loads(limit):
        refused += call(limit) == 4
        limit -= step
    expect_true(refused > 0, "no %s was refused memory, down to %d KiB" % (what, limit))
