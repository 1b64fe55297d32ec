"""What is in the memory of a process."""
import contextlib

# Only smaller parts of memory are searched: an address sanitizer reserves terabytes.
LARGEST_PART = 64 << 20


def memory_of(process):
    """All that a process can read of its own memory, or None if this one can't read it."""
    parts = []
    try:
        with open("/proc/%d/maps" % process.pid) as maps, open("/proc/%d/mem" % process.pid, "rb", 0) as memory:
            for line in maps:
                first, last = (int(word, 16) for word in line.split()[0].split("-"))
                if line.split()[1].startswith("r") and last - first <= LARGEST_PART and "[v" not in line:
                    with contextlib.suppress(OSError, ValueError):
                        memory.seek(first)
                        parts.append(memory.read(last - first))
    except OSError:
        return None
    return b"".join(parts)
