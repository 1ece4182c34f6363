"""The script of a generated workload, as docs/FORMATS.md has it, over a memory of any size."""

KINDS = ("insert", "insert", "insert", "delete", "update", "upsert", "get", "page")


def workload(seed, calls, workers, slots, swaps=65536):
    """The script of a seed, with this memory."""
    lines = [f"memory {slots} {swaps}"]
    state = seed
    for number in range(1, calls + 1):
        draws = []
        for _ in range(3):
            state = (state * 6364136223846793005 + 1442695040888963407) % 2**64
            draws.append(state >> 32)
        kind = KINDS[draws[1] % 8]
        payload = f" v{number}" if kind in ("insert", "update", "upsert") else ""
        lines.append(f"w {1 + draws[0] % workers} {kind} k{draws[2] % (2 * calls):05}{payload}")
    lines.append(f"run turns {seed}")
    return "\n".join(lines) + "\n"
