"""Changes one call of the C library that a program makes: an allocation is refused, or a write is cut short. Into a program that is linked
dynamically a library is loaded for it (refuse_memory.c, short_write.c); one that is linked statically is traced (at_call.c)."""
import os
import subprocess

HERE = os.path.dirname(os.path.abspath(__file__))
# By kind: the library, the variable that says which call it is, and the functions.
KINDS = {
    "refuse": ("refuse_memory.c", "REFUSE_AT", ("malloc", "realloc", "posix_memalign", "aligned_alloc")),
    "shorten": ("short_write.c", "SHORT_AT", ("pwrite",)),
}
# Without it there is nothing to be changed.
NEEDED = {"refuse": "malloc", "shorten": "pwrite"}


def is_static(program):
    """Whether a program names no loader: it has no part of the kind PT_INTERP (3)."""
    with open(program, "rb") as file:
        head = file.read(64)
        start, size, count = (int.from_bytes(head[at : at + length], "little") for at, length in ((32, 8), (54, 2), (56, 2)))
        file.seek(start)
        parts = file.read(size * count)
    return all(int.from_bytes(parts[at : at + 4], "little") != 3 for at in range(0, size * count, size))


def addresses(program):
    """The functions of a program, by their names: where each stands."""
    listed = subprocess.run(["nm", program], capture_output=True, text=True, check=True).stdout
    rows = [line.split() for line in listed.splitlines()]
    return {row[2]: row[0] for row in rows if len(row) == 3 and row[1] in "TtWw"}


class Changed:
    """Calls of a program of which one is changed."""

    def __init__(self, work, kind):
        source, self.variable, self.functions = KINDS[kind]
        self.kind, self.told = kind, os.path.join(work, f"{kind}.told")
        self.library, self.tracer = os.path.join(work, f"{kind}.so"), os.path.join(work, "at_call")
        subprocess.run(["cc", "-shared", "-fPIC", "-O1", "-o", self.library, os.path.join(HERE, source), "-ldl"], check=True)
        subprocess.run(["cc", "-O1", "-o", self.tracer, os.path.join(HERE, "at_call.c")], check=True)
        # By program: the words of the tracer that name its functions, or None where it is linked dynamically.
        self.places = {}

    def of(self, program):
        if program not in self.places:
            self.places[program] = None
            if is_static(program):
                found = addresses(program)
                if NEEDED[self.kind] not in found or "main" not in found:
                    raise SystemExit(f"{program} has no table of names, so no call of it can be changed")
                self.places[program] = [found["main"], *(f"{name}={found[name]}" for name in self.functions if name in found)]
        return self.places[program]

    def around(self, words, number):
        """The words that call a program with its call of this number changed, and what the environment needs for it."""
        places = self.of(words[0])
        if places is None:
            return list(words), {"LD_PRELOAD": self.library, self.variable: str(number), "REFUSE_TOLD": self.told}
        return [self.tracer, self.kind, str(number), self.told, *places, "--", *words], {}
