#!/usr/bin/env python3
"""Runs modules on the symbolic machine and their linked images on the numeric one, for several numbers of instructions,
and compares where each run stands and what it wrote, up to where the symbolic machine is stuck.

    scripts/both_machines.py [--program FILE] [MODULE.gtirb ..]    without modules, the bundled examples

A file NAME.in beside NAME.gtirb is the program's input. Run it after `rt ci`, which leaves the program.
"""
import pathlib, re, subprocess, sys, tempfile

ROOT = pathlib.Path(__file__).resolve().parent.parent
STEPS = [0, 1, 2, 3, 5, 10, 50, 100, 1000, 12_345, 100_000, 1_000_000, 10_000_000]


def served(program, *words):
    """The answer of a job."""
    run = subprocess.run([program, *words], capture_output=True, text=True)
    return run.stderr.strip().splitlines()[-1]


class Machines:
    """A module and its image under the default layout."""

    def __init__(self, program, module, folder):
        self.program, self.module, self.image, self.out = program, module, folder / "image", folder / "out"
        given = module.with_suffix(".in")
        self.input = [f"input={given}"] if given.exists() else []
        self.linked = served(program, "link", f"in={module}", f"out={self.image}", "plain=*")

    def after(self, steps, symbolic):
        """Where a run stands after so many instructions, and what it wrote."""
        job = ["sim", f"in={self.module}", "plain=*"] if symbolic else ["run", f"in={self.image}"]
        answer = served(self.program, *job, f"out={self.out}", f"steps={steps}", *self.input)
        return answer, self.out.read_bytes()

    def difference(self, steps):
        """How the two machines differ within so many instructions, if they do, and whether the run is over."""
        answer, written = self.after(steps, symbolic=True)
        stuck = re.match(r"steps=(\d+) stuck", answer)
        if stuck:
            answer = f"steps={stuck[1]} running"
        other, other_written = self.after(stuck[1] if stuck else steps, symbolic=False)
        same = (answer, written) == (other, other_written)
        return None if same else f"sim {answer!r}, run {other!r}", not answer.endswith("running") or bool(stuck)


def compare(program, module):
    """What differs for a module first, and how many runs were compared."""
    with tempfile.TemporaryDirectory() as folder:
        machines = Machines(program, module, pathlib.Path(folder))
        if not machines.linked.startswith("done"):
            return f"not linked: {machines.linked}", 0
        for count, steps in enumerate(STEPS, 1):
            difference, over = machines.difference(steps)
            if difference or over:
                break
        return difference, count


def main():
    words = sys.argv[1:]
    program = str(ROOT / "crates/gtirb_a64/out/gtirb_a64")
    if words[:1] == ["--program"]:
        program, words = words[1], words[2:]
    modules = [pathlib.Path(word) for word in words] or sorted((ROOT / "examples/programs").glob("*.gtirb"))
    differences = runs = 0
    for module in modules:
        difference, count = compare(program, module)
        runs += count
        if difference:
            differences += 1
            print(f"{module.name}: {difference}")
    print(f"{len(modules)} modules, {runs} runs on both machines, {differences} modules differ")
    sys.exit(1 if differences else 0)


main()
