"""Runs each job with each of its allocations refused, and compares what it answers and writes with the job itself."""
import os, shutil, subprocess, sys
from concurrent.futures import ThreadPoolExecutor

program, work, most = sys.argv[1], sys.argv[2], int(sys.argv[3])
OLD = b"what stood here before"
MEMORY = (5, b"memory\n")
NO_NOTE = b"no memory for the note\n"

# The words of a job, and the files that it reads, by their names.
small, large = "examples/programs/exit_three.gtirb", "examples/programs/checksum_o1.gtirb"
patch = "examples/patches/checksum_o1.patch"
JOBS = [("demo seed=1 blocks=3 out=out", {}), ("demo seed=7 blocks=20 out=out", {})]
for file, patches in [(small, {}), (large, {"patch": patch})]:
    words = "".join(f" {name}={name}" for name in patches)
    files = {"in": file, **patches}
    JOBS.append(("recode in=in out=out", {"in": file}))
    JOBS.append(("check in=in plain=*", {"in": file}))
    for job in ["rewrite", "layout", "print", "link"]:
        JOBS.append((f"{job} in=in out=out plain=*{words}", files))
    JOBS.append((f"sim in=in out=out plain=* steps=300{words}", files))
for image in ["examples/run/exit_three.image", "examples/run/hello.image"]:
    JOBS.append(("run in=in out=out steps=300", {"in": image}))


def once(words, files, folder, refused, on):
    """What the program answers in a folder with these files: its status, its line, what it wrote, its allocations."""
    os.makedirs(folder, exist_ok=True)
    for name, file in files.items():
        shutil.copy(file, f"{folder}/{name}")
    with open(f"{folder}/out", "wb") as out:
        out.write(OLD)
    extra = {"LD_PRELOAD": f"{work}/refused.so", "COUNTED": f"{folder}/counted"}
    if refused:
        extra["REFUSED"] = str(refused)
    if on:
        extra["REFUSED_ON"] = "1"
    ran = subprocess.run([program, *words.split()], cwd=folder, capture_output=True, env={**os.environ, **extra})
    for name, file in files.items():
        assert open(f"{folder}/{name}", "rb").read() == open(file, "rb").read(), f"{words}: {name} was changed"
    counted = int(open(f"{folder}/counted").read())
    return (ran.returncode, ran.stderr), open(f"{folder}/out", "rb").read(), counted


def wrong(words, answer, out, own, made):
    """What is wrong with an answer and an output where memory was refused, if anything."""
    if answer in [own, (own[0], NO_NOTE)]:
        return None if out == made else "its own answer, but another output"
    if answer != MEMORY:
        return f"it answers {answer}"
    return None if out == OLD or made.startswith(out) else "the output holds something else"


def try_all(words, files, index):
    own, made, count = once(words, files, f"{work}/{index}", 0, False)
    if own[0] == 2 and words.startswith("print "):
        return f"{words}: passed over, the program has no such job"
    assert own[0] == 0, f"{words}: {own}"
    numbers = range(1, count + 1)
    if most and count > most:
        numbers = sorted({1 + (count - 1) * k // (most - 1) for k in range(most)})
    faults, memory = [], 0
    for on in [False, True]:
        for number in numbers:
            answer, out, _ = once(words, files, f"{work}/{index}", number, on)
            memory += answer == MEMORY
            fault = wrong(words, answer, out, own, made)
            if fault:
                faults.append(f"{words}: allocation {number} {'and all that follow' if on else 'alone'}: {fault}")
    assert not faults, "\n".join(faults[:5])
    return f"{words} ({', '.join(files.values())}): {count} allocations, {2 * len(numbers)} runs, memory ran out in {memory}"


with ThreadPoolExecutor(os.cpu_count()) as pool:
    for line in pool.map(lambda job: try_all(*job[1], job[0]), enumerate(JOBS)):
        print(line, flush=True)
