"""What `asks`, `updates` and `places` share: user times of DOMINO and of a plain program on the same lines, and of another
program of the variable BEFORE, where that is given."""

import glob
import os
import subprocess
import sys
import tempfile

HERE = os.path.dirname(os.path.abspath(__file__))
BUILD = os.path.join(HERE, "build")


class Input:
    """Lines that are run with and without the last ones, the times of which are told; where `whole`, the times are
    those of whole runs. Where `kept` is given, these of the last lines are run both times, and the times are those of the
    others. The least of so many runs counts."""

    def __init__(self, before, measured, unit, whole=False, runs=5, kept=()):
        self.before = before
        self.measured = measured
        self.kept = kept
        self.unit = unit
        self.whole = whole
        self.runs = runs


def plain_program(name):
    """The path of the program of plain/NAME.rs, built where a file under plain/ is newer than it."""
    os.makedirs(BUILD, exist_ok=True)
    program, source = os.path.join(BUILD, name), os.path.join(HERE, "plain", name + ".rs")
    sources = glob.glob(os.path.join(HERE, "plain", "**", "*.rs"), recursive=True)
    if not os.path.exists(program) or os.path.getmtime(program) < max(map(os.path.getmtime, sources)):
        subprocess.run(["rustc", "--edition", "2024", "-O", "-o", program, source], check=True)
    return program


def preloaded(name):
    """The path of the library of plain/NAME.c, which is built for LD_PRELOAD."""
    os.makedirs(BUILD, exist_ok=True)
    library, source = os.path.join(BUILD, name + ".so"), os.path.join(HERE, "plain", name + ".c")
    subprocess.run(["gcc", "-O2", "-shared", "-fPIC", "-fno-builtin", "-o", library, source], check=True)
    return library


def proved_program(crate):
    """The path of a program of the crates: that of the variable of its name, as DOMINO, or the one that is built of them,
    built where it isn't. Makes the folder for what scripts write, too."""
    os.makedirs(BUILD, exist_ok=True)
    if crate.upper() in os.environ:
        return os.environ[crate.upper()]
    proved = [os.path.join(HERE, "..", "tools", "proved"), crate]
    return subprocess.run(proved, stdout=subprocess.PIPE, text=True, check=True).stdout.strip()


def domino_program():
    """The path of the program that is compared: that of the variable DOMINO, or DOMINO itself."""
    return proved_program("domino")


def run(program, path, out):
    """User seconds and the most kilobytes."""
    with open(path, "rb") as lines, open(out, "wb") as replies:
        child = subprocess.Popen([program], stdin=lines, stdout=replies)
        _, status, usage = os.wait4(child.pid, 0)
        child.returncode = status
    if status != 0:
        sys.exit(f"{program} ended with {status}")
    return usage.ru_utime, usage.ru_maxrss


def least(runs):
    return min(time for time, _ in runs), max(memory for _, memory in runs)


def has_refusal(path):
    with open(path, "rb") as replies:
        return any(line.startswith(b"refused ") for line in replies)


def measure(programs, made, folder):
    """Of each program the least seconds, of the measured lines alone where not `whole`, and memory."""
    files = {}
    for name, lines in (("before", [*made.before, *made.kept]), ("all", made.before + made.measured)):
        files[name] = os.path.join(folder, name)
        with open(files[name], "w") as text:
            text.writelines(line + "\n" for line in lines)
    figures = {(name, which): [] for name in programs for which in files}
    for _ in range(made.runs):
        for (name, which), runs in figures.items():
            if which == "all" or not made.whole:
                runs.append(run(programs[name], files[which], os.path.join(folder, f"{name}.{which}")))
    found = {}
    for name in programs:
        seconds, memory = least(figures[name, "all"])
        found[name] = (seconds - (0 if made.whole else least(figures[name, "before"])[0]), memory)
    return found


def text_of(name, made, figures):
    seconds, memory = figures
    factor, unit = {"s": (1, "s"), "ms": (1e3, "ms"), "us": (1e6, "microseconds")}[made.unit]
    each = "" if made.whole else " a line"
    time = seconds * factor / (1 if made.whole else len(made.measured) - len(made.kept))
    return f"{name} {time:8.3f} {unit}{each}, {memory * 1024 / 1e6:4.0f} MB"


def compare(names, inputs, plain):
    """Measures the named inputs, all where no name is given, and prints a line for each."""
    if any(name not in inputs for name in names):
        sys.exit("no such input; there are: " + " ".join(inputs))
    programs = {"domino": domino_program(), "plain": plain_program(plain)}
    if "BEFORE" in os.environ:
        programs["before"] = os.environ["BEFORE"]
    for name in names or inputs:
        made = inputs[name]()
        with tempfile.TemporaryDirectory(dir=BUILD) as folder:
            found = measure(programs, made, folder)
            replies = [os.path.join(folder, f"{which}.all") for which in programs]
            if has_refusal(replies[1]):
                sys.exit(f"{name}: the plain program refuses a line")
            plain_text = text_of("plain", made, found["plain"])
            if has_refusal(replies[0]):
                print(f"{name:18} {'domino refused':32}   {plain_text}", flush=True)
                continue
            others = [replies[i] for i in range(1, len(replies)) if not has_refusal(replies[i])]
            for other in others:
                if subprocess.run(["cmp", replies[0], other], check=False).returncode != 0:
                    sys.exit(f"{name}: the programs differ")
            texts = [text_of("domino", made, found["domino"])]
            for other in list(programs)[1:len(others) + 1]:
                ratio = found["domino"][0] / max(found[other][0], 1e-6)
                texts.append(f"{text_of(other, made, found[other])}   ratio {ratio:.{2 if ratio >= 0.1 else 4}f}")
            print(f"{name:18} {'   '.join(texts)}", flush=True)


def plane(count, draw, side=1000):
    """Cars that drive at up to one unit a tick over a square, of 1,000 units if no other number is given, ten regions and
    ten posts."""
    slope = lambda: f"{draw.randint(-1000, 1000) / 1000:g}"
    lines = [f"class car {count} point", "class post 10 point"]
    for i in range(10):
        x, y = draw.randrange(side - 50), draw.randrange(side - 50)
        lines.append(f"region r{i} ({x},{y}) ({x + 50},{y}) ({x + 50},{y + 50}) ({x},{y + 50})")
        lines.append(f"insert post p{i} at ({draw.randrange(side)},{draw.randrange(side)})")
    for i in range(count):
        lines.append(f"insert car c{i} at ({draw.randrange(side)},{draw.randrange(side)}) move ({slope()},{slope()})")
    return lines
