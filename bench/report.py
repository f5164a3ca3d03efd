"""The tables of bench/search, as plain lines and as Markdown."""
import math
import os
import re
import subprocess
import time

LONG = 0.1
NOTES = "## Notes"
BY_NODE = ("The time of a node", "Growth")
INTRODUCTION = (
    "# Beside fzn-gecode\n\n"
    "`bench/search --write` runs both programs in turn on texts that it makes, with one search annotation for both, and writes "
    "these tables. It compares what both print: how many blocks, the number of the goal, the closing line. Times are the "
    "processor's seconds of whole runs, reading included; a ratio is fzn's time over `fzn-gecode`'s. Nodes are those that each "
    "program looks at: fzn makes fewer or more where its propagators are stronger or weaker. `bench/goals.py` and "
    "`bench/growth.py` say where they are.\n"
)


def ratio(ours, theirs):
    return ours.seconds / theirs.seconds if ours and theirs else None


def bar(number):
    """Ten signs where both take as long, at most forty; a plus says that it goes on."""
    return "" if number is None else "#" * max(1, min(40, round(10 * number))) + ("+" if number > 4.05 else "")


def shown(run):
    """Its seconds; "more" where it was stopped."""
    return "more" if run is None else f"{run.seconds:.2f}"


def differs(ours, theirs):
    return bool(ours and theirs and ours.said != theirs.said)


def plain(name, ours, theirs):
    """A line for the screen."""
    number = ratio(ours, theirs)
    told = "" if number is None else f"{number:8.2f} {bar(number)}"
    return f"{name:26} {shown(ours):>8} {shown(theirs):>8} {told}{'  DIFFERENT' if differs(ours, theirs) else ''}"


def alone(name, theirs):
    """A line for the screen, of fzn-gecode alone."""
    return f"{name:26} {shown(theirs):>8} {theirs.nodes if theirs else '':>10}"


def mean(numbers):
    """The geometric mean."""
    return math.exp(sum(math.log(number) for number in numbers) / len(numbers))


def mean_of(rows):
    """The geometric mean of the ratios, in words, and that of the longer runs."""
    both = [pair for pair in rows.values() if None not in pair]
    if not both:
        return "No model that both end."
    told = f"{len(both)} models that both end, geometric mean {mean([ratio(*pair) for pair in both]):.2f}"
    longer = [ratio(*pair) for pair in both if pair[1].seconds >= LONG]
    if not longer or len(longer) == len(both):
        return told + "."
    return told + f"; of the {len(longer)} that take fzn-gecode {LONG} seconds or more, {mean(longer):.2f}."


def row(name, ours, theirs, by_node):
    number = ratio(ours, theirs)
    cells = [f"`{name}`", shown(ours), shown(theirs), f"{number:.2f}" if number else ""]
    cells += [run.nodes if run and run.nodes else "" for run in (ours, theirs)]
    if by_node:
        cells += [round(1e9 * run.seconds / run.nodes) if run and run.nodes else "" for run in (ours, theirs)]
    if differs(ours, theirs):
        cells[3] += " (different)"
    return "| " + " | ".join(str(cell) for cell in cells) + " |"


def table(title, rows):
    by_node = title in BY_NODE
    heads = ["model", "fzn", "fzn-gecode", "ratio", "fzn, nodes", "fzn-gecode, nodes"]
    heads += ["fzn, ns a node", "fzn-gecode, ns a node"] if by_node else []
    lines = ["| " + " | ".join(heads) + " |", "|---" + "|---:" * (len(heads) - 1) + "|"]
    lines += [row(name, *pair, by_node) for name, pair in rows.items()]
    return f"## {title}\n\n" + "\n".join(lines) + f"\n\n{mean_of(rows)}\n"


def answer(*command):
    """What a command prints, on standard error too, or nothing where it fails or isn't there."""
    try:
        done = subprocess.run(command, stdout=subprocess.PIPE, stderr=subprocess.STDOUT, text=True, check=True)
        return done.stdout.strip()
    except (OSError, subprocess.CalledProcessError):
        return ""


def commit_of(program):
    """The commit that a program was built from: the last one before it, where it stands in a checkout."""
    built = f"--before=@{int(os.path.getmtime(program))}"
    return answer("git", "-C", os.path.dirname(os.path.abspath(program)), "log", "-1", built, "--format=%h")


def surroundings(commit):
    """The day, the machine, and what was compared."""
    with open("/proc/cpuinfo", encoding="ascii") as file:
        processor = re.search(r"^model name\s*: (.*)$", file.read(), re.M)
    version = re.search(r"Version: ([0-9.]+)", answer("fzn-gecode", "--help"))
    return (
        f"On {time.strftime('%-d %B %Y')}, {os.cpu_count()} processors ({processor[1] if processor else 'unknown'}) with a load of "
        f"{os.getloadavg()[1]:.1f}; fzn of commit {commit} ({answer('rt', 'version')}); "
        f"fzn-gecode {version[1] if version else 'of an unknown version'}.\n"
    )


def write(path, tables, commit):
    """Writes the tables over those in a file, and keeps its notes."""
    with open(path, encoding="utf-8") as file:
        _, head, notes = file.read().partition(NOTES)
    parts = [INTRODUCTION, surroundings(commit)] + [table(title, rows) for title, rows in tables.items() if rows]
    with open(path, "w", encoding="utf-8") as file:
        file.write("\n".join(parts) + "\n" + head + notes)


def write_section(path, title, body):
    """Writes a section of a file that stands behind the notes: over the one of this title, or as the last."""
    with open(path, encoding="utf-8") as file:
        before, _, behind = file.read().partition(title + "\n")
    place = behind.find("\n## ")
    rest = behind[place:] if place >= 0 else ""
    with open(path, "w", encoding="utf-8") as file:
        file.write(f"{before.rstrip()}\n\n{title}\n\n{body.rstrip()}\n{rest}".lstrip())
