"""What the two programs count of a search: fzn by crates/fzn_supports, fzn-gecode by its statistics."""
import collections
import os
import re
import subprocess

TOP = os.path.dirname(os.path.dirname(os.path.abspath(__file__)))
COUNTER = os.path.join(TOP, "crates", "fzn_supports", "out", "fzn_supports")

# The nodes that were looked at, how many of them failed, how often a propagator ran, and how many spaces were copied, which
# fzn-gecode doesn't tell.
Count = collections.namedtuple("Count", "nodes failed runs copies")
NAMES_OF_GECODE = ("nodes", "failures", "propagations", "copies")


def said(command, limit, **how):
    """What a program prints; None where it takes too long."""
    try:
        return subprocess.run(command, stdout=subprocess.PIPE, text=True, check=True, timeout=limit, **how).stdout
    except subprocess.TimeoutExpired:
        return None


def told(text, names=Count._fields):
    """The count that is told, if one is."""
    found = {name: int(number) for name, number in re.findall(r"(\w+)=(\d+)\b", text or "")}
    return Count(*(found.get(name) for name in names)) if names[0] in found else None


def of_fzn(program, lines, words, limit):
    """What fzn counts of a model, by the words of fzn that say how many solutions are sought."""
    most = words[words.index("-n") + 1 :][:1] if "-n" in words else ["1"] if "-a" not in words and "satisfy;" in lines else []
    return told(said([program, "rows" if "--distinct" in words else "nodes", *most], limit, input=lines))


def of_gecode(path, words, limit):
    """What fzn-gecode counts of a model in a file, by its own words."""
    return told(said(["fzn-gecode", "-s", *words, path], limit), NAMES_OF_GECODE)


def nodes_of(program, lines, words, limit):
    """The nodes of fzn's search; None where the program that counts isn't built, or takes too long."""
    count = of_fzn(program, lines, words, limit) if os.path.exists(program) else None
    return count and count.nodes
