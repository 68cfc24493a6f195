"""What the programs of costs/ share: their words, the workloads, and the page with their tables."""

import argparse
import os
import re
import subprocess

TOP = os.path.dirname(os.path.dirname(os.path.abspath(__file__)))


def words(doc, reps):
    """The words that each of the programs takes. One may add its own."""
    read = argparse.ArgumentParser(description=doc, formatter_class=argparse.RawDescriptionHelpFormatter)
    read.add_argument("--memdb", default=os.path.join(TOP, "crates/memdb/out/memdb"), type=os.path.abspath, help="the program")
    read.add_argument("--reps", type=int, default=reps, help="how many runs are counted")
    read.add_argument("--smaller", type=int, default=1, help="how many times smaller all is")
    read.add_argument("--only", default="", help="beginnings of the names of the workloads that are run: bulk,scan")
    read.add_argument("--processors", help="the numbers of those that are used: 0,1")
    read.add_argument("--markdown", type=os.path.abspath, help="a page that has lines for the table")
    return read


def workloads(given, folder):
    """Writes the files of the workloads into a folder, and lists those that are asked for: each with its name, whether its output is
    `fixed` or `free`, the words of its command, and what it is."""
    write = [os.path.join(TOP, "costs/workloads"), folder, str(given.smaller)]
    written = subprocess.run(write, stdout=subprocess.PIPE, check=True)
    for line in written.stdout.decode().splitlines():
        name, order, command, what = line.split("\t")
        if name.startswith(tuple(given.only.split(","))):
            yield name, order, command.split(), what


def machine(given, processors=None):
    """Keeps to the processors that are given, or else to these, and says what the figures are."""
    load = os.getloadavg()[0]
    if given.processors or processors:
        os.sched_setaffinity(0, map(int, (given.processors or processors).split(",")))
    with open("/proc/cpuinfo", encoding="utf-8") as file:
        model = re.search(r"^model name\s*: (.*)$", file.read(), re.MULTILINE)
    count = len(os.sched_getaffinity(0))
    smaller = f"; all {given.smaller} times smaller" if given.smaller != 1 else ""
    name = f" ({model[1]})" if model else ""
    return f"The least of {given.reps} runs, on {count} processor{'s' * (count > 1)}{name}, with a load of {load:.1f} before{smaller}."


def publish(mark, lines, page):
    """Prints the lines, and writes them between the lines `<!-- MARK -->` and `<!-- MARK: end -->` of the page, if there is one."""
    print("\n".join(lines))
    if page:
        with open(page, encoding="utf-8") as file:
            text = file.read()
        before, rest = text.split(f"<!-- {mark} -->\n")
        after = rest.split(f"<!-- {mark}: end -->\n")[1]
        with open(page, "w", encoding="utf-8") as file:
            file.write(f"{before}<!-- {mark} -->\n" + "\n".join(lines) + f"\n<!-- {mark}: end -->\n{after}")
