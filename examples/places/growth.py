"""Where in a description the entries stand that give a power (powers.py)."""
from places.hops import Hops
from places.linking import entries
from powers import OTHERS, THREAD, givers


def spots(d, report, compartment, holder, power):
    """What is found at each entry of its holder that gives a power to a compartment, or at each step of the path by
    which it comes to use what another one owns, or at the thread."""
    if power.startswith(OTHERS):
        return Hops(d).path(report.path(compartment, power.removeprefix(OTHERS)))
    if power.startswith(THREAD):
        name = power.split(" ")[2]
        index = d.names("threads").index(name)
        return [d.found(d.top.items("threads")[index], f".threads[{index}]", f"thread {name}")]
    places = entries(d)
    return [d.found(*places[number][1:], f"entry {number}") for number in givers(report, holder, power)]
