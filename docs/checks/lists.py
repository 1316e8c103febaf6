"""Lists that no page repeats, printed when they are asked for: contracts of a crate, crates, a reading order."""
import textwrap

from . import marks, reading, sources, surface

WIDTH = 118


def wrapped(text, first="", rest=""):
    return "\n".join(textwrap.wrap(text, WIDTH, initial_indent=first, subsequent_indent=rest, break_long_words=False,
                                   break_on_hyphens=False))


def calls_with_contracts(crate):
    return [item for item in sources.crates()[crate].public_items() if item.kind == "fn" and item.clauses]


def contract_line(item, where):
    labels = ", ".join(dict.fromkeys(f"`{clause.label}`" for clause in item.ensured() if clause.label))
    asks = [f"`{clause.label}`" if clause.label else "one thing"
            for clause in item.clauses if clause.kind == "requires"]
    asked = f" Asks {', '.join(dict.fromkeys(asks))}." if asks else ""
    place = f"{item.file}:{item.line}"
    return wrapped(f"`{item.path}`{f' ({labels})' if labels else ''}, {place}, {where}: {item.doc}{asked}", "- ", "  ")


def contracts(crate):
    """The public calls of a crate that have a contract, each with its clauses and where it is claimed."""
    lines = [wrapped(f"{crate}: {sources.crates()[crate].summary}")]
    told = marks.told()
    for item in sorted(calls_with_contracts(crate), key=lambda each: (each.file, each.line)):
        name = f"{crate}::{item.path}"
        lines.append(contract_line(item, told.get(name) or marks.kind_of(crate, item.path) or "claimed nowhere"))
    return "\n".join(lines)


def rooms():
    """The crates by the sections of crates.txt, each with what it says of itself."""
    parts, section = [], None
    for crate in sources.crates().values():
        if crate.section != section:
            section = crate.section
            parts.append(f"\n{section}\n")
        parts.append(wrapped(f"`{crate.name}`: {crate.summary}", "- ", "  "))
    return "\n".join(parts).strip()


def below(name):
    """The definitions below a clause of the top call, or below a definition: the nearest files first."""
    cited = reading.below_name(name)
    lines = [f"{file}:{each.first}: {each.name}"
             for file, definitions in reading.in_order(cited) for each in definitions]
    lines += [f"crates/{crate}/src: {len(reading.lines_of_table(crate))} lines of types and tables"
              for crate in cited.tables()]
    by_module = {}
    for module, there in sorted(cited.kit):
        by_module.setdefault(module.replace(".specs", ""), []).append(there)
    return "\n".join(lines + [wrapped(f"of the kit, {module}: {', '.join(names)}", "", "  ")
                              for module, names in by_module.items()])


def public_surface(crate=None):
    return surface.surface([crate] if crate else None)
