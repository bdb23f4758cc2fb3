"""Holds the table of crates of docs/MAP.md to crates.txt: what each crate stands on."""
from runs import TOP, tell


def listed():
    """Each crate of crates.txt, and those of them that it stands on."""
    lines = (line.split("#", 1)[0].strip() for line in (TOP / "crates.txt").read_text().splitlines())
    pairs = [line.partition(":") for line in lines if line]
    needs = {head.split()[0]: set(rest.split()) for head, _, rest in pairs}
    return {crate: names & needs.keys() for crate, names in needs.items()}


def mapped():
    """The same of the table whose first column is 'crate' and whose last one is 'stands on'."""
    found, inside = {}, False
    for line in (TOP / "docs/MAP.md").read_text().splitlines():
        cells = [cell.strip().strip("`") for cell in line.strip().strip("|").split("|")]
        if not line.startswith("|"):
            inside = False
        elif (cells[0], cells[-1]) == ("crate", "stands on"):
            inside = True
        elif inside and set(cells[0]) - set("-: "):
            found[cells[0]] = {name.strip("`") for name in cells[-1].replace(",", " ").split()}
    return found


def run():
    """Every crate stands in both, on the same crates."""
    wanted, came = listed(), mapped()
    for crate in sorted(wanted.keys() | came.keys()):
        row, needs = (sorted(it[crate]) if crate in it else None for it in (came, wanted))
        tell("docs/MAP.md", [(f"what {crate} stands on", row, needs)])
