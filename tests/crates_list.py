"""crates.txt, as the tests read it."""


def crates_list(path):
    """Each crate, with the set of those that its line names."""
    uses = {}
    with open(path, encoding="utf-8") as file:
        for line in file:
            line = line.split("#")[0]
            if ":" in line:
                name, below = line.split(":")
                # behind the name may stand what kind of crate it is
                uses[name.split()[0]] = set(below.split())
    return uses
