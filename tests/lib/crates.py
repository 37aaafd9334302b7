"""The crates of the repository, as crates.txt lists them."""


def libraries_of(file):
    """The libraries that each crate of a crates.txt names, its own and the kit's, in the order of the file."""
    with open(file) as text:
        lines = [line.partition("#")[0].partition(":") for line in text]
    return {name.strip(): words.split() for name, colon, words in lines if colon}


def all_below(used, name):
    """The repository's libraries that a crate uses, and those that they use."""
    own = [it for it in used.get(name, []) if it in used]
    return {*own, *(below for it in own for below in all_below(used, it))}
