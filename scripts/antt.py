"""What the scripts read of the crates: crates.txt, the files of src/ and specs/, and the definitions with their comments and what they cite."""
import os
import re

TOP = os.path.dirname(os.path.dirname(os.path.realpath(__file__)))
NAME = re.compile(r"[A-Za-z_][\w'-]*")
# a word that is no field, and the word after its point, if it has one
WORD = re.compile(r"(?<![\w'.])([A-Za-z_][\w'-]*)(?:\.([A-Za-z_][\w'-]*))?")
USE = re.compile(r"\buse Rattle\.(\w+)\.specs\.([\w.]+?)(?:\.\{([^}]*)\}| as (\w+)|\.([\w'-]+);)")
# the first line of a definition
DEFINES = re.compile(r"(?:\w+ )?pub (?P<kind>record |data )?(?P<name>[A-Za-z_][\w'-]*) .*:")


def text_of(path):
    """The text of a file."""
    with open(path, encoding="utf-8") as file:
        return file.read()


def crates():
    """The crates of crates.txt, in its order."""
    lines = [line.split("#")[0].strip() for line in text_of(f"{TOP}/crates.txt").splitlines()]
    return [re.split(r"[ :]", line)[0] for line in lines if line]


def subjects():
    """The headings of crates.txt, in its order, each with the crates below it."""
    found = {}
    for line in text_of(f"{TOP}/crates.txt").splitlines():
        if heading := re.fullmatch(r"# (\w[\w ]*)", line):
            at = found.setdefault(heading[1], [])
        elif line := line.split("#")[0].strip():
            at.append(re.split(r"[ :]", line)[0])
    return found


def files(kind, ending):
    """The files of each crate's folder of this kind, as crate, name and path."""
    for crate in crates():
        folder = f"{TOP}/crates/{crate}/{kind}"
        for name in sorted(os.listdir(folder)) if os.path.isdir(folder) else []:
            if name.endswith(ending):
                yield crate, name, f"{folder}/{name}"


def spec_files():
    """The files of definitions, as crate and file."""
    return [(crate, name.removesuffix(".antt")) for crate, name, _ in files("specs", ".antt") if name != "Lib.antt"]


def is_test(folder, name):
    """Whether a file of src/ is compiled for tests alone."""
    return any(
        re.search(rf"#\[cfg\(test\)\]\s*(?:pub(?:\([^)]*\))? )?mod {name};", text_of(f"{folder}/{root}"))
        for root in os.listdir(folder)
        if root.endswith(".rt")
    )


def braced(text, start):
    """The text between the brace at start and the one that closes it."""
    depth = 0
    for at in range(start, len(text)):
        depth += {"{": 1, "}": -1}.get(text[at], 0)
        if depth == 0:
            return text[start + 1 : at]
    return text[start + 1 :]


def citer(text, own=()):
    """A function that tells which definitions a part of this text cites, each as crate, file and name: imported ones, or its own."""
    homes = {it[2]: {it} for it in own}
    aliases = {}
    for crate, file, names, alias, name in USE.findall(text):
        if alias:
            aliases[alias] = crate, file
        for word in NAME.findall(names or name):
            homes.setdefault(word, set()).add((crate, file, word))

    def cited(part):
        words = WORD.findall(part)
        return set().union(*({(*aliases[word], after)} if word in aliases else homes.get(word, set()) for word, after in words))

    return cited


def defined(crate, file):
    """The head of a file of definitions; and by the name of each of them the comment over it, and what it cites."""
    text = text_of(f"{TOP}/crates/{crate}/specs/{file}.antt")
    head = re.match(r"(?:--.*\n)*", text)[0]
    comments, bodies, waiting, name = {}, {}, [], None
    for line in text[len(head) :].splitlines():
        begins = DEFINES.match(line)
        if begins:
            name = begins["name"]
            comments[name], bodies[name] = said(waiting), []
        if line.startswith("--"):
            waiting.append(line)
        else:
            waiting = []
            if name:
                # the name of a record's field cites nothing
                bodies[name].append(re.sub(r"^  pub [\w'-]+ :|--.*", "", line))
    own = [(crate, file, name) for name in comments]
    cited = citer(text, own)
    return said(head.splitlines()), {it: (comments[it[2]], cited("\n".join(bodies[it[2]]))) for it in own}


def said(lines):
    """The text of the lines of a comment."""
    return " ".join(line[2:].strip() for line in lines)


def names_of(crate, file):
    """The names that a file of definitions defines."""
    text = text_of(f"{TOP}/crates/{crate}/specs/{file}.antt")
    return [begins["name"] for begins in map(DEFINES.match, text.split("\n")) if begins]
