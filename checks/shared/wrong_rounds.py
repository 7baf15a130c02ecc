"""Trying wrong bodies, those of different functions of a crate together: a function's proof rests on no other function's body."""
import re
import subprocess

from shared.wrong_edits import texts_of

SAID = re.compile(r"^fn \w+::(\S+): (.+)$", re.M)
VERDICT = re.compile(r"^logic=((?:not-)?proved)\b", re.M)


def check(folder, texts, changed, only=()):
    """Runs `rt check` in a crate's folder with changed texts in place of its own, of these functions or files alone if any are named."""
    words = ["rt", "check", "--jobs", "1", *(word for path in dict.fromkeys(only) for word in ("--only", path))]
    files = [file for file in texts if changed[file] != texts[file]]
    for file in files:
        (folder / file).write_text(changed[file])
    ran = subprocess.run(words, cwd=folder, stdin=subprocess.DEVNULL, stdout=subprocess.PIPE, stderr=subprocess.STDOUT, text=True, errors="replace")
    for file in files:
        (folder / file).write_text(texts[file])
    return ran.returncode, ran.stdout


def next_round(edits, texts):
    """As many of the edits as fit together, no two of which change one function, or functions of one name or of one cycle."""
    taken, chosen, now = set(), [], texts
    for edit in edits:
        sites = edit.sites(texts)
        marks = {mark for site in sites for mark in (site.name, site.cycle) if mark}
        changed, misfit = edit.applied(now)
        if sites and not misfit and not marks & taken:
            taken, now = taken | marks, changed
            chosen.append((edit, sites))
    return chosen, now


def check_sites(sites, folder, texts, changed):
    """What a check says of functions, by their paths: of these, or of all in their files where one is not found by its path."""
    status, said = check(folder, texts, changed, [site.path for site in sites])
    if status == 2:
        _, said = check(folder, texts, changed, [site.module for site in sites])
    return SAID.findall(said)


def is_by_its_own(why):
    """Whether what is said of a function tells that its own body is refused: one that calls a refused function may be right."""
    return "` did not prove `" in why or why.startswith(("no proof: ", "not proved")) and "it calls `" not in why


def said_of(site, said):
    """What is said of a function: of that of its path, else of the one in its file that has its name, if there is one alone."""
    at_path = [why for path, why in said if f"::{path}".endswith(f"::{site.path}")]
    in_file = [why for path, why in said if path.startswith(f"{site.module}::") and path.endswith(f"::{site.name}")]
    return at_path or (in_file if len(in_file) == 1 else [])


def why_refused(sites, said):
    """Why one of these functions is not proved, by its own body, or None."""
    return next((why for site in sites for why in said_of(site, said) if is_by_its_own(why)), None)


def try_round(edits, texts, folder):
    """Tries edits together. Gives why each that is refused is, by the edit."""
    chosen, changed = next_round(edits, texts)
    said = check_sites([site for _, sites in chosen for site in sites], folder, texts, changed) if chosen else []
    whys = {edit: why_refused(sites, said) for edit, sites in chosen}
    return {edit: why for edit, why in whys.items() if why}


def try_alone(edit, texts, folder):
    """Tries an edit over a check of the whole crate. Gives whether it is refused, and why or what else is said."""
    changed, misfit = edit.applied(texts)
    if misfit:
        return False, misfit
    _, said = check(folder, texts, changed)
    why = next((f"{path}: {why}" for path, why in SAID.findall(said) if is_by_its_own(why)), None)
    verdict = VERDICT.search(said)
    if verdict and verdict[1] == "proved":
        return False, "NOT REFUSED: the crate is still proved with this edit"
    return (True, why) if verdict and why else (False, "there is no verdict: " + said.strip().rpartition("\n")[2])


def try_edits(edits, folder):
    """Tries a crate's edits in its folder of a copy. Gives each with whether it is refused, and why or what else is said."""
    texts, left = texts_of(folder), list(edits)
    while left:
        refused = try_round(left, texts, folder)
        yield from ((edit, True, why) for edit, why in refused.items())
        left = [edit for edit in left if edit not in refused]
        if not refused:
            break
    for edit in left:
        yield (edit, *try_alone(edit, texts, folder))
