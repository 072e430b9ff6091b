"""Which definitions a mistake is about: those that quote a document and are nearest to what it edits."""


def edited(repository, path, line):
    """The definition or the function that a line of a file belongs to."""
    file = path.removeprefix("crates/")
    if file in repository.lines:
        above = [number for number in repository.lines[file] if number <= line]
        return ((file, repository.lines[file][max(above)]), "") if above else (None, "")
    above = [(f.line, name) for name, f in repository.functions.items() if f.module.file == path and f.line <= line]
    return None, max(above)[1] if above else ""


def citing(repository, definition, quoted):
    """A definition that is quoted beside, or else the nearest ones that cite it and are."""
    users = repository.nearness.users
    seen, now = {definition}, [definition]
    while now:
        hits = {one for one in now if one in quoted}
        if hits:
            return hits
        now = [user for one in now for user in users.get(one, ()) if user not in seen]
        seen.update(now)
    return set()


def promised(repository, function, quoted):
    """What the contract of a function names or is nearest to; rectangles only where the function is about them."""
    away = {one: far for one, far in repository.near[function].items() if one in quoted}
    crate = function.split("::")[0]
    away = {one: far for one, far in away.items() if crate == "geom" or not one[0].startswith("geom/")}
    least = min(away.values(), default=0)
    return {one for one, far in away.items() if far == least}


def about(repository, quoted):
    """The definitions that each mistake is about; `quoted` are those that stand beside a sentence."""
    quoted = {one for one in quoted if not repository.nearness.is_data(one)}
    found = {}
    for name, (_, places) in repository.mistakes.items():
        found[name] = set()
        for path, line in places:
            definition, function = edited(repository, path, line)
            if definition:
                found[name] |= citing(repository, definition, quoted)
            elif function:
                found[name] |= promised(repository, function, quoted)
    return found
