"""How near contracts and theorems are to definitions: 0 what they name, 1 what that cites, and so on.

`does`, which has an equation for each call, is read by the equation of the call that a contract is about. A type of
data, as `Group`, is near to everything and says nothing: it is passed over.
"""
import re

import believed

# Definitions with an equation for each case, which is the constructor in the first pattern that has one.
CASES = ("rules/specs/Panels.antt", "call_of"), ("rules/specs/Calls.antt", "does"), ("windows/specs/View.antt", "ruled")
CALL, WRITE = ("rules/specs/Calls.antt", "Call"), ("rules/specs/Panels.antt", "Write")
# What is about all calls: a contract is not about it, and of a statement it is not opened.
WHOLE = [(CALL[0], name) for name in ("Call", "Made", "run", "after", "by_rule")]


class Nearness:
    def __init__(self, specs, files, lines, promises):
        self.specs, self.files, self.lines, self.promises = specs, files, lines, promises
        self.bodies = {file: self.bodies_of(file) for file in lines}
        self.cited = {}
        for file, spec in specs.files.items():
            for name in spec.definitions:
                self.cited[file, name] = self.cites((file, name))
        # Who cites each definition.
        self.users = {}
        for user, cited in self.cited.items():
            for one in cited:
                self.users.setdefault(one, []).append(user)

    def bodies_of(self, file):
        """The text of each definition."""
        found, name = {}, ""
        for number, line in enumerate(self.files[f"crates/{file}"].splitlines(), 1):
            name = self.lines[file].get(number, name)
            found[name] = found.get(name, "") + line + "\n"
        return found

    def cites(self, definition):
        file, name = definition
        names, body = self.specs.names[file], self.bodies[file][name]
        words = self.specs.files[file].definitions[name].words
        words = {word for word in words | believed.prefixes(words) if word in names}
        # A field may have the name of a definition: where it is declared or set, it is none.
        fields = set(re.findall(r"^  pub (\S+) :", body, re.M))
        for word in set(re.findall(r"(?:^ +|[{;] )(\w+) = ", body, re.M)).intersection(words):
            set_here = re.findall(rf"(?:^ +|[{{;] ){word} = ", body, re.M)
            if len(re.findall(rf"(?<![\w.]){word}\b", body)) == len(set_here):
                fields.add(word)
        return sorted({names[word] for word in words - fields} - {definition})

    def is_data(self, definition):
        """A type without arguments that is no statement; and a definition of CASES, which is about several calls."""
        head = self.bodies[definition[0]][definition[1]].partition("\n")[0]
        is_type = re.fullmatch(r"(?:pub )?(?:record|data) \S+ : Type 0 where", head)
        return definition in CASES or bool(is_type) and definition not in self.promises

    def cases(self, definition):
        """The equations of a definition of CASES: constructor, words of the right side, and what they name."""
        file, name = definition
        for line in self.files.get(f"crates/{file}", "").splitlines():
            left, sign, right = line.partition(" = ")
            if sign and left.startswith(name + " "):
                words, names = re.findall(r"[\w.]+", right), self.specs.names[file]
                makers = re.findall(r"\b(?:[A-Z]\w+|fill|blit|mark)\b", left)
                last = {word.rpartition(".")[2] for word in words}
                yield makers[0], last, {names[word] for word in words if word in names}

    def spread(self, roots, words, whole):
        """What is reached, each with its distance; `words` has the constructors that the contract names."""
        found = {root: 0 for root in roots if whole or root not in WHOLE}
        waiting, done = list(found), set()
        while waiting:
            for definition in waiting:
                for cited in [] if definition in CASES or definition in WHOLE else self.cited.get(definition, ()):
                    if cited not in found and cited not in believed.OPAQUE and (whole or cited not in WHOLE):
                        found[cited] = found[definition] + (cited not in CASES)
                        waiting.append(cited)
            waiting = []
            for definition in [case for case in CASES if case in found]:
                for maker, right, cited in self.cases(definition):
                    if maker in words and (definition, maker) not in done:
                        done.add((definition, maker))
                        words = words | right
                        waiting += [one for one in cited if one not in found and one not in WHOLE]
            found.update(dict.fromkeys(waiting, 0))
        return found

    def of_contract(self, roots, words):
        """Also the calls that the records named by a contract are about: `MeetsMark` is about a mark."""
        words = set(words)
        for file, name in roots:
            spec = self.specs.files.get(file)
            if spec and name in spec.definitions and name not in spec.makers.values() and (file, name) not in CASES:
                names = self.specs.names[file]
                words |= {word for word in spec.definitions[name].words if names.get(word) in (CALL, WRITE)}
        return self.spread([root for root in sorted(roots) if root not in believed.OPAQUE], words, False)

    def of_statement(self, statement):
        return self.spread([statement], set(), True)


def nearest(table, definition):
    """The names of a table that are nearest to a definition, and how near they are."""
    away = {name: near[definition] for name, near in table.items() if definition in near}
    least = min(away.values(), default=0)
    return [name for name in away if away[name] == least], least
