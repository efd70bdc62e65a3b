"""Finds the definitions under the promise that no worked case holds, and the premises of the promise that no worked case builds.

A worked case is a definition of a file specs/Worked*.antt, or below specs/Worked*/, that a contract names: a theorem on small
values that come from outside. A case holds the definitions that it names, those that these name, and so on. It holds nothing
below a statement about any disk (OF_A_DISK), because a case that names such a statement says nothing about it. The worked run
(`life_app/specs/WorkedRun`) names whole runs, which rest on everything else; so it holds only what it names itself, and what it
builds. Each definition under a clause of a public function of `life_app` and `life_cli` must be held in this way, or be listed
below with the reason; and no definition that is held may be listed.

A premise of such a clause, and each statement of these two crates under a premise, must be built: a case shows it, in a part that
isn't a choice, by its name or in a field of what the case builds (`statements`). A premise that nothing builds might never hold,
and then the law under it says nothing. The same is true of a case if one of its parts, or the function that shows it, stands
under a hypothesis that no case builds (`conditions`, `plain_data`): such a case is conditional, builds nothing, and must be
listed below with the reason. tests/repository/test_cases.py checks this.
"""
from __future__ import annotations

import copy
import re
from dataclasses import replace
from pathlib import Path

from . import conditions, plain_data, specs, statements
from .source import CRATES, Function, Source, parsed

HOME = ("life_app.specs.", "life_cli.specs.")
WORKED = re.compile(r"\.specs\.(?:\w+\.)*Worked\w*\.")

# Statements about any disk. A case that names these says nothing about the definitions below them.
OF_A_DISK = set("""
    outside_io.specs.Disks.Elapses outside_io.specs.Disks.Looks outside_io.specs.Disks.Only
    outside_io.specs.Shelves.Files posting_journal.specs.Opening.IsSynced posting_journal.specs.Runs.IsSafe
    posting_journal.specs.Runs.LooksOn office_state.specs.Images.IsLeftBy office_state.specs.Images.IsLeftAlone
    office_state.specs.Images.HoldsSince office_state.specs.Images.HasKept office_state.specs.Images.KeepsAccepted""".split())

# The premises that a case builds by one clause of a definition that has several; this module does not read clauses.
BUILT_BY_A_CLAUSE = {
    "present_value.specs.Reserve.Encloses": "the printed row of WorkedRun.Enclosed has bounds: the first clause of `IsWorthBy`",
}

# The definitions that are never held by a worked case, by the reason.
EXCEPTIONS = {
    "How a trial load ends: no worked run is one. It puts together what is held apart, and says no value of its own.":
        "trial_load.specs.Loading.IsLoadOf",
    "The devices of a contract, as one value.": """
        program_endings.specs.Writing.between program_endings.specs.Writing.input_between
        program_endings.specs.Writing.shelf_between""",
}

# These state something of each value, or of the value that they find, by the statement that they are given.
TAKE_STATEMENTS = {"AllZip", "HoldsStill", "IsToldText", "JournalIs", "NeedsBasis", "ShelfHas"}

EXCEPTED = {key for names in EXCEPTIONS.values() for key in names.split()}

# The conditional cases, by the reason: which hypotheses, and the cases that stand under them.
CONDITIONAL = {
    "What a mode's record means over any disk, which it leaves open.": (
        r"\w+ D\b.*|D\.honest new|D\.reads [\w.]+ ≡ (\[\]|codes \"hello\")|E\.may_leave disks\.kept image", """
        life_app.specs.Worked.BothRefuseHello program_endings.specs.Worked.RefusesHello
        stating_modes.specs.Worked.KeepsAnEmptyFile stating_modes.specs.Worked.KnowsNobody
        stating_modes.specs.Worked.RefusesHelloByTwo stating_modes.specs.Worked.SavesNothing
        stating_modes.specs.Worked.StatesAnEmptyFile valuing_modes.specs.Worked.IsAheadOfAnEmptyFile
        valuing_modes.specs.Worked.ValuesAnEmptyFile valuing_modes.specs.WorkedProjections.ProjectsAnEmptyFile"""),
    "Of words as the system hands them, of which no value is built: `AreWords` is of their bytes.": (
        r"map string_bytes words ≡ .*", " ".join(f"life_args.specs.Worked.{case}" for case in """
        CheckpointWords LoadWords MeasureNearWords MeasureWords NearWords ProjectNearWords ProjectWords RunWords StateWords
        ValueWords""".split())),
    "What follows of any list of commands, by its length and by what the rules say.": (
        r"(length|judge) commands .*≡ .*", """
        policy_machine.specs.Worked.Postings.FullAtTheLimit policy_machine.specs.Worked.Postings.NoOpeningPastTheLimit
        policy_machine.specs.Worked.Postings.NotFullBefore policy_machine.specs.Worked.Postings.RulesBeforeFull"""),
    "A length of millions, of which no list is spelled.": (r"length \w+ ≡ \d{7,}", """
        script_run.specs.Worked.OneByteTooMany valuing_modes.specs.Worked.Files.LongBases
        valuing_modes.specs.Worked.Files.LongTables"""),
}


class Texts:
    """All definitions of specs/, with what each of them shows and asks for and what its names mean; and the code."""

    def __init__(self) -> None:
        self.definitions, self.imports = specs.read_specs()
        self.code = {path: path.read_text(encoding="utf-8") for path in sorted(CRATES.glob("*/src/**/*.rt"))}
        self.imports |= {str(path): specs.imports_of(text) for path, text in self.code.items()}
        self.read()

    def read(self) -> None:
        self.is_data = plain_data.PlainData(self.definitions, self.imports).holds
        self.meanings: dict[tuple[str, str], conditions.Meaning | None] = {}
        self.sides: dict[str, statements.Sides] = {}

    def source(self, path: Path) -> Source:
        return parsed(path.relative_to(CRATES).parts[0], path, self.code[path])

    def changed(self, path: Path, text: str) -> Texts:
        other = copy.copy(self)
        if path in self.code:
            other.code = self.code | {path: text}
            other.imports = self.imports | {str(path): specs.imports_of(text)}
        else:
            place = specs.place_of(path)
            fresh = specs.definitions_in(place, text)
            other.imports = self.imports | {place: specs.imports_of(text)}
            other.definitions = {key: one for key, one in self.definitions.items() if one.place != place} | fresh
        other.read()
        return other

    def meant(self, words: set[str], imports: dict[str, str], place: str = "") -> set[str]:
        found = {imports[word] for word in words if word in imports} | {f"{place}.{word}" for word in words}
        return found & self.definitions.keys()

    def meaning(self, word: str, place: str) -> conditions.Meaning | None:
        """Returns what a name of a worked file means in this file: its parameters, its clauses, and its own file."""
        if (word, place) not in self.meanings:
            self.meanings[word, place] = self.meaning_of(word, place)
        return self.meanings[word, place]

    def meaning_of(self, word: str, place: str) -> conditions.Meaning | None:
        key = self.imports[place].get(word, f"{place}.{word}")
        if key not in self.definitions or not WORKED.search(key):
            return None
        one = self.definitions[key]
        lines = statements.bare("\n".join(one.lines)).splitlines()
        if re.match(r"\s*pub record", lines[0]):
            bound = conditions.binders(lines[0].partition(one.name)[2].rpartition(" : ")[0])
            fields = " × ".join(f"({field})" for field in statements.fields_of(lines))
            return [name for names, _ in bound for name in names], [fields], one.place
        head = next((line for line in lines if re.match(r"\s*" + re.escape(one.name) + r"\b(?!\s*:).* =", line)), "")
        given = [name for name in head.partition(" =")[0].split()[1:] if not name.startswith("{")]
        is_type = re.search(r"Type \d+\s*$", lines[0].partition(" : ")[2]) and head
        return (given, statements.clauses_of(one.name, lines), one.place) if is_type else None

    def as_read(self, part: conditions.Part) -> conditions.Part:
        """Adds a hypothesis to a part that begins with a name whose meaning isn't read here: a name of a worked file, or
        another name that is given a statement and may do anything with it."""
        word = "" if conditions.sides(part.text)[0] else conditions.items(part.text)[0]
        unread = word[:1].isupper() and any(map(WORKED.search, self.keys_of(word, part.places))) or (
            word not in TAKE_STATEMENTS and self.gives_statement(part.text, part.places))
        return replace(part, supposed=part.supposed + (f"what {word} says",)) if unread else part

    def gives_statement(self, text: str, places: frozenset[str]) -> bool:
        """Returns whether something in brackets begins with the name of a statement, also after a `λ`."""
        for group in statements.groups(text)[1]:
            said = re.split(r"[×→⊎:]|λ[^.]*\.\s", group)
            if any(self.is_statement(conditions.items(one)[0], places) for one in said if one.strip()):
                return True
            if self.gives_statement(group, places):
                return True
        return False

    def keys_of(self, word: str, places: frozenset[str]) -> set[str]:
        return {self.imports[place].get(word, f"{place}.{word}") for place in places} & self.definitions.keys()

    def is_statement(self, word: str, places: frozenset[str]) -> bool:
        return word[:1].isupper() and bool(self.keys_of(word, places)) and not self.is_data(word, places)

    def side(self, key: str, side: str) -> set[str]:
        """Returns the definitions that this one certainly shows (`sure`), perhaps shows (`choice`), or asks for (`asked`)."""
        place = self.definitions[key].place
        if key not in self.sides:
            self.sides[key] = statements.sides_of(self.definitions[key])
        return self.meant(getattr(self.sides[key], side), self.imports[place], place)

    def under(self, roots: set[str], less: set[str]) -> set[str]:
        return specs.reach(roots, self.definitions, self.imports, less)[0]

    def statements(self) -> set[str]:
        """Returns the definitions that state something and aren't data: an equation, an order, a choice, or another statement."""
        says = {key for key, one in self.definitions.items() if re.search("[≡≢≤<⊥⊎⊤]|Unit {0}", statements.body_of(one))}
        size = 0
        while size < len(says):
            size = len(says)
            says |= {key for key in self.definitions if says & (self.side(key, "sure") | self.side(key, "choice"))}
        return {key for key in says if self.definitions[key].name[0].isupper()}


def contracts(texts: Texts) -> tuple[set[str], set[str]]:
    """Returns the definitions that public clauses of the two crates name, and those under them that are asked for."""
    named, open_names = set(), []
    for crate in (prefix.split(".")[0] for prefix in HOME):
        for path in texts.code:
            if not path.is_relative_to(CRATES / crate) or path.name.startswith("worked"):
                continue
            imports = texts.imports[str(path)]
            for shown, clause in (said for _, clauses in contracts_in(texts.source(path)) for said in clauses):
                sides = statements.Sides().read(clause, shown)
                named |= texts.meant(set(specs.WORD.findall(clause)), imports)
                open_names += [(key, True) for key in texts.meant(sides.sure | sides.choice, imports)]
                open_names += [(key, False) for key in texts.meant(sides.asked, imports)]
    return named, asked_for(texts, open_names)


def asked_for(texts: Texts, open_names: list[tuple[str, bool]]) -> set[str]:
    """Returns what is asked for, followed through the statements of the two crates; of other crates only the first statement
    is taken."""
    seen = set()
    while open_names:
        one = open_names.pop()
        if one in seen:
            continue
        seen.add(one)
        key, shown = one
        if key.startswith(HOME):
            open_names += [(under, shown) for under in texts.side(key, "sure") | texts.side(key, "choice")]
            open_names += [(under, not shown) for under in texts.side(key, "asked")]
    says = texts.statements()
    return {key for key, shown in seen if not shown and key in says}


def parts_of(texts: Texts) -> list[conditions.Part]:
    """Returns what the worked cases show: the definitions of worked files that clauses name, each under what its function asks
    for."""
    parts: list[conditions.Part] = []
    for path in texts.code:
        imports = texts.imports[str(path)]
        for one, clauses in contracts_in(texts.source(path)) if any(map(WORKED.search, imports.values())) else []:
            asked = given_to(one, texts.source(path)) + tuple(conditions.bare(clause) for shown, clause in clauses if not shown)
            for word, clause in cases_in(texts, clauses, imports):
                within = conditions.Part(imports[word], "", asked, frozenset(), frozenset([str(path)]))
                reader = conditions.Reader(imports[word], texts.meaning, texts.is_data)
                reader.read(re.sub(r"\b([DE])\.Disk\b", r"\1", clause), within)
                parts += (texts.as_read(part) for part in reader.parts)
                if word not in reader.heads and (word[0].isupper() or texts.meaning(word, str(path))):
                    parts.append(replace(within, supposed=(f"{word} by itself",)))
    return parts


def contracts_in(source: Source) -> list[tuple[Function, list[tuple[bool, str]]]]:
    """Returns the public functions of a file, each with its clauses: whether each clause is shown, and what it says."""
    return [(one, [(clause.side == "ensures", statements.bare(clause.text)) for clause in one.clauses])
            for one in source.functions if one.is_public]


def given_to(one: Function, source: Source) -> tuple[str, ...]:
    """Returns what a function is given, without parameters that are devices: a caller who can't give it is shown nothing. For
    a function of a type the whole head is returned, because the type may have parameters, too."""
    said = " ".join(one.said.split())
    found = re.fullmatch(r"fn \w+(?:<([^()]*)>)?\(\)( -> [^()]*)?", said)
    if not found or one.kind:
        return (said,)
    return tuple(given for given in (found[1] or "").split(", ") if given and not is_device(given, source))


def is_device(given: str, source: Source) -> bool:
    """Returns whether this is a parameter bound by a trait of devices that the file imports from the crate of devices."""
    name, _, bound = given.partition(": ")
    return name in plain_data.PARAMETERS and any(one.first == "outside_io" and one.local == bound for one in source.uses)


def cases_in(texts: Texts, clauses: list[tuple[bool, str]], imports: dict[str, str]) -> list[tuple[str, str]]:
    """Returns the names of worked cases that clauses show, each with its clause."""
    return [(word, clause) for shown, clause in clauses if shown for word in sorted(set(specs.WORD.findall(clause)))
            if word in imports and WORKED.search(imports[word]) and imports[word] in texts.definitions]


def built_by(texts: Texts, shown: list[conditions.Part]) -> set[str]:
    """Returns what these parts certainly show, and what that certainly shows."""
    built, open_names = set(), {part.case for part in shown}
    for part in shown:
        words = set() if part.text.endswith("→ ⊥") else statements.Sides().read(part.text).sure
        open_names |= set().union(*(texts.meant(words, texts.imports[place], place) for place in part.places))
    while open_names:
        key = open_names.pop()
        built.add(key)
        if not WORKED.search(key):
            open_names |= texts.side(key, "sure") - built
    return built


def held_by(texts: Texts, cases: set[str], built: set[str]) -> set[str]:
    whole = {key for key in texts.under(cases, set()) if key.startswith(HOME) and re.search(r"\.specs\.Worked\w", key)}
    named = set().union(*(specs.named_in(texts.definitions[key], texts.imports, texts.definitions) for key in whole))
    asked = set().union(*(texts.side(key, "asked") for key in whole))
    plain = {case for case in cases if not case.startswith(HOME) or ".Worked." in case}
    return texts.under(plain, OF_A_DISK) | built | (named - asked)


def wrong_conditions(shown: list[conditions.Part], others: list[conditions.Part]) -> tuple[list[str], set[str]]:
    """Returns what is wrong about cases under hypotheses that no case builds, and all these cases."""
    listed = {case: pattern for pattern, cases in CONDITIONAL.values() for case in cases.split()}
    shapes = conditions.by_shape(shown)
    found = sorted({(part.case, one) for part in others for one in conditions.unmet(part, shapes)})
    wrong = [f"{case} is conditional: no case builds {one}" for case, one in found
             if case not in listed or not re.fullmatch(listed[case], one)]
    cases = {case for case, _ in found}
    wrong += [f"{case} isn't conditional, or gone, and needs no reason" for case in sorted(listed.keys() - cases)]
    return wrong, cases


def wrong_data(texts: Texts) -> list[str]:
    """Returns what is wrong about types of the code, each of which is taken for data."""
    return [f"no value can be had of {one}, so it is no data" for one in plain_data.without_values(texts.code)]


def empty_parts(text: str) -> list[str]:
    """Returns the parts of a statement that say nothing: an equation or an order of a term with itself."""
    found: list[str] = []
    for side in statements.split(statements.split(conditions.bare(text), "→")[-1], "⊎"):
        for factor in statements.split(side, "×"):
            part = conditions.bare(factor)
            bound = [kind for _, kind in conditions.binders(factor)]
            if bound or any(len(statements.split(part, mark)) > 1 for mark in "→×⊎"):
                found += (empty for kind in bound or [part] for empty in empty_parts(kind))
                continue
            sign, terms = conditions.sides(part)
            if sign in ("≡", "≤") and len(set(terms)) == 1:
                found.append(part)
    return found


def wrong_statements(texts: Texts, keys: set[str]) -> list[str]:
    wrong = []
    for key in sorted(keys):
        one = texts.definitions[key]
        lines = statements.bare("\n".join(one.lines)).splitlines()
        is_record = re.match(r"\s*(pub )?record", lines[0])
        for said in statements.fields_of(lines) if is_record else statements.clauses_of(one.name, lines):
            wrong += [f"{key} says nothing where it says {part}" for part in empty_parts(said)]
    return wrong


class Found:
    """What is wrong in these texts, and what was counted."""

    def __init__(self, texts: Texts) -> None:
        parts = parts_of(texts)
        shown, others = conditions.met(parts)
        named, self.premises = contracts(texts)
        self.promise = {key for key in texts.under(named, set()) if ".Worked" not in key}
        self.cases, built = {part.case for part in parts}, built_by(texts, shown)
        self.bare = self.promise - held_by(texts, self.cases, built)
        self.wrong = [f"no worked case rests on {key}" for key in sorted(self.bare - EXCEPTED)]
        self.wrong += [f"{key} is held, or gone, and needs no exception" for key in sorted(EXCEPTED - self.bare)]
        unbuilt = self.premises - built
        self.wrong += [f"no worked case builds the premise {key}" for key in sorted(unbuilt - BUILT_BY_A_CLAUSE.keys())]
        built_otherwise = BUILT_BY_A_CLAUSE.keys() - unbuilt
        self.wrong += [f"{key} is built, or no premise, and needs no reason" for key in sorted(built_otherwise)]
        wrong, self.conditional = wrong_conditions(shown, others)
        self.wrong += wrong + wrong_data(texts) + wrong_statements(texts, self.promise | self.cases)
        if len(EXCEPTED) >= 20:
            self.wrong.append(f"{len(EXCEPTED)} exceptions are too many")
