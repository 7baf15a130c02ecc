"""Which words of a term are names from outside it: those that no binder of the term itself brings."""
from shared.antt import CLOSERS, NUMERAL, OPENERS, Word

# What is no name.
PUNCTUATION = {"→", "×", "↦", "=", "|", ":", "[", "]", "(", ")", "{", "}", ";", ",", ".", "@", "λ", "let", "in", "elim", "as", "record", "Type", "_", "where",
               "data", "unfolding", "unfold", "∀", "𝕀", "?", "⊔", "*", "←"}


class Scope:
    """A reader of terms. `is_constructor` tells whether a name of a pattern is one that is matched and not bound. `free` has the words
    that are not bound where they stand."""

    def __init__(self, is_constructor):
        self.is_constructor = is_constructor
        self.free = []
        self.locals = []

    def term(self, words, bound):
        """Reads a term, or what stands between two brackets."""
        at, bound = 0, set(bound)
        while at < len(words):
            word = words[at]
            if word.text == "λ":
                stop = first(words, at + 1, ".")
                bound |= self.binders(words[at + 1 : stop], bound)
                at = stop + 1
            elif word.text == "let":
                at = self.let(words, at, bound)
            elif word.text in OPENERS:
                stop = closer(words, at)
                if stop + 1 < len(words) and words[stop + 1].text == "←":
                    bound |= self.binders(words[at : stop + 1], bound)
                else:
                    bound |= self.group(words, at, stop, bound)
                at = stop + 1
            elif at + 1 < len(words) and words[at + 1].text == "←":
                bound.add(word.text)
                at += 2
            elif word.text == "." and at + 1 < len(words) and words[at + 1].start == word.end and words[at + 1].kind == "name":
                at += 2
            else:
                self.name(word, bound)
                at += 1

    def name(self, word, bound):
        """Notes a name that is not bound here."""
        if word.kind == "quote":
            self.free.append(word)
        elif word.kind == "name" and word.text not in PUNCTUATION and not NUMERAL.fullmatch(word.parts[0]):
            (self.locals if word.parts[0] in bound else self.free).append(word)

    def group(self, words, at, stop, bound):
        """Reads what stands between brackets. Gives the names that it binds for what follows."""
        inner = words[at + 1 : stop]
        opener = words[at].text
        if opener == "[":
            for part in split(inner, "|"):
                self.case(part, bound)
            return set()
        if opener == "{" and len(inner) > 1 and inner[1].text == "=":
            for part in split(inner, ";", ","):
                self.term(part[2:], bound)
            return set()
        colon = first(inner, 0, ":")
        if 0 < colon < len(inner) and all(word.kind == "name" for word in inner[:colon]) and inner[0].text not in ("let", "λ", "elim"):
            return self.telescope(inner, bound)
        for part in split(inner, ",", ";"):
            self.term(part, bound)
        return set()

    def telescope(self, inner, bound):
        """Reads `x y : A`, or the fields of a type of records. Gives the names that are bound."""
        names = set()
        for part in split(inner, ";"):
            colon = first(part, 0, ":")
            self.term(part[colon + 1 :], bound | names)
            names |= {word.text for word in part[:colon]}
        return names

    def binders(self, words, bound):
        """What stands between a `λ` and its dot, or the patterns of a clause: the names that they bind."""
        names, at = set(), 0
        while at < len(words):
            word = words[at]
            if word.text in OPENERS:
                stop = closer(words, at)
                inner = words[at + 1 : stop]
                colon = first(inner, 0, ":")
                if colon < len(inner):
                    self.term(inner[colon + 1 :], bound | names)
                    inner = inner[:colon]
                for part in split(inner, ",", ";"):
                    labelled = word.text == "{" and len(part) > 1 and part[1].text == "="
                    names |= self.binders(part[2:] if labelled else part, bound | names)
                at = stop
            elif word.kind == "name" and word.text not in PUNCTUATION and not NUMERAL.fullmatch(word.parts[0]):
                if len(word.parts) > 1 or self.is_constructor(word.text):
                    self.free.append(word)
                else:
                    names.add(word.text)
            at += 1
        return names

    def case(self, words, bound):
        """A case of an `elim`: its pattern and its term; or a term in such brackets."""
        arrow = first(words, 0, "↦")
        if arrow < len(words):
            names = self.binders([word for word in words[:arrow] if word.text != "→"], bound)
            self.term(words[arrow + 1 :], bound | names)
        else:
            self.term(words, bound)

    def let(self, words, at, bound):
        """A `let`: what it binds is known to the rest. Gives the place behind its `in`."""
        equals, stop = first(words, at + 1, "="), ends_let(words, at)
        pattern = words[at + 1 : equals]
        colon = first(pattern, 0, ":")
        self.term(pattern[colon + 1 :], bound)
        self.term(words[equals + 1 : stop], bound)
        bound |= self.binders(pattern[:colon], bound)
        return stop + 1

    def clause(self, words, names, bound):
        """A clause of a definition: its patterns and its term, or a line of its own below the signature."""
        equals = first(words, 0, "=")
        left = [word for word in words[:equals] if word.text not in names]
        bound = set(bound) | self.binders(left, bound)
        self.term(words[equals + 1 :], bound)


def first(words, at, *texts):
    """The place of the first of these texts that stands in no brackets, or the end."""
    depth = 0
    for place in range(at, len(words)):
        text = words[place].text
        if depth == 0 and text in texts:
            return place
        if text in OPENERS:
            depth += 1
        elif text in CLOSERS:
            depth -= 1
    return len(words)


def ends_let(words, at):
    """The place of the `in` of a `let`."""
    depth = nested = 0
    for place in range(at + 1, len(words)):
        text = words[place].text
        if text in OPENERS:
            depth += 1
        elif text in CLOSERS:
            depth -= 1
        elif depth == 0 and text in ("let", "unfold"):
            nested += 1
        elif depth == 0 and text == "in":
            if nested == 0:
                return place
            nested -= 1
    return len(words)


def closer(words, at):
    """The place of the bracket that closes the one at a place."""
    depth = 0
    for place in range(at, len(words)):
        if words[place].text in OPENERS:
            depth += 1
        elif words[place].text in CLOSERS:
            depth -= 1
            if depth == 0:
                return place
    return len(words)


def split(words, *marks):
    """The parts between marks that stand in no brackets."""
    parts, since = [], 0
    while True:
        stop = first(words, since, *marks)
        if words[since:stop]:
            parts.append(words[since:stop])
        if stop >= len(words):
            return parts
        since = stop + 1
