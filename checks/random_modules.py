"""Random modules for reference_frontend: write(SEED, COUNT, FOLDER) makes FOLDER/0000, FOLDER/0001, ...

Four sorts of module:
- typed:  declarations and bodies built by their types, so that (nearly) all are without errors;
- slips:  the same, but at each choice something wrong is taken with a small probability;
- poison: a typed one in which one or two declarations are spoilt, and all that uses them is left as it was;
- wild:   declarations and bodies from a handful of names, without regard to types;
- faults: one of the others with the text of a file damaged, or with a limit of the documents crossed.
"""
import os
import random
import re

PATHS = ["a.swift", "b.swift", "c.swift", "main.swift", "lib/a.swift", "lib/b.swift", "x-1.swift", "A+b.swift",
         "d/e/f.swift", "_z.swift", "B.swift", "lib.swift"]
BUILT_IN = ["Int", "String", "Bool"]


class Struct:
    def __init__(self, name, path):
        self.name, self.path, self.access = name, path, ""
        self.stored, self.computed, self.methods = [], [], []

    def own(self):
        return self.access.strip() in ("private", "fileprivate")


class Typed:
    """A module built by types. `slip` is the probability of something wrong at each choice."""

    def __init__(self, rng, slip):
        self.rng, self.slip = rng, slip
        self.paths = sorted(rng.sample(PATHS, rng.choice([1, 1, 2, 2, 3, 4, 5])))
        self.texts = {p: [] for p in self.paths}
        self.structs, self.aliases, self.globals, self.functions = [], [], [], []
        self.names, self.building = {}, []
        self.build()

    def oops(self, factor=1.0):
        return self.rng.random() < self.slip * factor

    def fresh(self, letters):
        if self.oops(0.7) and self.names:
            return self.rng.choice(sorted(self.names))
        while True:
            n = self.rng.choice(letters) + self.rng.choice(["", "", "1", "2", "_x", "Z"])
            if n not in self.names:
                self.names[n] = True
                return n
            letters = letters + letters[0].lower() + "qk"

    def access(self):
        return self.rng.choice(["", "", "", "public ", "internal ", "private ", "fileprivate "])

    # ---- types

    def visible(self, things, path):
        return [t for t in things if not t["own"] or t["path"] == path]

    def types(self, path, open_=False):
        """what a file can name; what only the file sees isn't named by what others see"""
        out = list(BUILT_IN)
        for s in self.structs:
            if s.path == path and not (open_ and s.own()) or not s.own():
                out.append(s)
        return out

    def type_name(self, t, path):
        if self.oops(0.4):
            return self.rng.choice(["Missing", "Int", "String", "Void"] + sorted(self.names))
        names = [t if isinstance(t, str) else t.name] * 3
        names += [a["name"] for a in self.visible(self.aliases, path) if a["type"] is t or a["type"] == t]
        return self.rng.choice(names)

    def pick(self, path, open_=False):
        return self.rng.choice(self.types(path, open_) + BUILT_IN)

    # ---- declarations

    def build(self):
        r = self.rng
        small = r.random() < 0.6
        for _ in range(r.randint(0, 2 if small else 4)):
            self.make_struct()
        for _ in range(r.randint(0, 1 if small else 3)):
            path, own = r.choice(self.paths), r.random() < 0.2
            t = self.pick(path, not own)
            a = dict(name=self.fresh("ABC"), type=t, path=path, own=own)
            self.put(path, "%stypealias %s = %s" % ("private " if own else r.choice(["", "public "]), a["name"],
                                                     self.type_name(t, path)))
            self.aliases.append(a)
        for _ in range(r.randint(0, 2 if small else 5)):
            path, access = r.choice(self.paths), self.access()
            own = access.strip() in ("private", "fileprivate")
            f = dict(name=self.fresh("fgh"), path=path, own=own, access=access, params=self.params(path, not own),
                     result=r.choice(["Void", self.pick(path, not own)]))
            self.functions.append(f)
        for _ in range(r.randint(0, 2 if small else 5)):
            self.make_global()
        for s in self.structs:
            self.write_struct(s)
        for f in self.functions:
            self.put(f["path"], self.function_text(f, None))
        for p in self.paths:
            r.shuffle(self.texts[p])

    def put(self, path, text):
        self.texts[path].append(text)
        if self.oops(0.15):
            self.texts[self.rng.choice(self.paths)].append(text)

    def params(self, path, open_):
        out = []
        for name in self.rng.sample(["x", "y", "z", "w"], self.rng.choice([0, 0, 1, 1, 2, 3])):
            label = self.rng.choice([name, name, "_", "by", "to"])
            out.append((label, name, self.pick(path, open_)))
        if out and self.oops(0.5):
            out.append(out[0])
        return out

    def make_struct(self):
        r = self.rng
        s = Struct(self.fresh("STUVW"), r.choice(self.paths))
        s.access = self.access() if r.random() < 0.7 else ""
        for name in r.sample(["p", "q", "r", "s", "t"], r.randint(0, 3)):
            t = self.pick(s.path, not s.own())
            if self.oops(0.4):
                t = s
            initial = None
            if r.random() < 0.3 and isinstance(t, str):
                initial = self.literal(t)
            s.stored.append(dict(name=name, type=t, var=r.random() < 0.6, initial=initial,
                                 access=r.choice(["", "", "public ", "private "]), path=s.path,
                                 untyped=initial is not None and r.random() < 0.5))
        self.structs.append(s)
        for list_, names in ((s.computed, ["c", "d"]), (s.methods, ["m", "n"])):
            for name in r.sample(names, r.choice([0, 0, 1, 1, 2])):
                path = s.path if s.own() or r.random() < 0.6 else r.choice(self.paths)
                access = r.choice(["", "", "public ", "private "])
                own = access == "private "
                list_.append(dict(name=name, path=path, own=own, access=access, params=self.params(path, not own),
                                  result=self.pick(path, not own), extension=path != s.path or r.random() < 0.3))

    def make_global(self):
        r = self.rng
        path, access = r.choice(self.paths), self.access()
        own = access.strip() in ("private", "fileprivate")
        t = self.pick(path, not own)
        if r.random() < 0.4:
            t = r.choice(self.types(path, not own)[3:] or [t])
        name = self.fresh("abcde")
        g = dict(name=name, path=path, own=own, type=t, var=r.random() < 0.5)
        note = ": " + self.type_name(t, path) if r.random() < 0.4 else ""
        if self.oops():
            self.globals.append(g)
        value = self.expr(t, path, [], None, 2)
        self.put(path, "%s%s %s%s = %s" % (access, "var" if g["var"] else "let", name, note, value))
        self.globals.append(g)

    def write_struct(self, s):
        r = self.rng
        lines = []
        for p in s.stored:
            note = "" if p["untyped"] else ": " + self.type_name(p["type"], s.path)
            value = " = " + p["initial"] if p["initial"] else ""
            if value and self.oops():
                value = " = " + self.expr(p["type"], s.path, [], None, 1)
            lines.append("%s%s %s%s%s" % (p["access"], "var" if p["var"] else "let", p["name"], note, value))
            if self.oops(0.3):
                lines.append(lines[-1])
        extensions = {}
        for m, text in [(c, self.computed_text(c, s)) for c in s.computed] + \
                       [(m, self.function_text(m, s)) for m in s.methods]:
            place = extensions.setdefault(m["path"], []) if m["extension"] else lines
            place.append(text)
            if self.oops(0.3):
                place.append(text)
        self.put(s.path, s.access + "struct " + s.name + " {\n" + indent(lines) + "}")
        for path, members in extensions.items():
            name = "Missing" if self.oops(0.3) else s.name
            self.put(path, "extension " + name + " {\n" + indent(members) + "}")

    def computed_text(self, c, s):
        body = self.body(c["result"], c["path"], [], s)
        return "%svar %s: %s %s" % (c["access"], c["name"], self.type_name(c["result"], c["path"]), body)

    def function_text(self, f, s):
        texts = []
        for label, name, t in f["params"]:
            word = name if label == name else label + " " + name
            texts.append("%s: %s" % (word, self.type_name(t, f["path"])))
        result = ""
        if f["result"] != "Void" or self.rng.random() < 0.1:
            result = " -> " + self.type_name(f["result"], f["path"])
        locals_ = [[dict(name=n, type=t, var=False) for _, n, t in f["params"]]]
        return "%sfunc %s(%s)%s %s" % (f["access"], f["name"], ", ".join(texts), result,
                                       self.body(f["result"], f["path"], locals_, s))

    # ---- statements

    def body(self, result, path, scopes, s):
        self.used = {l["name"] for scope in scopes for l in scope}
        return self.block(result, path, scopes, s, 2, True)

    def block(self, result, path, scopes, s, depth, must):
        r, lines, scopes = self.rng, [], scopes + [[]]
        for _ in range(r.choice([0, 1, 1, 2, 3])):
            lines.append(self.stmt(result, path, scopes, s, depth))
        if must and result != "Void" and not self.oops(0.5):
            if depth and r.random() < 0.2:
                lines.append("if %s %s else %s" % (self.expr("Bool", path, scopes, s, 1),
                                                   self.block(result, path, scopes, s, 0, True),
                                                   self.block(result, path, scopes, s, 0, True)))
            else:
                lines.append("return " + ("" if self.oops(0.5) else self.expr(result, path, scopes, s, 2)))
        elif r.random() < 0.1 and result == "Void":
            lines.append("return")
        if len(lines) == 1 and "\n" not in lines[0] and r.random() < 0.4:
            return "{ " + lines[0] + " }"
        return "{\n" + indent(lines) + "}"

    def stmt(self, result, path, scopes, s, depth):
        r = self.rng
        c = r.random()
        if c < 0.35:
            t = self.pick(path)
            name = r.choice(["i", "j", "k", "l", "v"])
            fresh = [n for n in ["i", "j", "k", "l", "v", "i2", "j2", "k2", "l2", "v2", "i3", "j3"]
                     if n not in [x["name"] for x in scopes[-1]]]
            name = r.choice(fresh or ["last"]) if not self.oops() else name
            note = ": " + self.type_name(t, path) if r.random() < 0.4 else ""
            var = r.random() < 0.6
            text = "%s %s%s = %s" % ("var" if var else "let", name, note, self.expr(t, path, scopes, s, 2))
            scopes[-1].append(dict(name=name, type=t, var=var))
            return text
        if c < 0.6:
            return self.assignment(path, scopes, s)
        if c < 0.7 and depth:
            text = "if %s %s" % (self.expr("Bool", path, scopes, s, 2),
                                 self.block(result, path, scopes, s, depth - 1, False))
            if r.random() < 0.3:
                text += " else if %s %s" % (self.expr("Bool", path, scopes, s, 1),
                                            self.block(result, path, scopes, s, depth - 1, False))
            if r.random() < 0.4:
                text += r.choice([" ", "\n"]) + "else " + self.block(result, path, scopes, s, depth - 1, False)
            return text
        if c < 0.78 and depth:
            return "while %s %s" % (self.expr("Bool", path, scopes, s, 2),
                                    self.block(result, path, scopes, s, depth - 1, False))
        calls = [f for f in self.visible(self.functions, path)]
        if c < 0.9 and calls:
            return self.call(r.choice(calls), "", path, scopes, s, 1)
        return "print(%s)" % self.expr(r.choice(BUILT_IN if not self.oops() else self.types(path)), path, scopes, s, 2)

    def assignment(self, path, scopes, s):
        r = self.rng
        roots, seen = [], set()
        for scope in reversed(scopes):
            for l in scope:
                if l["name"] not in seen:
                    seen.add(l["name"])
                    roots.append(l)
        if s:
            seen |= {n for n, _ in self.members(s, path)} | {m["name"] for m in s.methods}
        roots += [g for g in self.visible(self.globals, path) if g["name"] not in seen]
        roots = [x for x in roots if x["var"] or self.oops()]
        if self.oops():
            roots.append(dict(name=r.choice(["print", "self", "nope"] + sorted(self.names)), type="Int"))
        if not roots:
            return "print(%s)" % self.expr("Int", path, scopes, s, 1)
        root = r.choice(roots)
        name, t = root["name"], root["type"]
        while isinstance(t, Struct) and r.random() < 0.6:
            parts = [p for p in t.stored if (p["var"] or self.oops()) and (p["access"] != "private " or p["path"] == path)]
            if self.oops():
                parts = t.computed
            if not parts:
                break
            p = r.choice(parts)
            name, t = name + "." + p["name"], p.get("type") or p["result"]
        return "%s = %s" % (name, self.expr(t, path, scopes, s, 2))

    # ---- expressions

    def literal(self, t):
        r = self.rng
        if t == "Int":
            return r.choice(["0", "1", "2", "10", "007", "1_000", "9223372036854775807"])
        if t == "String":
            return r.choice(['""', '"a"', '"b\\n"', '"\\\\ \\" \\0"', '"é"', '"// no"'])
        return r.choice(["true", "false"])

    def call(self, f, before, path, scopes, s, depth):
        args = []
        for label, _, t in f["params"]:
            if self.oops(0.4):
                label = self.rng.choice(["x", "_", "by"])
            args.append(("" if label == "_" else label + ": ") + self.expr(t, path, scopes, s, depth - 1))
        if self.oops(0.4):
            args = args[1:] if self.rng.random() < 0.5 else args + ["1"]
        return before + f["name"] + "(" + ", ".join(args) + ")"

    def values(self, path, scopes, s):
        """(text, type) of all that a name or a member gives"""
        seen, out = set(), []
        for scope in reversed(scopes):
            for l in scope:
                if l["name"] not in seen:
                    seen.add(l["name"])
                    out.append((l["name"], l["type"]))
        if s:
            out.append(("self", s))
            out += [(n, t) for n, t in self.members(s, path) if n not in seen]
            seen |= {n for n, _ in self.members(s, path)} | {m["name"] for m in s.methods}
        out += [(g["name"], g["type"]) for g in self.visible(self.globals, path) if g["name"] not in seen]
        return out

    def members(self, s, path):
        return [(p["name"], p.get("type") or p["result"]) for p in s.stored + s.computed
                if p["access"] != "private " or p["path"] == path]

    def expr(self, t, path, scopes, s, depth):
        r = self.rng
        if self.oops():
            c = r.randrange(7)
            if c == 0:
                return r.choice(["nope", "print", "self"] + sorted(self.names))
            if c == 1:
                return "(%s)(1)" % r.choice(["nope", "f", "x"] + sorted(self.names))
            if c == 2:
                return r.choice(["Int", "nope"] + sorted(self.names)) + "(%s)" % r.choice(["", "1", "p: 1"])
            if c == 3:
                return self.expr(self.pick(path), path, scopes, s, depth) + "." + r.choice(["m", "c", "p", "nope"])
            if c == 4:
                return r.choice(["-", "!"]) + "(" + self.expr(self.pick(path), path, scopes, s, depth) + ")"
            t = self.pick(path)
        choices = []
        for text, u in self.values(path, scopes, s):
            if u is t or u == t:
                choices.append(text)
            if isinstance(u, Struct):
                for n, v in self.members(u, path):
                    if v is t or v == t:
                        choices.append(text + "." + n)
        if choices and (depth <= 0 or r.random() < 0.45):
            return r.choice(choices)
        if depth <= 0 and isinstance(t, str):
            return self.literal(t)
        options = []
        hidden = {l["name"] for scope in scopes for l in scope}
        if s:
            hidden |= {n for n, _ in self.members(s, path)} | {m["name"] for m in s.methods}
        for f in self.visible(self.functions, path):
            if (f["result"] is t or f["result"] == t) and depth > 0 and f["name"] not in hidden:
                options.append(lambda f=f: self.call(f, "", path, scopes, s, depth))
        for text, u in self.values(path, scopes, s):
            if isinstance(u, Struct) and depth > 0:
                for m in u.methods:
                    if (m["result"] is t or m["result"] == t) and (not m["own"] or m["path"] == path):
                        options.append(lambda m=m, text=text: self.call(m, text + ".", path, scopes, s, depth))
        if isinstance(t, Struct):
            f = dict(name=self.type_name(t, path), params=[(p["name"], 0, p["type"]) for p in t.stored if not p["initial"]])
            options.append(lambda: self.memberwise(t, f, path, scopes, s, max(depth, 1)))
        elif depth > 0:
            options.append(lambda: self.literal(t))
            options.append(lambda: self.operator(t, path, scopes, s, depth))
            options.append(lambda: self.operator(t, path, scopes, s, depth))
        return r.choice(options)()

    def memberwise(self, t, f, path, scopes, s, depth):
        # Of a struct that holds itself there is no value.
        if t in self.building:
            return "self"
        self.building.append(t)
        text = self.call(f, "", path, scopes, s, depth)
        self.building.pop()
        return text

    def operator(self, t, path, scopes, s, depth):
        r = self.rng

        def e(u):
            text = self.expr(u, path, scopes, s, depth - 1)
            return "(" + text + ")" if " " in text or text[0] in "-!" else text
        if t == "Int":
            if r.random() < 0.2:
                return "-" + e("Int")
            return e("Int") + r.choice([" + ", " - ", " * ", " / ", " % ", "*", "+"]) + e("Int")
        if t == "String":
            return e("String") + " + " + e("String")
        c = r.random()
        if c < 0.2:
            return "!" + e("Bool")
        if c < 0.5:
            return e("Bool") + r.choice([" && ", " || "]) + e("Bool")
        if c < 0.8:
            u = r.choice(["Int", "String"])
            return e(u) + r.choice([" < ", " <= ", " > ", " >= "]) + e(u)
        u = r.choice(BUILT_IN)
        return e(u) + r.choice([" == ", " != "]) + e(u)

    def poison(self):
        """One declaration broken, circular, ambiguous, missing or too large; what uses it is left as it was."""
        r = self.rng
        places = [(p, i) for p in self.paths for i in range(len(self.texts[p]))]
        if not places:
            return self
        structs = [(p, i) for p, i in places if re.search(r"^(\w+ )?struct ", self.texts[p][i])]
        path, i = r.choice(structs if structs and r.random() < 0.6 else places)
        text = self.texts[path][i]
        name = re.search(r"(?:struct|extension|func|let|var|typealias) (\w+)", text).group(1)
        c = r.randrange(8)
        if c == 0 or (c == 1 and (path, i) in structs):
            types = list(re.finditer(r": ([A-Z]\w*)", text))
            if (path, i) in structs and (c == 1 or not types):
                new = r.choice(["Missing", name, "Int", "Void"])
                text = text.replace("{\n", "{\n    let %s: %s = %s\n" % (r.choice(["p", "q", "r", "s", "t", "u"]), new,
                                                                     r.choice(["1", "nope", name + "()", "true"])), 1)
            elif types:
                m = r.choice(types)
                text = text[:m.start(1)] + r.choice(["Missing", name, "Int", "String"] + sorted(self.names)) + text[m.end(1):]
            self.texts[path][i] = text
        elif c == 1:
            self.texts[path].append(r.choice(["let x9 = y9\nlet y9 = x9", "typealias X9 = Y9\ntypealias Y9 = X9"])
                                    .replace(r.choice(["x9", "X9"]), name))
        elif c == 2:
            self.texts[r.choice(self.paths)].append(text)
        elif c == 3:
            self.texts[path].append("private " + re.sub(r"^(private|public|internal|fileprivate) ", "", text)
                                    if not text.startswith("extension") else text)
        elif c == 4:
            del self.texts[path][i]
        elif c == 5:
            self.texts[r.choice(self.paths)].append(r.choice(["struct %s { }", "func %s() { }", "let %s = 1", "private let %s = nope",
                                                              "typealias %s = Int", "private struct %s { }",
                                                              "extension %s { func m() { nope() }\nvar p: Int { return 1 } }"]) % name)
        elif c == 6:
            self.texts[path][i] = text.replace(name, r.choice(sorted(self.names)), 1)
        else:
            if (path, i) in structs:
                self.texts[path][i] = text.replace("{\n", "{\n    let big: K4\n", 1)
                k = ["struct K0 { let a: Int }"] + ["struct K%d {\n%s}" % (n, indent(["let p%d: K%d" % (j, n - 1) for j in range(32)]))
                                                   for n in range(1, 5)]
                self.texts[r.choice(self.paths)] += k
        return self

    def done(self):
        gap = self.rng.choice(["\n", "\n\n", "\n// x\n", " /* y\n /* z */ */ "])
        return {p: (gap.join(t) + self.rng.choice(["\n", ""])).encode() for p, t in self.texts.items()}


def indent(lines):
    return "".join("    " + l.replace("\n", "\n    ") + "\n" for l in lines)


class Wild:
    """A module from a handful of names."""

    def __init__(self, rng):
        self.rng = rng
        self.values, self.kinds = rng.choice([["a", "b", "f"], ["a", "b", "c", "f", "g", "x"], ["a", "f", "x", "print"]]), \
            rng.choice([["S", "T"], ["S", "T", "A"], ["S"], ["S", "A", "Int"]])
        self.paths = sorted(rng.sample(PATHS, rng.choice([1, 1, 2, 2, 3, 5])))
        self.texts = {}
        for p in self.paths:
            ds = [self.decl() for _ in range(rng.choice([0, 1, 2, 3, 3, 4, 6]))]
            self.texts[p] = "\n".join(ds)
        if rng.random() < 0.06:
            self.texts[rng.choice(self.paths)] += "\n" + self.huge()

    def access(self):
        return self.rng.choice(["", "", "", "", "public ", "private ", "fileprivate "])

    def value_name(self):
        return self.rng.choice(self.values * 3 + self.kinds)

    def type_name(self):
        return self.rng.choice(self.kinds * 3 + ["Int", "Int", "Int", "String", "Bool", "Void", "Missing"] + self.values[:1])

    def decl(self):
        r = self.rng
        c = r.random()
        if c < 0.3:
            note = ": " + self.type_name() if r.random() < 0.4 else ""
            return "%s%s %s%s = %s" % (self.access(), r.choice(["let", "var"]), self.value_name(), note, self.expr(2))
        if c < 0.5:
            return self.access() + self.func()
        if c < 0.75:
            ms = [self.member(True) for _ in range(r.choice([0, 1, 2, 3]))]
            return self.access() + "struct " + r.choice(self.kinds * 4 + self.values) + " {\n" + indent(ms) + "}"
        if c < 0.88:
            ms = [self.member(False) for _ in range(r.choice([0, 1, 2]))]
            return "extension " + r.choice(self.kinds * 6 + ["Missing", "Int"] + self.values) + " {\n" + indent(ms) + "}"
        return "%stypealias %s = %s" % (self.access(), r.choice(self.kinds * 3 + self.values), self.type_name())

    def member(self, stored):
        r = self.rng
        name, c = r.choice(["a", "b", "m", "n"] + self.values[:1]), r.random()
        if stored and c < 0.6:
            word = r.choice(["let", "var"])
            return self.access() + r.choice(["%s %s: %s" % (word, name, self.type_name()),
                                             "%s %s: %s" % (word, name, self.type_name()),
                                             "%s %s = %s" % (word, name, self.expr(1)),
                                             "%s %s: %s = %s" % (word, name, self.type_name(), self.expr(1))])
        if c < 0.75:
            return "%svar %s: %s %s" % (self.access(), name, self.type_name(), self.block(1))
        return self.access() + self.func(name)

    def func(self, name=None):
        r = self.rng
        ps = ["%s: %s" % (r.choice(["x", "x", "y", "_ x", "by x", "_ a"]), self.type_name())
              for _ in range(r.choice([0, 0, 1, 1, 2]))]
        result = " -> " + self.type_name() if r.random() < 0.6 else ""
        return "func %s(%s)%s %s" % (name or self.value_name(), ", ".join(ps), result, self.block(2))

    def block(self, depth):
        return "{\n" + indent([self.stmt(depth) for _ in range(self.rng.choice([0, 1, 1, 2, 3]))]) + "}"

    def name(self):
        return self.rng.choice(self.values * 2 + self.kinds + ["a", "m", "n", "x", "x", "self", "print", "nope"])

    def stmt(self, depth):
        r = self.rng
        c = r.random()
        if c < 0.25:
            note = ": " + self.type_name() if r.random() < 0.3 else ""
            return "%s %s%s = %s" % (r.choice(["let", "var"]), r.choice(["x", "y", "a"]), note, self.expr(2))
        if c < 0.5:
            names = [self.name().replace("self", "x")] + [r.choice(["a", "b", "m", "n"]) for _ in range(r.choice([0, 0, 1, 1, 2]))]
            return ".".join(names) + " = " + self.expr(2)
        if c < 0.7:
            return "return" + (" " + self.expr(2) if r.random() < 0.8 else "")
        if c < 0.8 and depth:
            text = "if %s %s" % (self.expr(1), self.block(depth - 1))
            if r.random() < 0.5:
                text += " else " + self.block(depth - 1)
            return text
        if c < 0.85 and depth:
            return "while %s %s" % (self.expr(1), self.block(depth - 1))
        return self.call(2)

    def call(self, depth):
        r = self.rng
        callee = r.choice([self.name(), self.name(), self.name(), "(" + self.name() + ")", self.post(depth - 1),
                           self.post(depth - 1) + "." + r.choice(["a", "b", "m", "n"]), "print"])
        args = [r.choice(["", "", "x: ", "a: ", "b: "]) + self.expr(depth - 1) for _ in range(r.choice([0, 1, 1, 1, 2]))]
        return callee + "(" + ", ".join(args) + ")"

    def post(self, depth):
        r = self.rng
        c = r.random()
        if depth <= 0 or c < 0.4:
            return r.choice([self.name(), self.name(), self.name(), "1", '"s"', "true"])
        if c < 0.6:
            return self.post(depth - 1) + "." + r.choice(["a", "b", "m", "n"])
        if c < 0.9:
            return self.call(depth)
        return "(" + self.expr(depth - 1) + ")"

    def expr(self, depth):
        r = self.rng
        c = r.random()
        if c < 0.7 or depth <= 0:
            return self.post(depth)
        if c < 0.8:
            return r.choice(["-", "!"]) + self.post(depth)
        o = r.choice(["+", "+", "-", "*", "<", "==", "!=", "&&", "||"])
        return self.post(depth - 1) + " " + o + " " + self.post(depth - 1)

    def huge(self):
        """structs that come to 1,048,576 words, or to more"""
        r = self.rng
        fan, levels = r.choice([(4, 10), (32, 4), (16, 5), (11, 6)])
        out = ["struct H0 { let a: Int }"]
        for i in range(1, levels + 1):
            parts = ["let p%d: H%d" % (j, i - 1) for j in range(fan)]
            if i == levels and r.random() < 0.5:
                parts.append("let more: " + r.choice(["Int", "Void", "H0"]))
            out.append("struct H%d {\n%s}" % (i, indent(parts)))
        out.append("struct Above { let h: H%d }" % levels)
        out.append("extension H%d { func me() -> H%d { return self } }" % (levels, levels))
        if r.random() < 0.3:
            out.append(r.choice(["struct", "func"]) + " H%d" % levels + r.choice([" { }", " { let x = 1 }"]))
        return "\n".join(out).replace("func H%d {" % levels, "func H%d() {" % levels).replace("() { let x = 1 }", "() { }")

    def done(self):
        return {p: t.encode() for p, t in self.texts.items()}


def damage(rng, data):
    """a text with one or two bytes or tokens changed, taken out or put in"""
    for _ in range(rng.choice([1, 1, 1, 2])):
        i = rng.randint(0, len(data))
        c = rng.randrange(12)
        if c == 0:
            data = data[:i] + data[i + rng.randint(1, 3):]
        elif c == 1:
            data = data[:i]
        elif c == 2:
            data = data[:i] + rng.choice([b"\xff", b"\xc3", b"\xed\xa0\x80", b"\xe2\x82\xac", b"\xf4\x90\x80\x80"]) + data[i:]
        elif c == 3:
            data = data[:i] + rng.choice([b"/*", b"*/", b"//", b"/*/", b"/* /* */"]) + data[i:]
        elif c == 4:
            data = data[:i] + rng.choice([b'"', b"\\", b'"\\q"', b'"a\\', b'"a\n', b'"\\q\n', b'"\\u{41}"', b'"x\r']) + data[i:]
        elif c == 5:
            data = data[:i] + rng.choice([b"#", b"@", b"&", b"|", b";", b"`", b"\x00", b"?", b"[", b"\x0c"]) + data[i:]
        elif c == 6:
            data = data[:i] + rng.choice([b" 1a ", b" 9223372036854775808 ", b" 9_223_372_036_854_775_807 ", b" 0x1F ", b" 1_ ",
                                          b" 99999999999999999999z ", b" 1.5 "]) + data[i:]
        elif c == 7:
            n = rng.choice([99, 100, 101, 102])
            data = rng.choice([data + b"\nlet deep = " + b"(" * n + b"1" + b")" * n,
                               data + b"\nfunc deep() { while " + b"(" * n + b"1",
                               data + b"\nlet deep = " + b"(" * n + b")",
                               data + b"\nfunc deep() { " + b"if a { " * n + b" }" * n])
        else:
            words = rng.choice([b"let", b"class", b"{", b"}", b"(", b")", b"return", b"else", b"=", b"==", b"_", b":", b",", b".",
                                b"private", b"self", b"1", b"if", b"->", b"extension", b"func", b"\n", b"\n(", b"public extension"])
            data = data[:i] + b" " + words + b" " + data[i:]
    return data


def limits(rng, texts, i):
    """a limit of the documents crossed, or just kept"""
    c = rng.randrange(4)
    path = rng.choice(sorted(texts))
    if c == 0:
        texts[path] += b"\n" * (rng.choice([262144, 262145]) - len(texts[path]))
    elif c == 1:
        texts[rng.choice(["a b.swift", ".a.swift", "é.swift", ".d/a.swift", "d/.a.swift", "a..b.swift", "q~r.swift",
                          "n" * 195 + ".swift", "n" * 194 + ".swift"])] = texts[path]
    elif c == 2:
        texts[path] = texts[path] + rng.choice([b"\xc0\x80", b"\x80", b"// \xff"])
    else:
        texts[path] = b"\xef\xbb\xbf" + texts[path]
    return texts


def module(seed, i):
    rng = random.Random("%d/%d" % (seed, i))
    if i % 1000 == 500:
        return {"f%d.swift" % n: b"" for n in range(2001)}
    if i % 1000 == 501:
        return {"f%d.swift" % n: b" " * 262145 for n in range(rng.choice([63, 64]))}
    c = rng.random()
    if c < 0.3:
        return Typed(rng, 0).done()
    if c < 0.45:
        return Typed(rng, rng.choice([0.01, 0.03, 0.1])).done()
    if c < 0.62:
        typed = Typed(rng, 0)
        return (typed.poison() if rng.random() < 0.7 else typed.poison().poison()).done()
    if c < 0.87:
        return Wild(rng).done()
    texts = Typed(rng, 0).done() if rng.random() < 0.7 else Wild(rng).done()
    if c > 0.98:
        return limits(rng, texts, i)
    path = rng.choice(sorted(texts))
    texts[path] = damage(rng, texts[path])
    return texts


def write(seed, count, folder):
    for i in range(count):
        for path, data in module(seed, i).items():
            place = os.path.join(folder, "%04d" % i, path)
            os.makedirs(os.path.dirname(place), exist_ok=True)
            with open(place, "wb") as f:
                f.write(data)


def kind_of(line):
    """An error line without its place and its names."""
    text = line[line.index("error: ") + 7:]
    for kind in ("cannot find type", "cannot find", "ambiguous use", "circular reference", "invalid redeclaration", "value of type",
                 "cannot convert", "binary operator", "unary operator", "wrong arguments", "cannot call", "cannot assign",
                 "'return' needs", "missing return", "extension of", "struct '", "unexpected end of file", "unexpected '"):
        if text.startswith(kind):
            return kind.rstrip(" '")
    for kind in ("is not a type", "is not a value", "has errors where it is declared", "is not a plain path",
                 "source files, at most 2000"):
        if text.endswith(kind):
            return kind
    return text


def kinds(seed, count, answers):
    """How many of the modules of `random SEED COUNT` have each kind of error line; they are made in memory here."""
    modules, clean, lines, files, objects = {}, 0, {}, 0, 0
    for i in range(count):
        a = answers(module(seed, i))
        clean += not a.errors
        files += len(a.nodes)
        objects += len(a.objects)
        told = [kind_of(l) for l in a.errors]
        for k in set(told):
            modules[k] = modules.get(k, 0) + 1
            lines[k] = lines.get(k, 0) + told.count(k)
    print("%d modules, %d without errors; %d files, %d objects" % (count, clean, files, objects))
    for k in sorted(modules, key=lambda k: -modules[k]):
        print("%6d modules %7d lines  %s" % (modules[k], lines[k], k))
