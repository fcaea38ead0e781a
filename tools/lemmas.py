#!/usr/bin/env python3
"""Brings lemmas and fields to today's spelling, once, after respell.py and edits.py: a dash joins two names, and a plain word is added with '_'.
usage: lemmas.py [--list]     at the top of the repository; --list prints what would be renamed, and changes nothing
A dash in the name of a lemma, or of a field, stays exactly where what stands at both its sides are names in its own statement, as in
`blocks-length`; elsewhere it becomes '_', as in `never_busy`. Goals, and whatever else Rattle names, keep their names, and so do names that stand
in one term alone. A lemma that would get the name of a word ends in _lem. Must-fail edits and the pages follow; docs/landings/ are notes of the
past."""
import collections, glob, re, sys

TOKEN = re.compile(r'--[^\n]*|"(?:[^"\\\n]|\\.)*"|[^\s(){}.;,@"«»\\λ]+')
NAME = re.compile(r'[^\s(){}.;,@"«»\\λ]+')
TOP = re.compile(r"^(?:(?:abbrev|unfoldable) )?(?:pub )?([^\s(){}.;,@\"]+) :(?= |$)")
INNER = re.compile(r"^ +(?:pub )?([^\s(){}.;,@\"]+) :(?= |$)")
USE = re.compile(r"^(?:pub )?use ([^\s{}]+?)\.\{([^{}]*)\}", re.M)
# what would get the name of a word, a function or a value beside it: fields of definitions, then lemmas
OTHERS = {
    "request-at": "request_addr", "is-idle": "pending_is_idle", "all-could": "could_all", "available-index": "index_available", "used-index": "index_used",
    "all-unplugged": "each_unplugged", "sum-within": "sum_within_lem", "row-due": "row_due_lem",
}
PAGES = ["README.md", "CONTRIBUTING.md"] + glob.glob("docs/*.md") + glob.glob("bindings/**/*.md", recursive=True) + glob.glob("compare/*.md")


def words(text):
    return set(NAME.findall(re.sub(r"--[^\n]*", "", text)))


def declared(text, inner=INNER):
    """(name, statement, is a field or stands below parameters) of each declaration of a file."""
    lines, out = text.split("\n"), []
    for i, l in enumerate(lines):
        m = TOP.match(l) or inner.match(l)
        if not m: continue
        deep = len(l) - len(l.lstrip())
        said = [l[m.end():]]
        for k in lines[i + 1:]:
            if not k.strip() or len(k) - len(k.lstrip()) <= deep: break
            said.append(k)
        out.append((m.group(1), "\n".join(said), deep > 0))
    return out


def own(path, crates):
    """Whether a module's path is one of this repository, and none that Rattle makes for a function."""
    p = path.split(".")
    return p[0] == "Rattle" and len(p) > 2 and p[1] in crates and not {"Goals", "Lts", "Kinds", "Reads", "Tie"} & set(p)


def main():
    found = glob.glob("crates/*/specs/*.antt") + glob.glob("crates/*/proofs/**/*.antt", recursive=True)
    texts = {f: open(f, encoding="utf-8").read() for f in sorted(found)}
    defs = {n for f in glob.glob("crates/*/specs/*.antt") for n, _, _ in declared(open(f, encoding="utf-8").read())}
    crates = {f.split("/")[1] for f in texts}
    said, here, fields = collections.defaultdict(list), collections.defaultdict(set), set()
    for f, t in texts.items():
        of_function = f.count("/") > 3
        if of_function and f.endswith(("/Invariants.antt", "/Proof.antt")): continue
        for name, statement, inner in declared(t):
            if "-" not in name or (of_function and (inner or re.search(r"\bgoal\.", statement))): continue
            said[name].append(words(statement))
            here[f].add(name)
            if inner: fields.add(name)
    new = {}
    for name, places in said.items():
        segs = name.split("-")
        out = segs[0]
        for k in range(1, len(segs)):
            left = {c.join(segs[j:k]) for j in range(k) for c in "_-"}
            right = {c.join(segs[k:j]) for j in range(k + 1, len(segs) + 1) for c in "_-"}
            out += ("-" if all(left & w and right & w for w in places) else "_") + segs[k]
        out = OTHERS.get(name, out + "_lem" if out in defs else out)
        if out != name: new[name] = out
    many = collections.Counter(new.values())
    trouble = [f"{a} and another become {b}" for a, b in new.items() if many[b] > 1]
    def mine_of(f, t):
        """The names of this list that a file declares, or takes in from another of this repository."""
        mine, foreign = set(here[f]), set()
        for path, items in USE.findall(t):
            for item in items.split(","):
                a = [x.strip().strip("«»") for x in item.split(" as ")]
                if not own(path, crates): foreign.add(a[-1])
                elif len(a) == 1: mine.add(a[0])
        mine &= set(new)
        for a in mine & foreign: trouble.append(f"{f}: {a} is from elsewhere too")
        for a in mine:
            if new[a] in words(t): trouble.append(f"{f}: {new[a]} is there beside {a}")
        return mine

    def turned(t, mine):
        spans = [(m.start(2), m.end(2), own(m.group(1), crates)) for m in USE.finditer(t)]

        def turn(m):
            w, before = m.group(), t[max(0, m.start() - 200): m.start()]
            if w.startswith("--"): return quoted(w)
            if w not in new: return w
            for a, b, is_own in spans:
                if a <= m.start() < b: return new[w] if is_own and not before.endswith(" as ") else w
            if before.endswith("."):
                head = re.search(r"([\w·.'-]+)\.$", before)
                in_module = head and head.group(1).startswith("Rattle.") and own(head.group(1) + ".x", crates)
                return new[w] if in_module or w in fields else w
            in_record = w in fields and re.search(r"[{;]\s*$", before) and re.match(r"\s*=", t[m.end():])
            return new[w] if w in mine or in_record else w

        return TOKEN.sub(turn, t)

    quoted = lambda s: re.sub(r"`([^`\n]+)`", lambda k: "`" + new.get(k.group(1), k.group(1)) + "`", s)
    mine = {f: mine_of(f, t) for f, t in texts.items()}
    after = {f: turned(t, mine[f]) for f, t in texts.items()}
    for f in sorted(glob.glob("crates/*/src/*.rt")):
        t = open(f, encoding="utf-8").read()
        code = re.sub(r"//.*", "", t)
        for w in words(code) & set(new): trouble.append(f"{f}: {w} stands in the source")
        after[f] = re.sub(r"//.*", lambda m: quoted(m.group()), t)
        texts[f] = t
    for e in sorted(glob.glob("crates/*/must-fail/*.edit")):
        t, of, out, now = open(e, encoding="utf-8").read(), None, [], {}
        for l in t.split("\n"):
            m = re.match(r"(file|old|new): (.*)$", l)
            if m and m.group(1) == "file": of = f"crates/{e.split('/')[1]}/{m.group(2).strip()}"
            elif m:
                said_ = turned(m.group(2), mine.get(of, set()))
                now.setdefault(of, after.get(of, ""))
                if m.group(1) == "old":
                    old = said_
                    if now[of].count(old) != 1: trouble.append(f"{e}: stands {now[of].count(old)} times: {old}")
                else: now[of] = now[of].replace(old, said_)
                l = f"{m.group(1)}: {said_}"
            else: l = quoted(l)
            out.append(l)
        texts[e], after[e] = t, "\n".join(out)
    if "--list" in sys.argv:
        for a in sorted(new): print(a, "->", new[a])
        print("a dash stays:", *sorted(n for n in said if n not in new))
    for x in trouble: print("look:", x)
    for f in PAGES:
        if f == "docs/PORT.md" or f.startswith("docs/landings/"): continue
        texts[f] = open(f, encoding="utf-8").read()
        after[f] = quoted(texts[f])
    after = {f: t for f, t in after.items() if t != texts[f]}
    print(f"lemmas: {len(new)} names of {len(said)} with a dash, {len(after)} files")
    if "--list" in sys.argv: return
    for f, t in after.items(): open(f, "w", encoding="utf-8").write(t)


if __name__ == "__main__":
    main()
