#!/usr/bin/env python3
"""Turns the older proofs of functions, Proof.antt over `Tie`, to Invariants.antt and Answers.antt.

usage: tools/turn_proofs.py NAMES CRATE..

NAMES is the folder that `rt names NAMES` wrote at the top of the repository: a names.json for each crate, with the old and the new name of each goal,
place, step and loop of each function. Written for the port to Rattle's kit 13f and run once; what it can't turn it says, and the check says the rest.
A place is no longer reached by `.before`: all that is known stands in one record. So the abbreviations of places go, a lemma on a place takes the record
of that place, and an answer hands it over by `goal.at`.
"""
import glob
import json
import os
import re
import sys

ID = r"[^\s(){}.;,@\"«»\[\]\\]+"


def norm(s):
    return s.replace("_", "-").lower()


def split_args(s):
    out, i = [], 0
    while i < len(s):
        if s[i].isspace():
            i += 1
        elif s[i] == "(":
            depth, j = 0, i
            while True:
                depth += {"(": 1, ")": -1}.get(s[j], 0)
                j += 1
                if not depth:
                    break
            out.append(s[i:j])
            i = j
        else:
            j = i
            while j < len(s) and not s[j].isspace():
                j += 1
            out.append(s[i:j])
            i = j
    return out


def tokens(s):
    return re.findall(r"--[^\n]*|\s+|[(){},;\[\]]|\.(?=\s)|\.?" + ID + r"|.", s)


def substitute(body, names):
    """The text with each free variable of names replaced: binders of λ, let and (x : A) hide a name to the end of their parentheses."""
    out, depth, hidden = [], 0, []
    toks = tokens(body)
    i = 0
    pending = None
    while i < len(toks):
        t = toks[i]
        if t in "([{":
            depth += 1
            # (x y : A) → ..
            j, bound = i + 1, []
            while j < len(toks) and (toks[j].isspace() or re.fullmatch(ID, toks[j]) and toks[j] != ":"):
                if not toks[j].isspace():
                    bound.append(toks[j])
                j += 1
            if t == "(" and bound and j < len(toks) and toks[j] == ":":
                out.append(t)
                k = i + 1
                while k < j:
                    out.append(toks[k])
                    k += 1
                for b in bound:
                    hidden.append((depth - 1, b))
                i = j
                continue
            out.append(t)
        elif t in ")]}":
            depth -= 1
            hidden = [h for h in hidden if h[0] <= depth]
            out.append(t)
        elif t == "λ":
            out.append(t)
            i += 1
            while toks[i] != ".":
                if re.fullmatch(ID, toks[i]) and toks[i] != ":":
                    hidden.append((depth, toks[i]))
                if toks[i] == "(":
                    depth_in = 1
                    out.append(toks[i])
                    i += 1
                    typed = False
                    while depth_in:
                        if toks[i] == "(":
                            depth_in += 1
                        if toks[i] == ")":
                            depth_in -= 1
                        if toks[i] == ":":
                            typed = True
                        if not typed and re.fullmatch(ID, toks[i]):
                            hidden.append((depth, toks[i]))
                        out.append(toks[i])
                        i += 1
                    continue
                out.append(toks[i])
                i += 1
            out.append(toks[i])
        elif t == "let":
            out.append(t)
            k = i + 1
            while toks[k].isspace():
                k += 1
            hidden.append((depth, toks[k]))
            out += toks[i + 1 : k + 1]
            i = k
        elif t in names and not any(h[1] == t for h in hidden):
            out.append(names[t])
        else:
            out.append(t)
        i += 1
    return "".join(out)


def uses_of(text):
    """The use lines, each as one string, and the rest."""
    uses = re.findall(r"(?ms)^use [^\n{]*(?:\{.*?\})?[^\n]*\n", text)
    rest = re.sub(r"(?ms)^use [^\n{]*(?:\{.*?\})?[^\n]*\n", "", text)
    return uses, rest


def needed(uses, body):
    words = set(re.findall(ID, re.sub(r"--[^\n]*", "", body))) | set(re.findall(r"[^\s(){}.;,\"]+", body))
    ops = set(body)
    out = []
    for u in uses:
        m = re.match(r"(?s)use (\S+?)\.\{(.*)\}", u)
        if not m:
            alias = re.search(r"(\w+)\s*$", u)
            if alias and re.search(rf"(?<![\w.]){re.escape(alias.group(1))}\.", body):
                out.append(u.strip())
            continue
        keep = []
        for n in [x.strip() for x in m.group(2).split(",") if x.strip()]:
            word = n.split(" as ")[-1].strip()
            if "◌" in word:
                parts = [p for p in word.split("◌") if p]
                if all(p in body for p in parts):
                    keep.append(n)
            elif word in words:
                keep.append(n)
        if keep:
            out.append(f"use {m.group(1)}.{{{', '.join(keep)}}}")
    return out


def decls(body):
    """Top-level chunks: (leading comments, text). A chunk is a declaration with its clauses, or a module block."""
    lines = body.split("\n")
    chunks, cur = [], []
    for l in lines:
        if l.strip() == "":
            if cur and not (cur[0].startswith("module") or any(c.startswith("module") for c in cur)):
                chunks.append("\n".join(cur))
                cur = []
            elif cur:
                cur.append(l)
            continue
        if cur and any(c.startswith("module") for c in cur) and not l.startswith(" "):
            chunks.append("\n".join(cur).rstrip())
            cur = []
        cur.append(l)
    if cur:
        chunks.append("\n".join(cur).rstrip())
    return chunks


def source_names(top):
    names = set()
    for f in glob.glob(os.path.join(top, "crates/*/src/**/*.rt"), recursive=True):
        names |= set(re.findall(r"[A-Za-z0-9]*_\w*", re.sub(r"//[^\n]*", "", open(f).read())))
    return {n.replace("_", "-"): n for n in names}


def results(top):
    """The width of a signed result, by the function's name."""
    out = {}
    for f in glob.glob(os.path.join(top, "crates/*/src/**/*.rt"), recursive=True):
        for m in re.finditer(r"(?s)fn (\w+)\s*(?:<[^>]*>)?\((?:[^()]|\([^()]*\))*\)\s*->\s*i(\d+)\b", open(f).read()):
            out[m.group(1)] = "w" + m.group(2)
    return out


def labelled(ch, labels):
    """The answer as a record by the clauses' names, where it was a tuple."""
    start = re.search(r" c =", ch).end()
    depth, last = 0, start
    for m in re.finditer(r"[(){}]|(?<![\w-])in(?![\w-])", ch[start:]):
        t = m.group(0)
        if t in "({":
            depth += 1
        elif t in ")}":
            depth -= 1
        elif not depth:
            last = start + m.end()
    head, tail = ch[:last], ch[last:].strip()
    parts, depth, cur, whole = [], 0, "", tail.startswith("(")
    for i, c in enumerate(tail):
        depth += {"(": 1, "{": 1, ")": -1, "}": -1}.get(c, 0)
        if not depth and i < len(tail) - 1:
            whole = False
    if whole:
        for c in tail[1:-1]:
            depth += {"(": 1, "{": 1, ")": -1, "}": -1}.get(c, 0)
            if c == "," and not depth:
                parts.append(cur)
                cur = ""
            else:
                cur += c
        if cur.strip():
            parts.append(cur)
    if len(parts) == len(labels):
        return head + "\n    record {" + "".join(f" {l} = {p.strip()};" for l, p in zip(labels, parts)) + " }"
    if re.match(r"(search|omega|grind|record)\b", tail):
        return ch
    return head + f"\n    let both = {tail} in record {{" + "".join(f" {l} = both.{i};" for i, l in enumerate(labels)) + " }"


def turn(path, crate, fn, e, src, widths):
    text = open(path, encoding="utf-8").read()
    m = re.search(r"(?ms)^pub (\S+)[-_]spec : .*?tie\.close\s*\(\s*tie\.spec(.*)\)\s*$", text)
    args = split_args(m.group(2))
    text = text[: m.start()]
    head = re.match(r"(?:--[^\n]*\n)*", text).group(0)
    uses, body = uses_of(text[len(head) :])
    uses = [u for u in uses if not re.search(rf"proofs\.{re.escape(fn)}\.(Statement|Tie)\b", u)]
    loops, needs = e["loops"], e["needs"]
    if len(args) != 2 * len(loops) + len(needs):
        return f"{path}: {len(args)} answers for {len(loops)} loops and {len(needs)} goals"
    said = []
    exported = {norm(p[0]): new for p, new in zip(e["places"], e["places_by_name"])}
    cited = set()
    places = {norm(p[0]): p for p in e["places"]}
    fields, callee = {}, {}
    for p in e["places"]:
        old, new = p[2]
        if old:
            fields[norm(old)] = new
            callee[new] = p[3]
    # places: drop .before, and the abbreviations
    body = re.sub(r"(?:\.before)+(?![\w-])", "", body)
    inline = {}
    out = []
    names_of_places = set()
    chunks = decls(body)
    for ch in chunks:
        mod = re.search(r"(?m)^module _ \((\w+) : tie\.", ch)
        pat = r"(?m)^(\s*)(?:abbrev |pub )*(\S+) : (?:\((\w+) : tie\.[^)]*\) → |tie\.[^→\n]* → )?tie\.(?!Need|invariant|decreases)[^→\n]*\n(?:\s*\2(?: \w+)* =[^\n]*(?:\n(?=\s*$)|\n(?=\S)|\n\1    [^\n]*)*)"
        while True:
            a = re.search(pat, ch + "\n")
            if not a:
                break
            names_of_places.add(a.group(2))
            ch = (ch + "\n")[: a.start()] + (ch + "\n")[a.end() :]
            ch = ch.rstrip("\n")
            if mod:
                ch = re.sub(rf"(?<![\w.-]){re.escape(a.group(2))}(?![\w-])", mod.group(1), ch)
        out.append(ch)
    body = "\n\n".join(c for c in out if c.strip())
    # comments and modules that are left empty
    for n in sorted(names_of_places, key=len, reverse=True):
        w = rf"(?<![\w.-]){re.escape(n)}(?![\w-])"
        for _ in range(4):
            body = re.sub(rf"\({w} (\w+)\)", r"\1", body)
        body = re.sub(rf"{w} (\w+)", r"\1", body)
    body = re.sub(r"(?m)^module _ [^\n]* where\s*\n(?=\S|\s*\Z|\n*(?:\S))(?!\s)", "", body)
    body = re.sub(r"(?m)^-- ---- places\s*\n", "", body)
    body = re.sub(r"\((\w+)\)\.", r"\1.", body)

    # what the projections of a chunk are called now, by the place that it speaks of
    def chain(place):
        out, p = [], norm(place) if place else None
        while p and p in places:
            out.append(p)
            p = norm(places[p][1]) if places[p][1] else None
        return out

    order = {norm(p[0]): i for i, p in enumerate(e["places"])}

    def rename(text, place):
        line = chain(place) or list(reversed(list(places)))
        steps, facts, labels = {}, [], {}
        for p in line:
            i = order[p]
            old, new = places[p][2]
            if old:
                steps.setdefault(norm(old), new)
                if e["clauses"][i]:
                    labels.setdefault(new, e["clauses"][i]["fields"])
            if e["arms"][i]:
                arm, _, told = e["arms"][i]
                for fact, step, path in sorted(told, key=lambda t: not t[2]):
                    if not path and step == "match":
                        facts.append((norm(step), "", f"{arm}.{fact}"))
                    if path:
                        facts.append((norm(step), ".".join(path), f"{arm}.{fact}"))
        variables = {"c"} | set(re.findall(r"\((\w+) : tie\.", text))
        for mm in re.finditer(r"(?m)^\s*(?:pub |abbrev |unfoldable )*(\S+) :\s*tie\.[^\n]*\n(?:\s*unfolding[^\n]*\n)?\s*\1 (\w+)", text):
            variables.add(mm.group(2))
        while True:
            more = {x for x, y in re.findall(r"let (\w+) = (\w+) in", text) if y in variables} - variables
            if not more:
                break
            variables |= more

        def on_place(mm):
            if mm.group(1) not in variables:
                return mm.group(0)
            rest = mm.group(2)
            for old_step, path, now in facts:
                m2 = re.match(rf"\.({ID})\.{re.escape(path)}(?![\w-])" if path else rf"\.({ID})(?=\.keys)", rest)
                if m2 and norm(m2.group(1)) == old_step:
                    return mm.group(1) + "." + now + rest[m2.end() :]
            m2 = re.match(rf"\.({ID})", rest)
            n = norm(m2.group(1))
            if n in steps:
                rest = "." + steps[n] + rest[m2.end() :]
                fs = labels.get(steps[n])
                if fs:
                    rest = re.sub(r"\.ensures\.(\d+)", lambda q: ".ensures." + fs[int(q.group(1))] if int(q.group(1)) < len(fs) else q.group(0), rest)
                    if len(fs) == 1 and rest.endswith(".ensures"):
                        rest += "." + fs[0]
            elif n in ("pre", "requires"):
                rest = ".requires" + rest[m2.end() :]
                if e["pre"]:
                    rest = re.sub(r"^\.requires\.(\d+)", lambda q: ".requires." + e["pre"]["fields"][int(q.group(1))], rest)
            elif n == "fits":
                rest = ".ranges" + rest[m2.end() :]
            elif n == "good":
                rest = ".well_formed" + rest[m2.end() :]
            return mm.group(1) + rest

        for x, v, st in re.findall(rf"let (\w+) = (\w+)\.({ID}) in", text):
            if v in variables and norm(st) in steps and len(re.findall(rf"let {x} =|λ[^.]*(?<![\w-]){x}(?![\w-])", text)) == 1:
                text = re.sub(rf"(?m)^\s*let {x} = {v}\.{re.escape(st)} in\n|let {x} = {v}\.{re.escape(st)} in ", "", text)
                text = re.sub(rf"(?<![\w.\-]){x}(?![\w\-])", f"{v}.{st}", text)
        text = re.sub(r"(?<![\w.\-])([a-z]\w*)((?:\." + ID + r")+)", on_place, text)

        def field(mm):
            n = mm.group(1)
            if n in ("taken", "left", "pre", "inv"):
                return "." + {"taken": "true", "left": "false", "pre": "requires", "inv": "invariant"}[n]
            if "-" in n and n.replace("_", "-") in src:
                return "." + src[n.replace("_", "-")]
            if n in ("well-formed", "type-inv"):
                return "." + n.replace("-", "_")
            return mm.group(0)

        text = re.sub(r"(?<=[\w)₀-₉'])\.(" + ID + r")(?![\w-])", field, text)
        for old, new in e["args"]:
            text = text.replace(old.replace(" ", ""), new.replace(" ", ""))

        def lent(mm):
            ps = e["params"].get(callee.get(mm.group(1)), [])
            k = mm.group(2).count(".1")
            return f".{mm.group(1)}.new.{ps[k]}" if k < len(ps) else mm.group(0)

        return re.sub(r"\.(" + ID + r")\.new((?:\.1)*)\.0(?![\w-])", lent, text)

    def place_of(ch):
        mm = re.search(r"tie\.(Need-)?([^\s()]+)", ch)
        if not mm:
            return None
        if mm.group(1):
            head = re.search(r"(?m)^(?:pub |abbrev )*(\S+) :\s*(?:\n\s*)?tie\.Need-", ch)
            for arg, at in zip(args[2 * len(loops) :], e["asked_at"]):
                if head and arg == head.group(1):
                    return at[0]
            return None
        return mm.group(2)

    body = "\n\n".join(rename(ch, place_of(ch)) for ch in decls(body))
    # loops
    invariants, used_inv = [], []
    for k, (names, variables) in enumerate(loops):
        changed = e["changed"][k]
        for arg, kind in ((args[2 * k], "invariant"), (args[2 * k + 1], "decreases")):
            old = next(ch for ch in decls(body) if re.search(rf"(?m)^(?:abbrev |pub )*{re.escape(arg)} : ", ch))
            mm = re.search(rf"(?ms)^{re.escape(arg)} ([^=]*?) =(.*)$", old)
            ps = mm.group(1).split()
            if len(ps) != len(variables) + sum(changed):
                said.append(f"{path}: {arg} has {len(ps)} variables for {len(variables)} and {sum(changed)}")
                continue
            sub = {}
            for p, v, ch in zip(ps, variables, changed):
                sub[p] = f"l.initial.{v}" if ch else f"l.{v}"
            for p, v in zip(ps[len(variables) :], [v for v, ch in zip(variables, changed) if ch]):
                sub[p] = f"l.{v}"
            text_of_term = re.sub(rf"to_z w\d+ ({'|'.join(map(re.escape, ps))})(?![\w-])", r"\1", mm.group(2))
            text_of_term = re.sub(r"\(([\w-]+[₀-₉]?)\)", r"\1", text_of_term)
            term = substitute(text_of_term, sub)
            new = f"{kind}-{names[1]}"
            comment = "".join(l + "\n" for l in old.split("\n") if l.startswith("--"))
            if not (kind == "decreases" and re.search(r"\.\.|rev", "")):
                invariants.append(f"{comment}abbrev pub {new} : goal.{new}\n{new} l ={term.rstrip()}\n")
            body = body.replace(old, "", 1)
            used_inv.append(arg)
    # answers
    goal_of = {}
    extra = []
    for arg, (old, new), at in zip(args[2 * len(loops) :], needs, e["asked_at"]):
        if arg.startswith("("):
            mm = re.fullmatch(r"(?s)\(λ (\w+)( \w+)?\.\s*(.*)\)", arg)
            if mm and mm.group(3).strip() in ("search rules", "search needs"):
                continue
            if mm:
                term = re.sub(r"(?:\.before)+(?![\w-])", "", mm.group(3))
                term = rename(term, at[0])
                extra.append((f"pub {new} : goal.{new}\n{new} {mm.group(1)} = {term}", new, at))
            else:
                said.append(f"{path}: answer {arg[:60]} for {new}")
            continue
        goal_of.setdefault(arg, []).append((new, at))
    lemmas = {}
    for mm in re.finditer(r"(?m)^\s*(?:pub |abbrev |unfoldable )*(\S+) :\s*(?:\n\s*)?\((\w+) : tie\.([^\s()]+)[^()]*\)", body):
        lemmas[mm.group(1)] = norm(mm.group(3))
    for mm in re.finditer(r"(?m)^\s*(?:pub |abbrev |unfoldable )*(\S+) :\s*(?:\n\s*)?tie\.(?!Need|invariant|decreases)([^\s()]+)[^→\n]*→", body):
        lemmas[mm.group(1)] = norm(mm.group(2))
    goal_at = {}
    for (old, new), at in zip(needs, e["asked_at"]):
        goal_at.setdefault(norm(at[0]), new)
    for mm in re.finditer(r"(?m)^module _ \((\w+) : tie\.([^\s()]+)[^\n]*where\n((?:  [^\n]*\n?|\s*\n)*)", body):
        for d in re.findall(r"(?m)^  (?:pub |abbrev |unfoldable )*(\S+) : ", mm.group(3)):
            lemmas[d] = norm(mm.group(2))

    def type_of(mm):
        p = norm(mm.group(1))
        if p in exported:
            cited.add(exported[p])
            return exported[p]
        said.append(f"{path}: no place {mm.group(1)}")
        return mm.group(1)

    final = []
    done = set()
    for ch in decls(body):
        mm = re.search(r"(?m)^(?:pub |abbrev )*(\S+) :\s*(?:\n\s*)?tie\.Need-[^\n]*(?:\n(?=    )[^\n]*)*\n", ch)
        if mm and mm.group(1) in goal_of:
            name = mm.group(1)
            done.add(name)
            comment = ch[: mm.start()]
            rest = ch[mm.end() :]
            for new, at in goal_of[name]:
                r = re.sub(rf"(?m)^{re.escape(name)} (\w+)( κs)?", lambda q: f"{new} {q.group(1)}", rest)
                r = re.sub(rf"(?m)^{re.escape(new)} ", f"\0{new}\0 ", r)
                final.append((f"{comment}pub \0{new}\0 : goal.\0{new}\0\n{r}", new, at))
        elif mm:
            said.append(f"{path}: {mm.group(1)} is no answer")
            final.append((ch, None, None))
        else:
            final.append((ch, None, None))
    final += extra
    text_out = []
    for ch, new, at in final:
        if not ch.strip():
            continue
        for old_name, gs in goal_of.items():
            if old_name != gs[0][0]:
                ch = re.sub(rf"(?<![\w.-]){re.escape(old_name)}(?![\w-])(?= )(?! :)", gs[0][0], ch) if not new else re.sub(rf"(?<![\w.\-]){re.escape(old_name)}(?![\w\-]) (?=\w|\()", gs[0][0] + " ", ch)
        for _ in range(6):
            for a, b in re.findall(r"let (\w+) = ([a-z]\w?) in", ch):
                if len(re.findall(rf"let {a} =|λ[^.]*(?<![\w-]){a}(?![\w-])", ch)) == 1 and a != b:
                    ch = re.sub(rf"(?m)^\s*let {a} = {b} in\n|let {a} = {b} in ", "", ch)
                    ch = re.sub(rf"(?<![\w.\-]){a}(?![\w\-])", b, ch)
        if new:
            aliases = {"c"} | set(re.findall(r"let (\w+) = c in", ch))
            for l, p in lemmas.items():
                if p in exported and norm(at[0]) != p:
                    for a in aliases:
                        ch = re.sub(rf"(?<![\w.\-]){re.escape(l)} {a}(?![\w.\-])", lambda q: f"{l} (goal.at.{new} c).{exported[p]}", ch)
        else:
            for d in re.finditer(r"(?m)^(\s*)(?:pub |abbrev |unfoldable )*(\S+) :", ch):
                own = lemmas.get(d.group(2))
                if own not in goal_at:
                    continue
                arg = re.search(rf"(?m)^\s*{re.escape(d.group(2))} (\w+)", ch)
                mod = re.search(r"(?m)^module _ \((\w+) :", ch)
                a = mod.group(1) if mod else arg.group(1) if arg else "c"
                for l, p in lemmas.items():
                    if p in exported and p != own and l != d.group(2):
                        ch = re.sub(rf"(?<![\w.\-]){re.escape(l)} {a}(?![\w.\-])(?! :)(?! =)", lambda q: f"{l} (goal.at.{goal_at[own]} {a}).{exported[p]}", ch)
        if new:
            old_goal = next(o for o, n in needs if n == new)
            labels = e["asked"].get(old_goal)
            if labels:
                ch = labelled(ch, labels)
        ch = ch.replace("\0", "")
        for a in re.findall(r"let (\w+) = c in", ch):
            if len(re.findall(rf"(?<![\w.\-]){a} =|λ[^.]*(?<![\w-]){a}(?![\w-])", ch)) == 1:
                ch = re.sub(rf"(?m)^\s*let {a} = c in\n|let {a} = c in ", "", ch)
                ch = re.sub(rf"(?<![\w.\-]){a}(?![\w\-])", "c", ch)
        text_out.append(ch.rstrip())
    body = "\n\n".join(text_out)
    body = re.sub(r"tie\.([^\s()]+)((?: (?:invariant|decreases)-loop\d*)*)", type_of, body)
    body = re.sub(r"(?<![\w-])κs(?![\w-])", "", body) if "κs" in body and False else body
    body = re.sub(
        r"to_z-of_z \(sfits_of (\w+)\.(" + ID + r")\.type_inv\)",
        lambda q: f"back {widths[callee[q.group(2)].split('::')[-1]]} {q.group(1)}.{q.group(2)}.result {q.group(1)}.{q.group(2)}.type_inv"
        if callee.get(q.group(2)) and callee[q.group(2)].split("::")[-1] in widths
        else q.group(0),
        body,
    )
    if "back w" in body:
        uses += ["use mir.Syntax.{w16, w32, w64}\n"] if not any("mir.Syntax" in u for u in uses) else []
        uses = [re.sub(r"(use mir\.Syntax\.\{)[^}]*\}", r"\1w16, w32, w64}", u) for u in uses]
        if not any(re.search(r"integers\.proofs\.Bits\.\{[^}]*\bback\b", u) for u in uses):
            if any("integers.proofs.Bits" in u for u in uses):
                uses = [re.sub(r"(integers\.proofs\.Bits\.\{)", r"\1back, ", u) for u in uses]
            else:
                uses.append("use Rattle.integers.proofs.Bits.{back}\n")
    folder = os.path.dirname(path)
    if invariants:
        inv = "\n".join(invariants)
        locals_used = [n for n in re.findall(r"(?m)^(?:pub |abbrev |unfoldable )*(\S+) :", body) if re.search(rf"(?<![\w.-]){re.escape(n)}(?![\w-])", inv)]
        if locals_used:
            said.append(f"{path}: the invariants name {', '.join(locals_used)} of this file")
        us = needed(uses, inv)
        open(os.path.join(folder, "Invariants.antt"), "w").write(head + "".join(u + "\n" for u in us) + f"use Rattle.{crate}.proofs.{fn}.Given as goal\n\n" + inv)
    if body.strip():
        us = needed(uses, body)
        if cited:
            us.append(f"use Rattle.{crate}.proofs.{fn}.Goals.{{{', '.join(sorted(cited))}}}")
        open(os.path.join(folder, "Answers.antt"), "w").write(head + "".join(u + "\n" for u in us) + f"use Rattle.{crate}.proofs.{fn}.Goals as goal\n\n" + body + "\n")
    os.remove(path)
    return "\n".join(said)


def main(argv):
    if len(argv) < 2:
        raise SystemExit(__doc__)
    src = source_names(".")
    widths = results(".")
    for crate in argv[1:]:
        d = json.load(open(os.path.join(argv[0], "crates", crate, "names.json")))
        for path in sorted(glob.glob(f"crates/{crate}/proofs/**/Proof.antt", recursive=True)):
            fn = ".".join(path.split("/proofs/", 1)[1].split("/")[:-1])
            e = d[f"Rattle-{crate}-proofs.{fn}.Lts"]
            said = turn(path, crate, fn, e, src, widths)
            if said:
                print(said)


if __name__ == "__main__":
    main(sys.argv[1:])
