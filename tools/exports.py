#!/usr/bin/env python3
"""Holds the exports of the crate `capi` against the C header and the Rust crate: the same names; each parameter's place, name and type; what is
answered. The structs that come back by value: their fields, in order, with their types. And the numbers of the answers and of the components, in the
header and in the Rust crate, against the definitions (evc).

    tools/exports.py              `15 exports agree`; or each difference with both texts, and exit status 1
    tools/exports.py --mutants    tries wrong variants of each text, in memory: each must be a difference; exit status 1 where one is none

A slice `x: &[i16]` of an export is `const int16_t *x, size_t x_len` in C, and `x: *const i16, x_len: usize` in Rust; with `&mut` there is no const.
A struct `TvReport` of the crate `boundary` is `struct tv_report` in C, and `TvReport` in Rust.
"""
import re
import sys
from itertools import zip_longest
from pathlib import Path

ROOT = Path(__file__).resolve().parent.parent
CAPI, BOUNDARY = (sorted(str(p.relative_to(ROOT)) for p in (ROOT / "crates" / name / "src").glob("*.rt")) for name in ("capi", "boundary"))
HEADER, RAW, LIB = "include/tashvelun.h", "rust/src/raw.rs", "rust/src/lib.rs"
ANSWERS = "crates/evc/specs/Answers.antt"
C_TYPES = {f"{u}int{n}_t": f"{u or 'i'}{n}" for u in ("", "u") for n in (8, 16, 32, 64)} | {"size_t": "usize"}
TYPES = {t: t for t in C_TYPES.values()}


class Unread(Exception):
    """A text has not the form that is read here."""


class Part:
    """A parameter, a field, an answer or a number: what it means, how it is written, and where that stands in the text."""

    def __init__(self, means, text, at):
        self.means, self.text, self.at = means, text, at


class Function:
    def __init__(self, path, parameters, answer, at, name_at):
        self.path, self.parameters, self.answer, self.at, self.name_at = path, parameters, answer, at, name_at


class Struct:
    def __init__(self, path, fields, at, name_at):
        self.path, self.fields, self.at, self.name_at = path, fields, at, name_at


# ---- reading


def without(comments, text):
    """The text with blanks for its comments, so that places stay."""
    return re.sub(comments, lambda m: re.sub(r"[^\n]", " ", m[0]), text, flags=re.S)


def number_type(types, word, where):
    if word not in types:
        raise Unread(f"{where}: the type {word} is not known")
    return types[word]


def of_export(words, where):
    """Name, pointer and type of what C and Rust must have for a parameter of an export: for a slice two."""
    m = re.fullmatch(r"(\w+): (?:(&mut |&)(?:\[(\w+)\]|(\w+))|(\w+))", words)
    if not m:
        raise Unread(f"{where}: `{words}`")
    yield m[1], {"&": "const", "&mut ": "mut", None: ""}[m[2]], number_type(TYPES, m[3] or m[4] or m[5], where)
    if m[3]:
        yield f"{m[1]}_len", "", "usize"


def of_header(words, where):
    m = re.fullmatch(r"(?:(const )?(\w+) \*|(\w+) )(\w+)", words)
    if not m:
        raise Unread(f"{where}: `{words}`")
    yield m[4], "" if m[3] else "const" if m[1] else "mut", number_type(C_TYPES, m[2] or m[3], where)


def of_rust(words, where):
    m = re.fullmatch(r"(\w+): (?:\*(const|mut) )?(\w+)", words)
    if not m:
        raise Unread(f"{where}: `{words}`")
    yield m[1], m[2] or "", number_type(TYPES, m[3], where)


def answer_type(types, words, where):
    """A number's type, or a struct: in C `struct tv_report`, elsewhere TvReport."""
    if types is C_TYPES and words.startswith("struct "):
        return "struct " + words.split()[1]
    if types is TYPES and words[0].isupper():
        return "struct " + c_name(words)
    return number_type(types, words, where)


def c_name(name):
    """tv_report for TvReport."""
    return re.sub(r"(?<=[a-z0-9])(?=[A-Z])", "_", name).lower()


def structs(path, text, form, mark, field, name_of, types):
    """The structs that `form` finds, by their names in C. Each must be read whole, and there must be one at each mark."""
    out = {}
    for m in re.finditer(form, text, re.S):
        name, start, fields = name_of(m["name"]), m.start("fields"), []
        for f in re.finditer(field, m["fields"]):
            at = start + f.start(), start + f.end()
            fields.append(Part((f["field"], number_type(types, f["type"], f"{path}, {name}")), f[0], at))
        if re.sub(field, "", m["fields"]).strip() or name in out:
            raise Unread(f"{path}: struct {name} can't be read, or stands there twice")
        out[name] = Struct(path, fields, m.span(), m.span("name"))
    if len(re.findall(mark, text)) != len(out):
        raise Unread(f"{path}: of its structs only {len(out)} were read")
    return out


def rust_structs(path, text):
    form = r"#\[repr\(C\)\]\s*(?:#\[derive\([^)]*\)\]\s*)?pub struct (?P<name>\w+)\s*\{(?P<fields>[^{}]*)\}"
    return structs(path, without(r"//[^\n]*", text), form, r"repr\(C\)", r"pub (?P<field>\w+): (?P<type>\w+),", c_name, TYPES)


def functions(path, text, comments, form, marks, meaning, types):
    """The functions that `form` finds, by name. Each mark must stand as often as there are functions, so that none is passed over."""
    text, out = without(comments, text), {}
    for m in re.finditer(form, text, re.S):
        name, start = m["name"], m.start("parameters")
        parameters = []
        for word in re.finditer(r"[^\s,][^,]*", m["parameters"]):
            written = word[0].rstrip()
            at = start + word.start(), start + word.start() + len(written)
            parameters += [Part(p, written, at) for p in meaning(" ".join(written.split()), f"{path}, {name}")]
        answer = Part(answer_type(types, m["answer"], f"{path}, {name}"), m["answer"], m.span("answer"))
        if name in out:
            raise Unread(f"{path}: {name} stands there twice")
        out[name] = Function(path, parameters, answer, m.span(), m.span("name"))
    for mark in marks:
        if len(re.findall(mark, text)) != len(out):
            raise Unread(f"{path}: `{mark}` stands there {len(re.findall(mark, text))} times, and {len(out)} functions were read")
    return out


def numbers(path, text, form):
    """The numbers that `form` finds, by their names in small letters."""
    out = {}
    for m in re.finditer(form, text, re.M):
        name = m["name"].lower()
        if name in out:
            raise Unread(f"{path}: {name} stands there twice")
        out[name] = Part(int(m["number"]), m[0].strip(), m.span("number"))
    return out


def inside(path, text, head):
    """The text with blanks for all but what stands in the braces behind `head`."""
    found = list(re.finditer(head + r"[^{]*\{", text))
    if len(found) != 1:
        raise Unread(f"{path}: `{head}` stands there {len(found)} times")
    start, end, depth = found[0].end(), found[0].end(), 1
    while depth and end < len(text):
        depth += {"{": 1, "}": -1}.get(text[end], 0)
        end += 1
    return re.sub(r"[^\n]", " ", text[:start]) + text[start : end - 1] + re.sub(r"[^\n]", " ", text[end - 1 :])


def read_export(path, text):
    form = r'#\[unsafe\(no_mangle\)\]\s*pub extern "C" fn (?P<name>\w+)\s*\((?P<parameters>[^()]*)\)\s*->\s*(?P<answer>\w+)'
    return {"functions": functions(path, text, r"//[^\n]*", form, (r"no_mangle", r'extern "C"'), of_export, TYPES)}


def read_header(path, text):
    form = r"(?P<answer>(?:struct )?\w+)\s+(?P<name>tv_\w+)\s*\((?P<parameters>[^()]*)\)\s*;"
    record = r"\bstruct (?P<name>\w+)\s*\{(?P<fields>[^{}]*)\}\s*;"
    bare = without(r"/\*.*?\*/|//[^\n]*", text)
    entry = r"\bTV_(?P<name>\w+) = (?P<number>\d+)\b"
    out = {"functions": functions(path, text, r"/\*.*?\*/|//[^\n]*", form, (r"\w\s*\(",), of_header, C_TYPES)}
    out["structs"] = structs(path, bare, record, r"\bstruct \w+\s*\{", r"(?P<type>\w+) (?P<field>\w+);", str, C_TYPES)
    for kind in "answer", "component":
        body = inside(path, bare, rf"\benum tv_{kind}\b")
        out[kind] = numbers(path, body, entry)
        if body.count(",") + 1 != len(out[kind]):
            raise Unread(f"{path}: of enum tv_{kind} only {len(out[kind])} entries were read")
    return out


def read_raw(path, text):
    form = r"\bpub fn (?P<name>\w+)\s*\((?P<parameters>[^()]*)\)\s*->\s*(?P<answer>\w+)\s*;"
    return {"functions": functions(path, text, r"//[^\n]*", form, (r"\bfn\b",), of_rust, TYPES), "structs": rust_structs(path, text)}


def read_structs(path, text):
    return {"structs": rust_structs(path, text)}


def read_lib(path, text):
    bare = without(r"//[^\n]*", text)
    arms = inside(path, bare, r"\bfn answer\(")
    given = numbers(path, arms, r"\b(?P<number>\d+) => Refusal::(?P<name>\w+)")
    for m in re.finditer(r"\b(\d+) => return Ok\(\(\)\)", arms):
        given["accepted"] = Part(int(m[1]), m[0], m.span(1))
    return {
        "refusal": numbers(path, inside(path, bare, r"\benum Refusal\b"), r"\b(?P<name>\w+) = (?P<number>\d+)\b"),
        "answer": given,
        "component": numbers(path, inside(path, bare, r"\bfn component\("), r"\b(?P<number>\d+) => Component::(?P<name>\w+)"),
    }


def read_answers(path, text):
    refusals = numbers(path, text, r"^number (?P<name>\w+) = (?P<number>\d+)$")
    done = numbers(path, text, r"^answer_number \(Ok (?P<name>done)\) = (?P<number>\d+)$")
    components = numbers(path, text, r"^component_number «?(?P<name>\w+)»? = (?P<number>\d+)$")
    return {"refusal": refusals, "answer": refusals | {"accepted": p for p in done.values()}, "component": components}


READERS = dict.fromkeys(CAPI, read_export) | dict.fromkeys(BOUNDARY, read_structs)
READERS |= {HEADER: read_header, RAW: read_raw, LIB: read_lib, ANSWERS: read_answers}
# which numbers are held against which
SAME = [("answer", ANSWERS, HEADER), ("answer", ANSWERS, LIB), ("refusal", ANSWERS, LIB), ("component", ANSWERS, HEADER), ("component", ANSWERS, LIB)]


# ---- comparing


def told(part):
    return " ".join(part.text.split()) if part else "none"


def differences(read):
    """Each with what it is about, and the two places and texts."""
    exports = {}
    for path in CAPI:
        for name, f in read[path]["functions"].items():
            if name in exports:
                yield f"{name} is exported twice", (exports[name].path, name), (path, name)
            exports[name] = f
    if not exports:
        yield "exports", ("crates/capi/src", "none"), (HEADER, f"{len(read[HEADER]['functions'])}")
    ours = {}
    for path in BOUNDARY:
        for name, s in read[path]["structs"].items():
            if name in ours:
                yield f"struct {name} stands twice", (ours[name].path, name), (path, name)
            ours[name] = s
    for path in HEADER, RAW:
        others = read[path]["functions"]
        for name in sorted(exports.keys() | others.keys()):
            e, o = exports.get(name), others.get(name)
            if not e or not o:
                yield "an export", (e.path if e else "crates/capi/src", name if e else "none"), (path, name if o else "none")
                continue
            for i, (p, q) in enumerate(zip_longest(e.parameters, o.parameters)):
                if not p or not q or p.means != q.means:
                    yield f"{name}, parameter {i + 1} as C counts", (e.path, told(p)), (path, told(q))
            if e.answer.means != o.answer.means:
                yield f"{name}, what it answers", (e.path, told(e.answer)), (path, told(o.answer))
        others = read[path]["structs"]
        for name in sorted(ours.keys() | others.keys()):
            s, o = ours.get(name), others.get(name)
            if not s or not o:
                yield "a struct", (s.path if s else "crates/boundary/src", name if s else "none"), (path, name if o else "none")
                continue
            for i, (p, q) in enumerate(zip_longest(s.fields, o.fields)):
                if not p or not q or p.means != q.means:
                    yield f"struct {name}, field {i + 1}", (s.path, told(p)), (path, told(q))
    for name, e in exports.items():
        if e.answer.means.startswith("struct ") and e.answer.means.split()[1] not in ours:
            yield f"{name}, what it answers", (e.path, told(e.answer)), ("crates/boundary/src", "none")
    for kind, one, other in SAME:
        a, b = read[one][kind], read[other][kind]
        if not a:
            yield f"the numbers of each {kind}", (one, "none"), (other, f"{len(b)}")
        for name in sorted(a.keys() | b.keys()):
            p, q = a.get(name), b.get(name)
            if not p or not q or p.means != q.means:
                yield f"the {kind} {name}", (one, told(p)), (other, told(q))


# ---- wrong variants


def put(text, at, new):
    return text[: at[0]] + new + text[at[1] :]


def variants(path, text, read):
    """Wrong variants of a text, each with what is wrong."""
    types = list(C_TYPES if path == HEADER else TYPES)
    number = lambda part: next(m for m in re.finditer(r"\w+", part.text) if m[0] in types)
    for f in read.get("functions", {}).values():
        yield "an export missing", put(text, f.at, "")
        yield "an export renamed", put(text, f.name_at, text[slice(*f.name_at)] + "x")
        other = f.answer.text + "x" if f.answer.means.startswith("struct ") else "struct tv_report" if path == HEADER else "TvReport"
        for t in next(t for t in types if t != f.answer.text), other:
            yield "another answer", put(text, f.answer.at, t)
        # a slice is written once
        parts = list({p.at: p for p in f.parameters}.values())
        for p, q in zip(parts, parts[1:]):
            yield "two arguments exchanged", put(put(text, q.at, p.text), p.at, q.text)
            yield "an argument missing", put(text, (p.at[0], q.at[0]), "")
        for p in parts:
            word = number(p)
            for t in types:
                if t != word[0]:
                    yield "another type", put(text, p.at, p.text[: word.start()] + t + p.text[word.end() :])
            name = p.means[0].removesuffix("_len") if path in CAPI else p.means[0]
            yield "an argument renamed", put(text, p.at, re.sub(rf"\b{name}\b", name + "x", p.text))
            for old, new in ("&mut ", "&"), ("*const ", "*mut "), ("*mut ", "*const "), ("const ", ""), ("*const ", ""), ("*mut ", ""):
                if p.text.startswith(old) or f": {old}" in p.text:
                    yield "const dropped or added, or no pointer", put(text, p.at, p.text.replace(old, new, 1))
            if "&" in p.text and "&mut" not in p.text:
                yield "const dropped or added, or no pointer", put(text, p.at, p.text.replace("&", "&mut "))
            if path == HEADER and "*" in p.text and "const" not in p.text:
                yield "const dropped or added, or no pointer", put(text, p.at, "const " + p.text)
            if "[" in p.text or path == HEADER and "*" in p.text:
                yield "const dropped or added, or no pointer", put(text, p.at, re.sub(r"[\[\]*]", "", p.text))
    for s in read.get("structs", {}).values():
        yield "a struct missing", put(text, s.at, "")
        yield "a struct renamed", put(text, s.name_at, text[slice(*s.name_at)] + "x")
        yield "a field added", put(text, (s.fields[-1].at[1],) * 2, re.sub(rf"\b{s.fields[-1].means[0]}\b", "more", s.fields[-1].text))
        for i, p in enumerate(s.fields):
            yield "a field missing", put(text, p.at, "")
            yield "a field renamed", put(text, p.at, re.sub(rf"\b{p.means[0]}\b", p.means[0] + "x", p.text))
            for q in s.fields[i + 1 :]:
                yield "two fields exchanged", put(put(text, q.at, p.text), p.at, q.text)
            word = number(p)
            for t in types:
                if t != word[0]:
                    yield "a field of another type", put(text, p.at, p.text[: word.start()] + t + p.text[word.end() :])
    for m in re.finditer(r"#\[repr\(C\)\]\s*", text) if "structs" in read else ():
        yield "a struct not laid out as in C", put(text, m.span(), "")
    for kind in "answer", "refusal", "component":
        if path == ANSWERS and kind == "refusal":
            continue  # the same places as its answers
        for p in read.get(kind, {}).values():
            yield f"{kind} renumbered", put(text, p.at, str(p.means + 1))
            yield f"{kind} renumbered", put(text, p.at, str(p.means + 8))


def mutants(texts, read):
    tried, caught = {}, {}
    for path, text in texts.items():
        for what, wrong in variants(path, text, read[path]):
            key = path, what
            tried[key] = tried.get(key, 0) + 1
            try:
                found = wrong != text and any(True for _ in differences(read | {path: READERS[path](path, wrong)}))
            except Unread:
                found = True
            caught[key] = caught.get(key, 0) + found
            if not found:
                print(f"NOT CAUGHT: {path}, {what}")
    for key in tried:
        print(f"{key[0]:<32} {key[1]:<40} {caught[key]:>5} of {tried[key]:>5}")
    print(f"{sum(caught.values())} of {sum(tried.values())} wrong variants caught")
    return 0 if tried and caught == tried else 1


def main():
    if sys.argv[1:] not in ([], ["--mutants"]):
        sys.exit(__doc__)
    texts = {path: (ROOT / path).read_text() for path in READERS}
    try:
        read = {path: READERS[path](path, text) for path, text in texts.items()}
    except Unread as why:
        print(why)
        return 1
    found = list(differences(read))
    for what, *sides in found:
        print("\n".join([what, *(f"  {path:<32} {text}" for path, text in sides)]))
    if found:
        return 1
    if sys.argv[1:]:
        return mutants(texts, read)
    print(f"{sum(len(read[path]['functions']) for path in CAPI)} exports agree")
    return 0


if __name__ == "__main__":
    sys.exit(main())
