#!/usr/bin/env python3
"""Turns the Rattle crates of a clone into plain Rust crates: gen.py CLONE WORKSPACE."""
import os
import re
import sys

SHIM = os.path.dirname(os.path.abspath(__file__))
OUTSIDE = ["sqlite_items", "indexmap", "itoa", "unicode", "unicode_ident", "smallvec", "byteorder"]
KEPT_ATTRIBUTES = {"derive", "inline", "allow", "must_use", "macro_export", "repr", "default", "non_exhaustive"}
WORD = re.compile(r"[A-Za-z_][A-Za-z_0-9]*")


def skip_plain(text, i):
    """The end of a comment, string or character at i, or i where none begins."""
    c = text[i]
    if text.startswith("//", i):
        end = text.find("\n", i)
        return len(text) if end < 0 else end
    if text.startswith("/*", i):
        end = text.find("*/", i)
        return len(text) if end < 0 else end + 2
    if c == '"':
        j = i + 1
        while j < len(text) and text[j] != '"':
            j += 2 if text[j] == "\\" else 1
        return j + 1
    if c == "r" and re.match(r'r#*"', text[i:i + 9]):
        hashes = re.match(r'r(#*)"', text[i:]).group(1)
        end = text.find('"' + hashes, i + 2 + len(hashes))
        return end + 1 + len(hashes)
    if c == "'":
        m = re.match(r"'(\\u\{[0-9A-Fa-f_]+\}|\\x[0-9A-Fa-f]{2}|\\.|[^\\'\n])'", text[i:i + 14])
        if m:
            return i + m.end()
    return i


def balanced(text, i):
    """The end of the bracketed text that begins at i."""
    pairs = {"{": "}", "(": ")", "[": "]"}
    opening, closing = text[i], pairs[text[i]]
    depth = 0
    while i < len(text):
        j = skip_plain(text, i)
        if j > i:
            i = j
            continue
        if text[i] == opening:
            depth += 1
        elif text[i] == closing:
            depth -= 1
            if depth == 0:
                return i + 1
        i += 1
    raise ValueError("unbalanced " + opening)


def logic_balanced(text, i):
    """As balanced, for a clause: a quote may be a prime."""
    depth = 0
    while i < len(text):
        if text.startswith("//", i):
            i = text.find("\n", i)
            continue
        m = re.match(r"'(\\.|[^\\'\n])'", text[i:i + 6])
        if m and not (i and (text[i - 1].isalnum() or text[i - 1] in "_'")):
            i += m.end()
            continue
        if text[i] == '"':
            j = skip_plain(text, i)
            i = j
            continue
        if text[i] == "{":
            depth += 1
        elif text[i] == "}":
            depth -= 1
            if depth == 0:
                return i + 1
        i += 1
    raise ValueError("unbalanced clause")


def space(text, i):
    while i < len(text):
        if text[i].isspace():
            i += 1
            continue
        if text.startswith("//", i):
            end = text.find("\n", i)
            i = len(text) if end < 0 else end
            continue
        break
    return i


def item_end(text, i):
    """The end of the item at i: to its `;` or over its braces."""
    while i < len(text):
        j = skip_plain(text, i)
        if j > i:
            i = j
            continue
        if text[i] in "([":
            i = balanced(text, i)
            continue
        if text[i] == "{":
            return balanced(text, i)
        if text[i] == ";":
            return i + 1
        i += 1
    return i


def attribute(text, i):
    """The replacement and the end of the attribute at i."""
    start = text.index("[", i)
    end = balanced(text, start)
    body = text[start + 1:end - 1].strip()
    name = WORD.match(body)
    name = name.group(0) if name else ""
    if name == "derive":
        inner = body[body.index("(") + 1:body.rindex(")")]
        parts = [p.strip() for p in inner.split(",")]
        parts = [p for p in parts if p and p not in ("Drop", "Emptied", "MadeWith")]
        if "Debug" not in parts:
            parts.append("Debug")
        return ("#[derive(" + ", ".join(parts) + ")]" if parts else ""), end
    if name == "cfg" and "test" in body and "not(" not in body.replace(" ", ""):
        j = space(text, end)
        while text[j] == "#":
            _, j = attribute(text, j)
            j = space(text, j)
        return "", item_end(text, j)
    if name == "cfg" and "not(test)" in body.replace(" ", ""):
        return "", end
    if name in ("test", "should_panic"):
        j = space(text, end)
        while text[j] == "#":
            _, j = attribute(text, j)
            j = space(text, j)
        return "", item_end(text, j)
    return (text[i:end] if name in KEPT_ATTRIBUTES else ""), end


def ghost_end(text, i):
    """The end of the ghost item at i."""
    j = space(text, i + 5)
    word = WORD.match(text, j)
    if word and word.group(0) == "use":
        return text.index(";", j) + 1
    while j < len(text) and text[j] not in "{;,":
        j += 1
    while j < len(text):
        if text[j] == "{":
            j = logic_balanced(text, j)
            k = space(text, j)
            if text.startswith("=", k):
                j = space(text, k + 1)
                continue
            if k < len(text) and text[k] in ";,":
                return k + 1
            return j
        if text[j] in ";,":
            return j + 1
        j += 1
    return j


def clause_end(text, i):
    j = space(text, i)
    if text.startswith("*", j):
        j = space(text, j + 1)
    word = WORD.match(text, j)
    if word:
        j = space(text, word.end())
    if not text.startswith("{", j):
        return None
    return logic_balanced(text, j)


MACROS = {"vec": "::rstd::rvec", "format": "::rstd::rformat", "prove": "::rstd::nothing",
          "prove_eq": "::rstd::nothing", "prove_ne": "::rstd::nothing",
          "println": "::rstd::rprintln", "eprintln": "::rstd::reprintln", "print": "::rstd::rprint"}


def convert(text):
    out = []
    i = 0
    while i < len(text):
        j = skip_plain(text, i)
        if j > i:
            out.append(text[i:j])
            i = j
            continue
        c = text[i]
        if c == "#" and re.match(r"#!?\s*\[", text[i:i + 6]):
            keep, i = attribute(text, i)
            out.append(keep)
            continue
        m = WORD.match(text, i)
        if not m:
            out.append(c)
            i += 1
            continue
        word = m.group(0)
        after = m.end()
        if word == "ghost":
            skipped = ghost_end(text, i)
            out.append("\n" * text.count("\n", i, skipped))
            i = skipped
            continue
        if word == "pub" and re.match(r"pub(\([a-z ]*\))?\s+ghost\b", text[i:]):
            at = text.index("ghost", i)
            i = ghost_end(text, at)
            continue
        if word in ("requires", "ensures"):
            end = clause_end(text, after)
            if end is not None:
                out.append("\n" * text.count("\n", i, end))
                i = end
                continue
        if word == "impl":
            brace = text.find("{", i)
            head = text[i:brace]
            if re.search(r"\bModel\s+for\b", head):
                end = balanced_model(text, brace)
                out.append("\n" * text.count("\n", i, end))
                i = end
                continue
        if word == "use" and re.match(r"use\s+std::marker::Model\s*;", text[i:]):
            i = text.index(";", i) + 1
            continue
        if word == "std" and text.startswith("::", after) and not text[:i].endswith("::"):
            out.append("::rstd")
            i = after
            continue
        if word in MACROS and text.startswith("!", after) and not text[:i].endswith("::"):
            out.append(MACROS[word])
            i = after
            continue
        if word in ("assert", "assert_eq", "assert_ne", "panic", "debug_assert") and re.match(r"!\s*\(\s*\w+\s*;", text[after:]):
            semi = text.index(";", after)
            out.append("::rstd::" + "r" + word + "!(")
            i = semi + 1
            continue
        if word == "mod":
            n = re.match(r"mod\s+[a-z_0-9]+\s*\{", text[i:])
            if n:
                out.append(text[i:i + n.end()] + " #[allow(unused_imports)] use ::rstd::prelude::*; ")
                i += n.end()
                continue
        if word in ("to_string", "clone_from") and out and "".join(out[-1:]).endswith(".") and re.match(r"\(\s*[^)\s]", text[after:]):
            out.append(word + "_in")
            i = after
            continue
        out.append(word)
        i = after
    return "".join(out)


# Types that print as what they hold.
PLAIN = {"Name": "text", "Text": "text", "Token": "text", "Items": "items", "Boxed": "inner", "Shared": "inner"}


def plain_debug(text):
    """A wrapper's own Debug in place of the derived one."""
    for name, field in PLAIN.items():
        m = re.search(r"#\[derive\(([^)]*)\)\](\s*(?:#\[[^\]]*\]\s*)*(?:///[^\n]*\n\s*)*pub struct %s(<T>)? \{\s*%s:)" % (name, field), text)
        if not m:
            continue
        rest = ", ".join(p for p in m.group(1).split(", ") if p != "Debug")
        derive = f"#[derive({rest})]" if rest else ""
        bound = "<T: ::std::fmt::Debug>" if m.group(3) else ""
        text = text[:m.start()] + derive + m.group(2) + text[m.end():]
        text += (f"\nimpl{bound} ::std::fmt::Debug for {name}{m.group(3) or ''} {{ fn fmt(&self, f: &mut ::std::fmt::Formatter<'_>)"
                 f" -> ::std::fmt::Result {{ ::std::fmt::Debug::fmt(&self.{field}, f) }} }}\n")
    return text


def balanced_model(text, brace):
    return logic_balanced(text, brace)


def with_prelude(text):
    """The prelude's line after the inner documents and attributes."""
    lines = text.split("\n")
    at = 0
    while at < len(lines) and (not lines[at].strip() or lines[at].lstrip().startswith(("//!", "#![", "// "))):
        at += 1
    lines.insert(at, "#[allow(unused_imports)] use ::rstd::prelude::*;")
    return "\n".join(lines)


def write(path, text):
    os.makedirs(os.path.dirname(path), exist_ok=True)
    try:
        with open(path) as f:
            if f.read() == text:
                return
    except FileNotFoundError:
        pass
    with open(path, "w") as f:
        f.write(text)


def sources(folder):
    for base, _, files in os.walk(folder):
        for name in files:
            if name.endswith(".rt"):
                yield os.path.join(base, name)


ROOT = "#![allow(warnings, arithmetic_overflow, unconditional_panic)]\n#![recursion_limit = \"512\"]\n"
MAIN = """
fn main() -> ::std::process::ExitCode {
    ::rstd::big_stack(|| ::std::process::Termination::report(rattle_main(::rstd::HostRuntime::new())))
}
"""


def crate(clone, name, names, out):
    src = os.path.join(clone, "crates", name, "src")
    target = os.path.join(out, name)
    used, written = set(), set()
    for path in sorted(sources(src)):
        with open(path, encoding="utf-8") as f:
            text = f.read()
        try:
            text = convert(text)
        except (ValueError, IndexError) as error:
            print(f"gen.py: {path}: {error}", file=sys.stderr)
        bare = re.sub(r"//[^\n]*", "", text)
        used |= set(re.findall(r"\b([a-z][a-z_0-9]*)::", bare))
        used |= set(re.findall(r"\buse ([a-z][a-z_0-9]*);", bare))
        text = with_prelude(plain_debug(text))
        relative = os.path.relpath(path, src)[:-3] + ".rs"
        if relative in ("lib.rs", "main.rs"):
            text = ROOT + text
        if relative == "main.rs":
            text = re.sub(r"\bfn main\(", "fn rattle_main(", text) + MAIN
        place = os.path.join(target, "src", relative)
        written.add(place)
        write(place, text)
    for base, _, files in os.walk(os.path.join(target, "src")):
        for file in files:
            if os.path.join(base, file) not in written:
                os.unlink(os.path.join(base, file))
    lines = ["[package]", f'name = "{name}"', 'version = "0.1.0"', 'edition = "2021"', "",
             "[dependencies]", f'rstd = {{ path = "{SHIM}/libs/rstd" }}']
    for other in sorted(used & set(names)):
        if other != name:
            lines.append(f'{other} = {{ path = "../{other}" }}')
    for other in sorted(used & set(OUTSIDE)):
        lines.append(f'{other} = {{ path = "{SHIM}/libs/{other}" }}')
    write(os.path.join(target, "Cargo.toml"), "\n".join(lines) + "\n")


def main():
    clone, out = sys.argv[1], sys.argv[2]
    crates = os.path.join(clone, "crates")
    names = sorted(n for n in os.listdir(crates) if any(sources(os.path.join(crates, n, "src"))))
    for name in names:
        crate(clone, name, names, out)
    for old in os.listdir(out):
        if os.path.exists(os.path.join(out, old, "Cargo.toml")) and old not in names and old.startswith("gft_"):
            for base, dirs, files in os.walk(os.path.join(out, old), topdown=False):
                for file in files:
                    os.unlink(os.path.join(base, file))
                for d in dirs:
                    os.rmdir(os.path.join(base, d))
            os.rmdir(os.path.join(out, old))
    drivers = os.path.join(out, "drivers")
    members = list(names)
    if os.path.isdir(drivers):
        members += ["drivers/" + d for d in sorted(os.listdir(drivers))
                    if os.path.exists(os.path.join(drivers, d, "Cargo.toml"))]
    text = "[workspace]\nresolver = \"2\"\nmembers = [\n" + "".join(f'    "{n}",\n' for n in members) + "]\n\n"
    text += "[profile.dev]\nopt-level = 1\ndebug = 1\nincremental = true\noverflow-checks = true\n\n"
    text += "[profile.release]\nopt-level = 3\ndebug = 1\noverflow-checks = true\n"
    write(os.path.join(out, "Cargo.toml"), text)


main()
