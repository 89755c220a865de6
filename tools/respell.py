#!/usr/bin/env python3
"""Brings the repository's own definitions, lemmas and local names to snake case, after the kit's port.py: tools/respell.py (at the top, once); `tools/respell.py nested`
turns the private definitions inside modules alone, which the first run of it had left.

Types, modules and constructors keep their camel case; functions of src/, exported names, strings, inputs and outputs keep their names. Where two
names of the repository would fall together, one gets the name that TOGETHER says. Names that proofs share with the kit's library are left."""
import collections, glob, os, re, sys

# Names that would fall together with another one of the repository: a lemma beside the definition of its name gets `_lem`, as in the kit's library.
TOGETHER = {
    "all-zero": "all_zero_lem", "any_below": "any_below_lem", "any-of": "any_of_lem", "clear-op": "clear_op_lem", "clear-start": "clear_start_lem",
    "file-length": "file_length_lem", "id-length": "id_length_lem", "inOrder": "is_in_order", "key-length": "key_length_lem",
    "mask-sum": "mask_sum_lem", "padding-length": "padding_length_lem", "place-in": "place_in_lem", "prints-length": "prints_length_lem",
    "response-length": "response_length_lem", "row-in": "row_in_lem", "scale-op": "scale_op_lem", "seed-length": "seed_length_lem",
    "swap-op": "swap_op_lem", "table-answers": "table_answers_lem", "unit-at": "unit_at_lem", "three-agree": "three_agree_lem",
    "zero-second": "zero_second_lem", "fresh-calls": "fresh_encodes", "auxiliaryLent": "lent_auxiliary", "bit-xor": "xor_of_bits",
}
# The same of private definitions inside a module.
NESTED_TOGETHER = {
    "out-of-rule": "out_of_rule_lem", "row-for": "row_for_lem", "named-block": "named_block_lem", "record-over": "record_over_lem",
    "gather-answer": "gather_answer_lem",
}
TOKEN = re.compile(r"[^\s(){}\[\],.;:|«»`\"]+")
SIGNED = re.compile(r"(\s*)((?:(?:abbrev|pub|unfoldable)\s+)*)([^\s:({λ]+)\s+:\s(.*)")
FROM_KIT = re.compile(r"(?:ghost )?use (?:Rattle\.std|Prim|mathlib|lib|native|borrow|seplogic|logic)\b[\w.'-]*\.\{([^}]*)\}")


def snake(name):
    if name in TOGETHER:
        return TOGETHER[name]
    if not re.match(r"[a-z]", name):
        return name
    return re.sub(r"([a-z0-9])([A-Z])", lambda m: m[1] + "_" + m[2].lower(), name.replace("-", "_"))


def own_names(paths):
    found = set(TOGETHER)
    for path in paths:
        for line in open(path, encoding="utf-8"):
            m = SIGNED.match(line)
            if m and (not m[1] or m[2]) and not m[4].startswith(("tie.", "{M : Type 1} → statement")):
                found.add(m[3])
    return found


def nested_names(path):
    """The private definitions inside the modules of one file: no other file sees them."""
    if os.path.basename(path) in ("Proof.antt", "Answers.antt", "Invariants.antt"):
        return set()
    found = set()
    for line in open(path, encoding="utf-8"):
        m = SIGNED.match(line)
        if m and m[1] and not m[2] and re.fullmatch(r"[a-z][\w']*(?:-[\w']+)+", m[3]):
            found.add(m[3])
    return found


def kit_names(paths):
    found = set()
    for path in paths:
        for names in FROM_KIT.findall(open(path, encoding="utf-8").read()):
            for name in names.split(","):
                found.update(name.split(" as ")[:1] and [name.split(" as ")[0].strip()])
    return found


def nested_respelled(path):
    """The private definitions inside the modules of a file of laws; says which would fall together with another name of the file."""
    text = open(path, encoding="utf-8").read()
    tokens = set(TOKEN.findall(text))
    names = {name: NESTED_TOGETHER.get(name, name.replace("-", "_")) for name in nested_names(path) - kit_names([path])}
    for name, new in sorted(names.items()):
        if new in tokens:
            print(f"{path}: {name} and {new} fall together")
    lines = []
    for line in text.split("\n"):
        code, mark, comment = line.partition("--")
        lines.append(TOKEN.sub(lambda m: names.get(m[0], m[0]), code) + mark + comment)
    new_text = "\n".join(lines)
    if new_text != text:
        open(path, "w", encoding="utf-8").write(new_text)


def is_camel(token):
    return re.fullmatch(r"[a-z][a-z0-9]*(?:[A-Z][a-z0-9]*)+(?:-[\w']+)*'*", token) is not None


def respelled(text, own, comment_mark, seen):
    out = []
    for line in text.split("\n"):
        code, mark, comment = line.partition(comment_mark)

        def turn(m):
            token = m[0]
            if token in own or is_camel(token):
                seen[snake(token)].add(token)
                return snake(token)
            return token

        def turn_said(m):
            return snake(m[0]) if m[0] in own and ("-" in m[0] and m[0] in said or is_camel(m[0])) else m[0]

        said = set(re.findall(r"`([^`]+)`", comment))
        out.append(TOKEN.sub(turn, code) + mark + TOKEN.sub(turn_said, comment))
    return "\n".join(out)


def ghost_only(text, turn):
    """Turns the ghost parts of a source file alone: its `ghost use` lines, and what stands in the braces of clauses."""
    out, at = [], 0
    for m in re.finditer(r"^ghost use [^;]*;|^ *(?:requires|ensures|ghost)\b[^{\n]*\{", text, re.M):
        if m.start() < at:
            continue
        end = m.end()
        if m[0].endswith("{"):
            depth = 1
            while depth:
                depth += {"{": 1, "}": -1}.get(text[end], 0)
                end += 1
        out += [text[at:m.start()], turn(text[m.start():end])]
        at = end
    return "".join(out) + text[at:]


def main(only_nested):
    proofs = sorted(glob.glob("crates/*/specs/**/*.antt", recursive=True) + glob.glob("crates/*/proofs/**/*.antt", recursive=True))
    sources = sorted(glob.glob("crates/*/src/*.rt"))
    own = own_names(proofs) - (kit_names(proofs + sources) - set(TOGETHER))
    own = {name for name in own if snake(name) != name}
    status = 0
    for path in [] if only_nested else proofs + sources:
        seen = collections.defaultdict(set)
        text = open(path, encoding="utf-8").read()
        if path.endswith(".rt"):
            new = ghost_only(text, lambda part: respelled(part, own, "//", seen))
        else:
            new = respelled(text, own, "--", seen)
        if path.endswith(".rt"):
            code = ghost_only(text, lambda part: "")
            for name in sorted({new for new in seen if re.search(rf"\b(?:fn|let|let mut) {new}\b|\b{new}: ", code)}):
                print(f"{path}: {name} is a name of the code too, in place of {', '.join(sorted(seen[name]))}")
        tokens = set(TOKEN.findall(text))
        for name, olds in seen.items():
            if len(olds | ({name} & tokens)) > 1 and not (path.endswith(".rt") and name in tokens and len(olds) == 1):
                print(f"{path}: {', '.join(sorted(olds | ({name} & tokens)))} fall together")
                status = 1
        if new != text:
            open(path, "w", encoding="utf-8").write(new)
    for path in proofs:
        nested_respelled(path)
    return status


if __name__ == "__main__":
    sys.exit(main(sys.argv[1:] == ["nested"]))
