"""types.py [ROOT]: what names.py left: names with a hyphen, types and modules, in camel case; `getD` within a name, which is `get_or` by itself; and the word well-formed, where a comment has it
and names.py took it for a lemma's. Run once, after it."""
import pathlib, re, sys
root = pathlib.Path(sys.argv[1] if len(sys.argv) > 1 else ".")
NAMES = {
    "Counts-on_law": "CountsOn", "Fitted-by_law": "FittedBy", "Held-on_law": "HeldOn", "Is-bare_law": "IsBare", "Is-homed_law": "IsHomed", "Is-port_law": "IsPort",
    "Is-read_law": "IsRead", "Is-short_law": "IsShort", "Is-small_law": "IsSmall", "Is-transport_law": "IsTransport", "Ordered-past_law": "OrderedPast",
    "Order-outcome": "OrderOutcome", "reading-variants": "ReadingVariants", "case-of": "case_for",
    "get_d_clear": "get_or_clear", "get_d_set_all": "get_or_set_all", "get_d_set_alike": "get_or_set_alike", "get_d_set_here": "get_or_set_here",
}
COMMENT = re.compile(r"(?m)^([^\S\n]*(?:--|//) .*)$")
WORD = re.compile(r"(?<![\w'-])(?:%s)(?![\w'-])" % "|".join(map(re.escape, NAMES)))
for p in sorted(root.glob("crates/*/*/**/*")) + sorted(root.glob("tests/edits/**/*.edit")):
    if p.suffix not in (".antt", ".rt", ".edit") or "out" in p.relative_to(root).parts or not p.is_file(): continue
    t = p.read_text(encoding="utf-8")
    n = WORD.sub(lambda m: NAMES[m.group(0)], t)
    n = COMMENT.sub(lambda m: m.group(1).replace("well_formed_law", "well-formed"), n)
    if n != t: p.write_text(n, encoding="utf-8")
