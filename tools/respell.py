#!/usr/bin/env python3
"""Respells this repository's own definitions and lemmas: words in snake case.

Run once at the top, after the toolchain's own script has turned the crates. A name in WORDS turns its dashes
and inner capitals to underscores; OTHERS lists the names whose plain respelling another name has already.
Functions of src/, labels, strings, inputs and outputs are not touched.
"""
import pathlib, re, sys

WORDS = """
T-at after-formula after-head after-no after-yes all-cleared all-ended all-spell always-first always-next
and-odd apart-same at-start before-good before-lex before-name before-right begins-same begins-solid
begun-alive binary-kept binary-row binaryBytes binaryRemembers binaryValue bit-no bit-opposite bit-yes
blank-front blanks-not-solid both-good both-lex both-spell caseLine caseLines checkReport clean-body
clean-names close-refused colon-is completes-body completes-front completes-named completes-names
completes-so-far constant-kept constant-row constantValue countLines counts-front counts-length counts-spell
counts-take cut-ended cut-refused cut-spell dead-close dead-mark dead-start drop-put due-same each-name
earlier-stay early-end end-told ended-begun ended-more endedIn endings-sum ends-after ends-lex ends-one
ends-onto every-at every-at-split every-join every-left every-right few-rows few-signals finish-nothing
firm-keeps for-names for-rows formula-ended formula-stays formula-told formula-why from-length front-filled
front-is front-within head-missing head-told head-unfit head-why header-front hopeless-body hopeless-names
in-nil in-snoc in-turn item-same join-absorbs join-assoc join-comm join-no join-over-meet join-same join-yes
joins-kept keeps-join keeps-meet keeps-no keeps-opposite keeps-yes lands-not-ended lands-same lane-keeps
lanes-and lanes-laws lanes-not lanes-or last-all last-break lastEnd lastLine lay-all layerName left-all
left-ctx left-refused left-spell leftDone leftIn length-formulas length-put level-laws level-of lex-append
lex-compare lex-same lex-split lex-upto lift-at light-told lightWord lights-laws long-name long-text long-told
lower-solid made-last many-names many-rows mapped-all mapped-more margins-laws max-absorbs max-bit
max-over-min meet-absorbs meet-after-more meet-after-same meet-assoc meet-more meet-no meet-over-join
meet-same meet-yes meets-by meets-kept min-absorbs min-bit min-over-max missing-as name-begins name-places
name-refused nameByte named-of names-alone names-are names-filled names-length names-snoc namesIn neg-max
next-begins next-is next-lands next-not-stuck next-same no-colon no-nothing no-sample no-token noSpan
not-in-header not-long not-misplaced not-out-of-place not-repeated not-wanted numbered-all of-bracket
of-constant of-join of-meet of-name of-no of-opposite of-unary of-yes on-lanes on-lights on-margins on-two-way
once-first once-next one-zero open-formed opposite-join opposite-meet opposite-no opposite-odd opposite-yes
or-odd other-bit others-kept out-of-place pair-formed pair-split part-all part-ended part-rows part-spans
pointed-whole pos-same posOf put-more readable-not-refused readable-same refusalReport refused-at-start
refused-first refused-same refusedLine repeated-more repeated-name report-of right-alive right-all right-ctx
right-dead right-ended right-join right-refused right-spell rightDone rightIn row-places row-spells rowFits
rowValue rows-filled rows-known rows-length rowsEnded rowsReport same-margin sample-is scan-is short-strip
shuts-at side-by-side-laws signal-row signalLine since-first since-kept since-next size-pos smallest-by
snoc-same solid-at solid-pos some-names some-room some-rows some-signals some-snoc spaced-all spaced-map
spaced-more spanned-snoc spans-same spell-of spellBegun spellPart spells-spell stands-compare stands-in
start-refused step-at step-onto stuck-lands stuck-told text-is text-read text-spell then-cleared token-of
token-told two-way-laws twoWay unary-row unaryBytes unaryRemembers unaryValue undeclared-name undeclared-told
under-ctx under-dead under-ended under-formed under-refused under-spell unfit-name until-all until-more
untilBreak value-causal value-kept valuesFrom weak-first weak-next whole-alone whole-told whole-why why-lift
workedBy workedText wrap-ended wrap-spell wrapAll wrong-alike yes-meet yesNo
""".split()

OTHERS = {
    # the library's own words
    "bit-and": "bit_of_and",
    "bit-or": "bit_of_or",
    # the definitions until_break and rows_ended have these names
    "until-break": "until_at_break",
    "rows-ended": "rows_ended_before",
    # other names for what a clause imports
    "always-value": "always_value",
    "since-value": "since_value",
}
# names that stood in quotes for their dash alone
ALIASES = ("all_lanes", "always_value", "since_value", "no_token")


def snake(name):
    return re.sub(r"(?<=[a-z0-9])[A-Z]", lambda m: "_" + m.group().lower(), name.replace("-", "_"))


NEW = {name: snake(name) for name in WORDS} | OTHERS
NAME = re.compile(r"(?<![\w\-])(?:" + "|".join(sorted(map(re.escape, NEW), key=len, reverse=True)) + r")(?![\w\-])")
GHOST = re.compile(r"^\s*(ghost|pub ghost|requires|ensures)\b")


def respelled(line):
    def turn(match):
        # a step of a proof: the call of a function of src/, not the lemma of that name
        if match.group() in ("until-break", "rows-ended") and line[: match.start()].endswith("c."):
            return match.group()
        return NEW[match.group()]

    return NAME.sub(turn, line)


def is_ghost(path, line):
    if path.suffix == ".antt":
        return not line.lstrip().startswith("--")
    return GHOST.match(line) is not None


def main():
    for path in sorted(pathlib.Path("crates").rglob("*")):
        if "out" in path.parts or path.suffix not in (".antt", ".rt"):
            continue
        old = path.read_text(encoding="utf-8")
        lines = old.split("\n")
        new = "\n".join(respelled(line) if is_ghost(path, line) else line for line in lines)
        for alias in ALIASES:
            new = new.replace("«" + alias + "»", alias)
        if new != old:
            path.write_text(new, encoding="utf-8")
            print(path)


if __name__ == "__main__":
    sys.exit(main())
