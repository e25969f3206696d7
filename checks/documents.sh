#!/bin/sh
# Whether the documents say what is there: `.ci/run` calls it after `rt ci`.
#
# Names: all that docs/PROMISES.md and docs/dev/ARCHITECTURE.md name is there (promised_names.py); docs/CLAUSES.md is what the sources say (clauses.py); and
# docs/GLOSSARY.md says of names that two crates have what they are (double_names.py).
# Proofs: none takes anything from the proofs of another crate, beyond what is listed (foreign_proofs.py).
# Sections: those that a document refers to are there (sections.py).
# Lines: none of a document is longer than 160 columns (long_lines.py). Words: no phrase that isn't one of engineers comes too often (words.py).
# Commands: what documents show is what the program prints (transcripts.sh); the runs of examples/ are those shown there, and the examples of the manual pages
# end well (examples.sh).
# Refusals: the examples of docs/ERRORS.md are refused as it says (refusals.py).
# Words: the manual pages and the completion have the commands and options of the usage lines (usage.sh), and what README, the pages and the completion say
# of commands is what docs/FORMATS.md says (commands.py).
# Pictures: those in docs/ are what vcp_study draws (pictures.sh).
# Sites: vcp_study sites writes as many faults as are counted from outside (site_counts.sh).
# Texts for Graphviz: those of vcp_study dot have what its pictures draw (graph_texts.py).
# Pictures by verdicts: those of vcp_study faults have the colours that scripts and verdicts say (verdict_pictures.py).
#
# It uses the programs that are built, or those of VCP=FILE and VCP_STUDY=FILE, and builds none. What a missing tool would do is left out. Its status
# is 1 where something differs, and else 0.
here=$(CDPATH='' cd -- "$(dirname -- "$0")" && pwd) || exit 1
VCP=${VCP:-$here/../crates/vcp/out/vcp}
VCP_STUDY=${VCP_STUDY:-$here/../crates/vcp_study/out/vcp_study}
export VCP VCP_STUDY
status=0

if command -v python3 >/dev/null 2>&1; then
    python3 "$here/promised_names.py" || status=1
    python3 "$here/clauses.py" || status=1
    python3 "$here/double_names.py" || status=1
    python3 "$here/foreign_proofs.py" || status=1
    python3 "$here/sections.py" || status=1
    python3 "$here/long_lines.py" --documents || status=1
    python3 "$here/words.py" --all || status=1
    python3 "$here/commands.py" || status=1
else
    echo "documents: names are not looked at, since python3 isn't there"
fi
"$here/usage.sh" || status=1
if [ -x "$VCP" ]; then
    "$here/transcripts.sh" || status=1
    if command -v python3 >/dev/null 2>&1; then
        python3 "$here/refusals.py" || status=1
    fi
    "$here/examples.sh" || status=1
    if [ -x "$VCP_STUDY" ]; then
        "$here/pictures.sh" --check || status=1
        "$here/site_counts.sh" || status=1
        if command -v python3 >/dev/null 2>&1; then
            python3 "$here/graph_texts.py" || status=1
            python3 "$here/verdict_pictures.py" || status=1
        fi
    fi
else
    echo "documents: no command is run, since no program is built"
fi
exit "$status"
