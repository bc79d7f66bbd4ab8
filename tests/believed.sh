#!/usr/bin/env bash
# The files that a reader must believe beyond the rules: as many lines as README.md and the head of Demands.antt say, and 420 at most in all.
set -euo pipefail
cd "$(dirname "$0")/.."
head=crates/demands/specs/Demands.antt
said=$(sed -n 2p "$head")
all=0
for file in "$head" crates/statements/specs/{Runs,Answers,Sound}.antt crates/calls/specs/Promise.antt crates/host/specs/Linked.antt; do
    lines=$(wc -l <"$file")
    all=$((all + lines))
    name=$(basename "$file")
    [ "$file" = "$head" ] && name="this file"
    case "$said" in *"$name $lines"*) ;; *) echo "believed: $file has $lines lines, and the head of $head says otherwise"; exit 1 ;; esac
    grep -qF "[$file]($file) | $lines |" README.md || { echo "believed: $file has $lines lines, and README.md says otherwise"; exit 1; }
done
grep -qF "these files ($all lines)" README.md || { echo "believed: $all lines in all, and README.md says otherwise"; exit 1; }
[ "$all" -le 420 ] || { echo "believed: $all lines"; exit 1; }
echo "believed: $all lines beyond the rules"
