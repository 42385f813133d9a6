#!/usr/bin/env bash
# usage: tools/block.sh TAG FILE
# Prints the first fenced block of a Markdown file that has this tag; fails where there is none.
set -euo pipefail

awk -v fence="\`\`\`$1" '
    inside && $0 == "```" { exit }
    inside { print }
    $0 == fence { inside = 1 }
    END { exit !inside }' "$2"
