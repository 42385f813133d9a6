#!/usr/bin/env bash
# usage: tools/manners.sh
# Tries how the scripts in front of the programs behave: help, wrong use, files that cannot be read, output that cannot be written, and
# what they say on their first use, with a stand-in for rt. The programs have to be built. Says what differed, and ends with 1.
set -euo pipefail
cd "$(dirname "$(readlink -f "$0")")/.."

here=$(mktemp -d)
trap 'rm -rf "$here"' EXIT

for part in try around programs answers first_use side_by_side; do
    # shellcheck source=/dev/null
    . tools/manners/$part.sh
done

manners_of play examples/paper.calls examples/paper.out
manners_of text examples/texts/offer.sdp examples/texts/offer.out
answers
first_uses
failures
wrong_program
killed_program
library
side_by_side
failure_side_by_side
interrupts
summary
