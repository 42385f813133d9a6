#!/usr/bin/env bash
# usage: tools/dist.sh, or make dist
# Makes dist/libfrumxadda.a, for x86-64, and dist/frumxadda.h: all that a C or C++ host needs. The first use proves the library, and so does the
# first after a change of its crates.
# Exit status: 0 made; 4 the library cannot be proved or built.
set -euo pipefail
# shellcheck source-path=SCRIPTDIR source=progress.sh
. "$(dirname "$(readlink -f "$0")")/progress.sh"
cd "$root"

# Makes the library of what is proved.
library() {
    local job status=0
    launch frumxadda /dev/null target/log/frumxadda target/log/frumxadda.errors lib
    wait "$job" || status=$?
    [ $status -eq 0 ] || not_built "rt lib" $status
    put crates/frumxadda/out/libfrumxadda.a dist/libfrumxadda.a
}

if is_old dist/libfrumxadda.a frumxadda; then
    plan frumxadda 'the library'
    prove frumxadda
    library
    built
fi
cmp -s include/frumxadda.h dist/frumxadda.h || cp include/frumxadda.h dist/
