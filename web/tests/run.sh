#!/bin/sh
# web/tests/run.sh: builds the page from its parts and the modules, tests the parts in node and the page in a browser; ends with 1 if something fails.
# CHROMIUM names another browser than the one that is found.
set -u
cd "$(dirname "$0")/../.." || exit 1
page=target/web/otap.html
log=$(mktemp) || exit 1
trap 'rm -f "$log"' EXIT
failed=0

# step NAME COMMAND..: runs it and prints its name, and below it what it printed.
step() {
    name=$1
    shift
    if "$@" > "$log" 2>&1; then
        echo "ok      $name"
    else
        echo "FAILED  $name"
        failed=1
    fi
    sed 's/^/        /' "$log"
}

# Whether the driver finds a browser.
has_browser() {
    node --input-type=module -e 'import { chromiumPath } from "./web/tests/chromium.mjs"; process.exit(chromiumPath() === null ? 1 : 0);'
}

mkdir -p "${page%/*}" || exit 1
step "the page is built" web/build "$page"
if ! command -v node > /dev/null; then
    echo "left out  the parts in node: node is not here"
    echo "left out  the page in a browser: node is not here"
    exit $failed
fi
step "the harness of tests" node web/tests/harness_test.mjs
step "the parts in node" node web/tests/parts.mjs
step "the modules as objects" node web/tests/engine.mjs
step "regions of a store" node web/tests/regions.mjs
step "the worker of the plain engine" node web/tests/worker.mjs
# The modules just built, and those in the page that is stored.
for from in "" "--page web/otap.html"; do
    # shellcheck disable=SC2086 # the flag is two words
    step "vectors of a hand-held${from:+, the stored page}" node web/tests/vectors.mjs web/tests/vectors/handheld $from
    # shellcheck disable=SC2086
    step "vectors of a vehicle${from:+, the stored page}" node web/tests/vectors.mjs web/tests/vectors/vehicle --vehicle $from
done
step "vectors can fail" node web/tests/vectors_can_fail.mjs
if ! has_browser; then
    echo "left out  the page in a browser: chromium is not here"
    exit $failed
fi
step "no browser outlives a test" node web/tests/endings_test.mjs
step "the driver of the browser" node web/tests/chromium_test.mjs
step "the page in a browser" node web/tests/page.mjs "$page"
exit $failed
