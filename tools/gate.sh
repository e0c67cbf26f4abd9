#!/bin/sh
# gate.sh: the gate. It proves everything from nothing, tries the edits that must fail and runs the tests (`rt ci`);
# then it runs the examples and the cases of `runs.py` and `texts.py` on the program that this has built, reads again what it writes,
# compares what it says would be with what is, has it serve callers over pipes, without looks, with them and with crew calls, kills it while it keeps its journal, and compares crates.txt and
# the table of promises with the sources.
# The last line has the figures. All that is printed is also kept in build/gate.log.
cd "$(dirname "$0")/.." || exit 2
log=build/gate.log
mkdir -p build && : > "$log" || exit 2
failed=0

# Runs a command, and keeps what it prints.
kept() {
    { "$@" 2>&1; echo $? > build/gate.status; } | tee -a "$log"
    return "$(cat build/gate.status)"
}

kept rt ci || failed=1
proofs=$(tail -n 1 "$log")
examples='not run'
journals='not run'
callers='not run'
windows='not run'
runs='not run'
texts='not run'
forecasts='not run'
crews='not run'
stops='not run'
if [ $failed = 0 ]; then
    kept sh examples/compare.sh crates/crewdesk_main/out/crewdesk_main || failed=1
    examples=$(tail -n 1 "$log")
    kept sh tools/journals.sh crates/crewdesk_main/out/crewdesk_main || failed=1
    journals=$(tail -n 1 "$log")
    kept sh tools/callers.sh crates/crewdesk_main/out/crewdesk_main || failed=1
    callers=$(tail -n 1 "$log")
    kept python3 -B tools/windows.py crates/crewdesk_main/out/crewdesk_main || failed=1
    windows=$(tail -n 1 "$log")
    kept python3 -B tools/crews.py crates/crewdesk_main/out/crewdesk_main || failed=1
    crews=$(tail -n 1 "$log")
    kept python3 -B tools/kept.py crates/crewdesk_main/out/crewdesk_main || failed=1
    stops=$(tail -n 1 "$log")
    kept python3 -B tools/runs.py crates/crewdesk_main/out/crewdesk_main || failed=1
    runs=$(tail -n 1 "$log")
    kept python3 -B tools/texts.py crates/crewdesk_main/out/crewdesk_main || failed=1
    texts=$(tail -n 1 "$log")
    kept python3 -B tools/forecasts.py crates/crewdesk_main/out/crewdesk_main || failed=1
    forecasts=$(tail -n 1 "$log")
fi
kept python3 -B tools/listed.py || failed=1
listed=$(tail -n 1 "$log")
kept sh tools/promises.sh || failed=1
promises=$(tail -n 1 "$log")
rm -f build/gate.status
[ $failed = 0 ] || echo "build/gate.log says what failed"
echo "gate: $proofs; examples: $examples; journals: $journals; callers: $callers; windows: $windows; crews: $crews; stops: $stops; runs: $runs; texts: $texts; forecasts: $forecasts; crates: $listed; promises: $promises"
[ $failed = 0 ]
