#!/usr/bin/env bash
# Fuzzes the archive's calls with a fixed seed, then makes sure that each fault on purpose is found.
# Run from the repository's top, after the archive is built. With -v it says what found each fault.
set -euo pipefail
ulimit -c 0

build=target/native
wrapped=(read service cabinet stream barred check plan keep edit plan_span keep_span edit_span bill
    tidy bound)

# Compiles the given files, beside the target and the driver, into a program of the given name.
compile() {
    local name=$1
    shift
    cc -std=c99 -Wall -Wextra -Werror -O1 -g \
        -fsanitize=address,undefined -fno-sanitize-recover=all -Inative/include "$@" \
        native/fuzz/{main,told,sheets,bars,links,splices,damage,damage_fourth}.c \
        native/fuzz/{tariffs,dearest,random}.c \
        native/fuzz/{target,rules,layout,reader,checker,loads,planner,rivals,tidy,copy,joints}.c \
        native/fuzz/{kept,workspace,keeper,entries,tables,editor,edits,chain,strange}.c \
        native/fuzz/{spanned,spanner,span,pair,sharing,example}.c \
        native/fuzz/{bill,reckoning,tally,refusals,lent,input,arena,require}.c \
        target/staticlib/libgazrieksne.a -o "$build/$name"
}

# Runs the library with the fault of this number. What it says is in $said, how it ended in $status.
run_fault() {
    status=0
    said=$(GZ_FAULT=$1 "$build/fuzz-faulty" 2>&1 >/dev/null) || status=$?
}

mkdir -p "$build"
compile fuzz
compile fuzz-faulty "${wrapped[@]/#/-Wl,--wrap=gz_}" \
    native/fuzz/{faulty,faults_sheet,faults_fourth,faults_reader,faults_checker}.c \
    native/fuzz/{faults_joints,faults_spliced,faults_resplice,spliced}.c \
    native/fuzz/{faults_framing,faults_planner,faults_first,faults_reckoning,faults_bill}.c \
    native/fuzz/{faults_lines,faults_copy,faults_tidy,faults_keep,faults_edit,faults_rows}.c \
    native/fuzz/{faults_alike,faults_spans,faults_outside,held}.c

"$build/fuzz"

run_fault 0
if [ "$status" -ne 0 ]; then
    printf 'without a fault:\n%s\n' "$said"
    exit 1
fi

# A fault is found when an input shows it; status 3 says that there are no more faults.
number=1
missed=0
run_fault $number
while [ "$status" -ne 3 ]; do
    if ! grep -q '^input ' <<<"$said"; then
        printf 'not found, %s\n' "$(head -n 1 <<<"$said")"
        missed=1
    elif [ "${1-}" = -v ]; then
        printf '%d %s\n' "$number" "$(grep -E '^(fault|broken|input)' <<<"$said" | paste -sd ';')"
    fi
    number=$((number + 1))
    run_fault $number
done
[ "$missed" -eq 0 ]
echo "$((number - 1)) faults, each found"
