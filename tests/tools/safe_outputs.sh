# Tests that what the tools write is whole or isn't there, that nothing temporary is left or can be
# known before, and that no link is followed; a part of tests/run/tools.sh.
# shellcheck shell=bash
# shellcheck disable=SC2154  # what it uses is set by tests/run/tools.sh, which sources it

safe=$work/safe
SIGNALS=(HUP INT QUIT TERM USR1 USR2 ALRM XCPU VTALRM PROF IO PWR RTMIN KILL)

unlisted() { # FOLDER NAME.. : what is in it besides these
    find "$1" -mindepth 1 -printf '%P\n' | grep -vxF -f <(printf '%s\n' "${@:2}")
}

# As on a file system that has no files without a name: Python's start is given another flag.
unnamed=(env "PYTHONPATH=$work/flags")
mkdir -p "$work/flags"
printf 'import os\nos.O_TMPFILE = os.O_DIRECTORY\n' >"$work/flags/sitecustomize.py"

# ---- signals -------------------------------------------------------------------------------------

endless() { # FIFO : a list that isn't at its end, though it is long, of which the most is read
    local text
    text=$(yes "F 5 A 1 $(frame_of A 1)" | head -n 3000)
    exec >"$1"
    printf '%s\n' "$text"
    : >"$1.read"
    exec sleep 600
}

ended() { # SIGNAL FIFO COMMAND.. : the status of a command that gets a signal when it reads
    local tries writer tool
    mkfifo "$2"
    endless "$2" &>/dev/null &
    writer=$!
    env --default-signal "${@:3}" >"$work/out" 2>"$work/err" </dev/null &
    tool=$!
    for ((tries = 0; tries < 2400; tries++)); do
        if [[ -e $2.read ]] || ! kill -0 "$tool"; then break; fi
        sleep 0.05
    done
    kill -s "$1" "$tool"
    status=0
    wait "$tool" || status=$?
    kill "$writer"
    wait "$writer" || true
}

ended_by_each_signal() { # WORD.. : before the command
    local name fifo
    for name in "${SIGNALS[@]}"; do
        fifo=$(mktemp -u "$work/endless.XXXXXX")
        ended "$name" "$fifo" "$@" tools/afdx-capture pcap "$fifo" "$safe/old.pcap" 2>/dev/null
        if [[ $status -ne $((128 + $(kill -l "$name"))) ]]; then echo "$name: status $status"; fi
        grep -vx 'afdx-capture: stopped' "$work/err"
        if [[ $(<"$safe/old.pcap") != old ]]; then echo "$name: the old recording is gone"; fi
        unlisted "$safe" old.pcap
    done
}

signal_tests() {
    echo old >"$safe/old.pcap"
    tell 'no signal leaves a part of a file' "$(ended_by_each_signal)"
    local SIGNALS=("${SIGNALS[@]}")
    unset 'SIGNALS[-1]' # what SIGKILL ends can't tidy up, if its file has to have a name
    tell 'nor where a file has to have a name' "$(ended_by_each_signal "${unnamed[@]}")"
    rm "$safe/old.pcap"
}

copy_tests() { # a list that comes by a pipe is copied for tools that read it twice
    mkdir "$work/copies"
    ended KILL "$work/copied" env TMPDIR="$work/copies" tools/afdx-capture annotate \
        examples/base.toml "$work/copied" "$safe/x.pcapng" 2>/dev/null
    tell 'no signal leaves a copy of a list' "$(is_status 137; unlisted "$work/copies")"
}

mode_tests() {
    local name=unnamed
    printf 'F 0 A 1 %s\n' "$(frame_of A 0)" >"$work/one_line.list"
    for name in '' PYTHONPATH="$work/flags"; do
        (
            umask 027
            launch env ${name:+"$name"} tools/afdx-capture pcap "$work/one_line.list" \
                "$safe/new.pcap"
        )
        tell "a new file is as open to others as the mask says${name:+, if it has a name}" "$(
            stat -c %a "$safe/new.pcap" | grep -vx 640
            unlisted "$safe" new.pcap
        )"
        rm "$safe/new.pcap"
    done
}

# ---- no room -------------------------------------------------------------------------------------

limited() { # KIB COMMAND.. : no file gets longer
    (
        ulimit -f "$1"
        shift
        launch "$@"
        echo "$status" >"$work/status"
    )
    status=$(<"$work/status")
}

capture_room_tests() {
    tests/tools/sample_list.py examples/network.toml --ms 60 >"$work/sample.list"
    echo old >"$safe/old.pcap"
    limited 8 tools/afdx-capture pcap "$work/sample.list" "$safe/old.pcap"
    tell 'a recording for which there is no room' "$(
        is_fault 4 "$safe/old.pcap: File too large"
        if [[ $(<"$safe/old.pcap") != old ]]; then echo 'the old recording is gone'; fi
        unlisted "$safe" old.pcap
    )"
    rm "$safe/old.pcap"
}

report_room_tests() {
    local folder=$safe/report
    launch tools/afdx-report examples/base.toml examples/one_link.list --out "$folder"
    cp -r "$folder" "$safe/before"
    limited 8 tools/afdx-report examples/network.toml examples/bench.list --out "$folder"
    tell 'a report for which there is no room leaves the older one as it was' "$(
        is_status 4
        if [[ $(wc -l <"$work/err") -ne 1 ]]; then cat "$work/err"; fi
        says err "$folder/"
        diff -r "$safe/before" "$folder" 2>&1 | head -n 3
    )"
    rm -r "$folder" "$safe/before"
}

# ---- an older report -------------------------------------------------------------------------

older_report_tests() {
    local folder=$safe/report
    launch tools/afdx-report examples/base.toml examples/babbling.list --out "$folder"
    launch tools/afdx-report examples/base.toml examples/babbling.list --out "$folder" \
        --compare "$folder/report.json"
    tell 'a report of over-rate frames, compared' "$(
        is_status 0
        for name in early compared; do
            if [[ ! -s $folder/$name.csv ]]; then echo "no $name.csv"; fi
        done
    )"
    echo mine >"$folder/notes.csv"
    echo precious >"$safe/precious"
    rm "$folder/links.csv" "$folder/report.html"
    ln -s "$safe/precious" "$folder/links.csv"
    ln -s "$safe/precious" "$folder/report.html"
    printf 'F 0 A 1 %s\n' "$(frame_of A 0)" >"$work/one_line.list"
    launch tools/afdx-report examples/base.toml "$work/one_line.list" --out "$folder"
    tell 'nothing of an older report stays beside a new one, and no link is followed' "$(
        is_status 0
        printf '%s\n' {arrivals,clocks,dropped,frames,latency,links,notes,ports}.csv \
            report.{html,json} {sides,silences,skews,troubles}.csv >"$work/wanted"
        ls -A "$folder" >"$work/got"
        same "$work/wanted" "$work/got"
        find "$folder" ! -type f ! -type d
        if [[ $(<"$safe/precious") != precious ]]; then echo 'a link was followed'; fi
    )"
    rm -r "$folder" "$safe/precious"
}

# ---- reports of which the files don't get their places -------------------------------------------

# Python's start counts renames, and does something at one of them: AT_RENAME is K:EIO or K:SIGNAL.
write_weak() {
    weak=(env "PYTHONPATH=$work/weak")
    mkdir -p "$work/weak"
    cat >"$work/weak/sitecustomize.py" <<'CODE'
import errno, os, signal
place, how = os.environ["AT_RENAME"].split(":")
places, rename = iter(range(1, 10_000)), os.rename
def weak(*words, **more):
    if next(places) == int(place):
        if how == "EIO":
            raise OSError(errno.EIO, os.strerror(errno.EIO))
        os.kill(os.getpid(), signal.Signals[how])
    return rename(*words, **more)
os.rename = weak
CODE
}

is_newer() { # FOLDER : all of it is the newer report; page and numbers have its date
    diff -r -x 'report.*' "$safe/new" "$1" >"$work/got" &&
        ! cmp -s "$safe/old/report.html" "$1/report.html" &&
        ! cmp -s "$safe/old/report.json" "$1/report.json"
}

# A report into a folder that has an older one; all of one of them stands there then, and what else
# was there.
changed_report() { # STATUS WORD.. : before the command
    local folder=$safe/report
    rm -rf "$folder"
    cp -r "$safe/old" "$folder"
    launch "${@:2}" tools/afdx-report examples/base.toml "$work/one_line.list" --out "$folder"
    is_status "$1"
    if ! diff -r "$safe/old" "$folder" >"$work/got" && ! is_newer "$folder"; then
        echo "two reports stand there, or none, at $*:"
        diff -rq "$safe/old" "$folder" | cut -c 1-160
    fi
    find "$safe" -name '.afdx-*'
}

older_and_newer() { # NAME : two reports in folders that have a file of that name besides
    rm -rf "$safe"/{old,new}
    tools/afdx-report examples/base.toml examples/babbling.list --out "$safe/old" >"$work/out"
    mkdir -p "$(dirname "$safe/old/$1")"
    echo mine >"$safe/old/$1"
    cp -r "$safe/old" "$safe/new"
    tools/afdx-report examples/base.toml "$work/one_line.list" --out "$safe/new" >"$work/out"
}

report_place_tests() {
    local place
    write_weak
    older_and_newer notes
    tell 'a signal or a fault while a folder is exchanged for that of a report' "$(
        changed_report 143 "${weak[@]}" AT_RENAME=1:SIGTERM
        changed_report 0 "${weak[@]}" AT_RENAME=1:EIO
    )"
    older_and_newer mine/notes
    tell 'a signal between two files of a report, where the folder has to stay' "$(
        for place in 1 2 20; do
            changed_report 143 "${weak[@]}" AT_RENAME="$place:SIGTERM"
        done
    )"
    tell 'a device that fails between two files of a report' "$(
        for place in 2 20; do
            changed_report 4 "${weak[@]}" AT_RENAME="$place:EIO"
        done
    )"
    rm -rf "$safe"/{old,new,report}
}

# SIGKILL comes, and then docs/TOOLS.md is followed: back to the old report, or on to the new one.
killed_report() { # RENAME : the one at which it comes
    local folder=$safe/report back=$safe/back
    rm -rf "$folder"
    cp -a "$safe/old" "$folder"
    launch "${weak[@]}" AT_RENAME="$1:SIGKILL" tools/afdx-report examples/base.toml \
        "$work/one_line.list" --out "$folder"
    is_status 137
    cp -a "$folder" "$back"
    find "$back" -maxdepth 1 -type f -newermt '12 hours ago' -delete
    find "$back" -path '*/.afdx-*.old/*' -exec mv {} "$back" \;
    rm -rf "$back"/.afdx-*
    diff -r "$safe/old" "$back" | cut -c 1-160
    launch tools/afdx-report examples/base.toml "$work/one_line.list" --out "$folder"
    rm -rf "$back" "$safe"/.afdx-* "$folder"/.afdx-*
    if ! is_newer "$folder"; then echo "no newer report, killed at rename $1"; fi
}

killed_report_tests() {
    local place
    older_and_newer mine/notes
    find "$safe/old" -exec touch -d yesterday {} +
    tell 'after SIGKILL between two files of a report the old one can be had, or the new one' "$(
        for place in 1 2 3 5 20; do killed_report "$place"; done
        if ! grep -qF '.afdx-*.old' docs/TOOLS.md; then echo 'TOOLS.md does not say how'; fi
    )"
    rm -rf "$safe"/{old,new,report}
}

folder_in_way_test() {
    local folder=$safe/report
    tools/afdx-report examples/base.toml examples/babbling.list --out "$folder" >"$work/out"
    rm "$folder/ports.csv"
    mkdir "$folder/ports.csv"
    cp -r "$folder" "$safe/before"
    launch tools/afdx-report examples/base.toml "$work/one_line.list" --out "$folder"
    tell 'a folder in the place of a file of a report leaves all as it was' "$(
        is_fault 4 "$folder/ports.csv: Is a directory"
        diff -r "$safe/before" "$folder"
        unlisted "$safe" before report | grep -v /
    )"
    rm -r "$folder" "$safe/before"
}

# ---- planted links -------------------------------------------------------------------------------

split_list_tests() {
    local at=$safe/split
    mkdir "$at"
    echo precious >"$safe/precious"
    tools/afdx-capture pcap "$work/one_line.list" "$at/run.pcap" 2>"$work/err"
    ln -s ../precious "$at/p-1.list"
    ln -s ../precious "$at/p-2.list"
    echo mine >"$at/p-4.list"
    launch tools/afdx-capture list --config examples/base.toml --interface 0=A:1 \
        --split "$at/p" "$at/run.pcap"
    tell 'a link in the place of a list that was split is replaced; one too many goes' "$(
        is_status 0
        if [[ $(<"$safe/precious") != precious ]]; then echo 'a link was followed'; fi
        grep -c '^R ' "$at/p-1.list" | grep -vx 1
        unlisted "$at" run.pcap p-1.list p-4.list
    )"
    echo old >"$at/p-1.list"
    head -c -9 "$at/run.pcap" >"$at/cut.pcap"
    launch tools/afdx-capture list --config examples/base.toml --interface 0=A:1 \
        --split "$at/p" "$at/cut.pcap"
    tell 'after a fault the lists of before are all there' "$(
        is_status 3
        if [[ $(<"$at/p-1.list") != old ]]; then echo 'a list is gone'; fi
        unlisted "$at" {run,cut}.pcap p-{1,4}.list
    )"
    rm -r "$at" "$safe/precious"
}

# Each name of a campaign's folder is a link in turn, and the campaign goes on.
campaign_link_tests() {
    local name at=$safe/campaign
    mkdir "$at"
    for name in joblog runs runs/1 runs/1/stdout runs/1/stderr lists campaign.csv pages pages/1; do
        rm -rf "$at"/{out,kept}
        mkdir -p "$at/kept"
        echo precious >"$at/precious"
        launch tools/afdx-campaign examples/base.toml "$work/one_line.list" --out "$at/out" --pages
        head -n 1 "$at/out/joblog" >"$work/got" && cp "$work/got" "$at/out/joblog"
        if [[ -d $at/out/$name ]]; then
            rm -r "${at:?}/out/$name"
            ln -s "$at/kept" "$at/out/$name"
        else
            rm "$at/out/$name"
            ln -s "$at/precious" "$at/out/$name"
        fi
        launch tools/afdx-campaign examples/base.toml "$work/one_line.list" --out "$at/out" \
            --pages --resume
        tell "a campaign goes on and follows no link: $name" "$(
            is_fault_of_lists "$name" || is_status 0
            if [[ $(<"$at/precious") != precious ]]; then echo 'a link was followed'; fi
            find "$at/kept" -mindepth 1
            find "$at/out" -type l
        )"
    done
    rm -r "$at"
}

is_fault_of_lists() { [[ $1 == lists && $status -eq 2 ]]; } # NAME : it leads to other lists

mkdir "$safe"
if [[ -n $dpkt ]]; then
    signal_tests
    mode_tests
    capture_room_tests
    if [[ -n $built ]]; then
        copy_tests
        split_list_tests
    fi
else
    skip 'recordings that are written' 'there is no package dpkt (apt-get install python3-dpkt)'
fi
if [[ -n $reporting ]]; then
    printf 'F 0 A 1 %s\n' "$(frame_of A 0)" >"$work/one_line.list"
    report_room_tests
    older_report_tests
    report_place_tests
    killed_report_tests
    folder_in_way_test
    if has parallel; then
        campaign_link_tests
    else
        skip 'links in the folder of a campaign' 'there is no GNU parallel'
    fi
else
    skip 'reports that are written' "there is no program $program, or no numpy"
fi
