# Tests of campaigns, of what bin/install installs, and of the commands of the guide; a part of
# tests/run/tools.sh.
# shellcheck shell=bash
# shellcheck disable=SC2154  # what it uses is set by tests/run/tools.sh, which sources it

# ---- campaigns -----------------------------------------------------------------------------

campaign() { # WORD..
    launch tools/afdx-campaign examples/base.toml "$@"
}

campaign_tests() {
    cp examples/one_link.list "$work/one a.list"
    printf 'F 0 A 1 %s\n' "$(frame_of A 0)" >"$work/two.list"
    printf 'F 0 A 1 %s\nF 0 C 1 00\n' "$(frame_of A 0)" >"$work/three.list"
    campaign "$work/one a.list" "$work/two.list" --out "$work/sound"
    tell 'a campaign of two sound lists' "$(
        is_status 0
        says out 'one a.list'
        tail -n +2 "$work/sound/campaign.csv" | cut -d , -f 2-5 >"$work/got"
        printf '3,2,1,0\n1,1,0,0\n' >"$work/wanted"
        same "$work/wanted" "$work/got"
    )"
    campaign "$work/two.list" "$work/three.list" --out "$work/mixed"
    tell 'the status of the worst run' "$(is_status 3; says out 'list BadLine 2')"
    campaign "$work/two.list" "$work/three.list" "$work/one a.list" --out "$work/mixed" --resume
    tell 'a campaign that goes on with what is new' "$(
        is_status 3
        if [[ $(grep -c 'afdx-report' "$work/mixed/joblog") -ne 3 ]]; then
            cat "$work/mixed/joblog"
        fi
        tail -n +2 "$work/mixed/campaign.csv" | cut -d , -f 2 >"$work/got"
        printf '1\n1\n3\n' >"$work/wanted"
        same "$work/wanted" "$work/got"
    )"
    campaign "$work/one a.list" --out "$work/mixed" --resume
    tell 'other lists than before are refused' "$(is_status 2; says err '--resume wants the lists')"
    campaign "$work/two.list" --out "$work/login" --sshlogin 1/: --pages
    tell 'sshlogin is handed on; a page for each run' "$(
        is_status 0
        wants_page "$work/login/pages/1/report.html"
    )"
    launch tools/afdx-campaign examples/refused.toml "$work/two.list" --out "$work/refused"
    tell 'a network that is refused, in a campaign' "$(
        is_status 1
        says out 'admit A3 7 104 267995'
    )"
}

if [[ -z $reporting ]]; then
    skip 'campaigns' "there is no program $program, or no numpy"
elif has parallel; then
    campaign_tests
else
    skip 'campaigns' 'there is no GNU parallel (apt-get install parallel)'
fi

# ---- install -------------------------------------------------------------------------------

# The program in a folder that holds nothing but it, the C library that it was linked with, and two
# files.
bare_tests() {
    local name='the program runs beside the C library alone' bare=$work/bare library
    mkdir -p "$bare"
    if [[ $(id -u) -ne 0 ]]; then
        skip "$name" 'only root may change the root folder'
        return
    fi
    cp "$program" examples/base.toml examples/one_link.list "$bare"
    while IFS= read -r library; do
        mkdir -p "$bare$(dirname "$library")"
        cp -L "$library" "$bare$library"
    done < <(ldd "$program" | grep -o '/[^ ]*')
    "$program" replay examples/base.toml examples/one_link.list >"$work/wanted"
    launch chroot "$bare" "/$(basename "$program")" replay base.toml one_link.list
    tell "$name" "$(
        is_status 0
        same "$work/wanted" "$work/out"
    )"
}

install_tests() {
    local prefix=$work/prefix
    launch bin/install "$prefix"
    tell 'install' "$(
        is_status 0
        cmp "$program" "$prefix/bin/afdx" 2>&1
        for file in share/man/man1/afdx{,-capture,-report,-campaign,-icd,-fill}.1 bin/afdx-fill \
            share/bash-completion/completions/afdx{,-capture,-report,-campaign,-icd,-fill} \
            share/zsh/site-functions/_afdx lib/wireshark/plugins/afdx.lua \
            share/afdx/examples/{messages.csv,base.toml,one_link.list} \
            share/fish/vendor_completions.d/afdx{,-capture,-report,-campaign,-icd,-fill}.fish; do
            if [[ ! -s $prefix/$file ]]; then echo "no $file"; fi
        done
    )"
    if [[ -n $reporting ]]; then
        launch env -u AFDX "$prefix/bin/afdx-report" examples/base.toml examples/one_link.list \
            --json
        tell 'an installed tool finds the installed program' "$(
            is_status 0
            wants_number "$work/out" 'r["totals"]["frames"]' 3
        )"
    fi
    launch "$prefix/bin/afdx-capture" --version
    "$top/tools/afdx-capture" --version >"$work/wanted"
    tell 'an installed tool knows its version' "$(
        is_status 0
        same "$work/wanted" "$work/out"
        if [[ $(<"$work/out") == *unknown* ]]; then cat "$work/out"; fi
    )"
    if has tshark; then
        mkdir -p "$work/home/.local/lib"
        cp -r "$prefix/lib/wireshark" "$work/home/.local/lib"
        launch env HOME="$work/home" tshark -G protocols
        tell 'below ~/.local Wireshark finds the fields of AFDX' "$(says out $'\tafdx')"
    fi
    echo precious >"$work/precious"
    for file in bin/afdx lib/afdx/version share/afdx/examples/base.toml share/man/man1/afdx.1; do
        ln -sf "$work/precious" "$prefix/$file"
    done
    launch bin/install "$prefix"
    tell 'an install over an earlier one follows no link' "$(
        is_status 0
        if [[ $(<"$work/precious") != precious ]]; then echo 'a link was followed'; fi
        same examples/base.toml "$prefix/share/afdx/examples/base.toml"
        "$prefix/bin/afdx-capture" --version >"$work/got"
        same "$work/wanted" "$work/got"
    )"
    launch env AFDX=/nowhere bin/install "$work/none"
    tell 'nothing is installed without a program' "$(
        is_status 1
        if [[ -e $work/none ]]; then echo 'there is a folder'; fi
    )"
    launch bin/install
    tell 'install wants a folder' "$(is_status 2; says err 'bin/install PREFIX')"
}

# ---- the guide -----------------------------------------------------------------------------

guide_tests() {
    local folder=$work/guide
    mkdir "$folder"
    cp -r "$work/prefix/share/afdx/examples" "$folder" # as the guide says
    HAS=
    if "$program" send --help >"$work/out" 2>&1; then HAS+=' send'; fi
    if "$program" conform --help >"$work/out" 2>&1; then HAS+=' conform'; fi
    if [[ -n $dpkt ]]; then HAS+=' capture'; fi
    if has tshark; then HAS+=' tshark'; fi
    if [[ -n $reporting ]]; then HAS+=' report'; fi
    HAS+=" $("$python" tests/lib/reads.py)" # pcap, pcapng, list
    export HAS
    env -u AFDX PATH="$work/prefix/bin:$PATH" "$python" tests/tools/document_commands.py \
        docs/GUIDE.md "$folder" >"$work/guide.out" 2>&1
    passed=$((passed + $(grep -c '^ok ' "$work/guide.out")))
    failed=$((failed + $(grep -c '^FAILED ' "$work/guide.out")))
    skipped=$((skipped + $(grep -c '^skipped ' "$work/guide.out")))
    cat "$work/guide.out"
    tell 'the guide was run to its end' "$(
        told=$(grep -cE '^(ok|FAILED|skipped) ' "$work/guide.out")
        if [[ $told -ne $(grep -c '^```sh' docs/GUIDE.md) ]]; then
            tail -n 3 "$work/guide.out"
        fi
    )"
}

# The README's commands are those of a checkout.
readme_tests() {
    local folder=$work/readme
    mkdir -p "$folder/bin"
    ln -s "$program" "$folder/bin/afdx"
    ln -s "$top/examples" "$folder"
    launch "$python" tests/tools/document_commands.py README.md "$folder"
    tell 'the README prints what the program prints' "$(
        is_status 0
        [[ $(grep -c '^ok ' "$work/out") -ge 4 ]] || echo 'fewer than four commands were run'
        grep -A 8 '^FAILED ' "$work/out"
    )"
}

if [[ -n $built ]]; then
    install_tests
    bare_tests
    guide_tests
    readme_tests
else
    skip 'install, the bare folder and the guide' "there is no program $program"
fi
