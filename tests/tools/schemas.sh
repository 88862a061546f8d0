# Tests of the JSON schemas: of a configuration, for editors, and of report.json. A part of
# tests/run/tools.sh.
# shellcheck shell=bash
# shellcheck disable=SC2154  # what it uses is set by tests/run/tools.sh, which sources it

against() { # SCHEMA FILE.. : a line for each TOML or JSON file that isn't as the schema says
    "$python" - "$@" <<'END_OF_FILE'
import json, sys, tomllib
import jsonschema
schema = json.load(open(sys.argv[1]))
jsonschema.Draft7Validator.check_schema(schema)
for path in sys.argv[2:]:
    with open(path, "rb") as file:
        read = tomllib.load(file) if path.endswith(".toml") else json.load(file)
    found = next(jsonschema.Draft7Validator(schema).iter_errors(read), None)
    if found:
        print(f"{path}: {found.json_path} {found.message[:100]}")
END_OF_FILE
}

config_schema_tests() {
    local change count=0
    tell 'the schema of configurations takes all examples' "$(
        against docs/config.schema.json examples/*.toml
    )"
    while IFS= read -r change; do
        count=$((count + 1))
        sed "$change" examples/network.toml >"$work/wrong$count.toml"
        cmp -s examples/network.toml "$work/wrong$count.toml" && echo "$change changes nothing"
    done >"$work/unchanged" <<'END'
s/^profile = .*/profile = 3/
s/^buffer/bufer/
0,/bag_ms = [0-9]*/s/bag_ms = [0-9]*/bag_ms = 3/
0,/"high"/s/"high"/"higher"/
0,/rate = 100/s/rate = 100/rate = 50/
0,/lmax = [0-9]*/s/lmax = [0-9]*/lmax = 1519/
0,/udp = [0-9]*,*/s/udp = [0-9]*,*//
END
    tell 'and refuses what no configuration has' "$(
        cat "$work/unchanged"
        against docs/config.schema.json "$work"/wrong[0-9].toml >"$work/out"
        if [[ $(wc -l <"$work/out") -ne 7 ]]; then cat "$work/out"; fi
    )"
}

report_schema_tests() {
    local list=examples/one_link.list frame
    launch tools/afdx-report examples/network.toml examples/bench.list --out "$work/one"
    launch tools/afdx-report --compare "$work/one/report.json" examples/network.toml \
        examples/bench.list --out "$work/two"
    launch tools/afdx-report examples/two_switches.toml examples/two_switches.list \
        --out "$work/several"
    frame=$(head -n 1 $list | cut -d ' ' -f 5)
    printf 'F %d A 3 %s\n' 6720 "$frame" 506719 "$frame" >"$work/wrong.list"
    launch tools/afdx-report --conform examples/base.toml $list "$work/wrong.list" \
        --out "$work/judged"
    launch tools/afdx-report --conform --senders examples/base.toml $list "$work/wrong.list" \
        --out "$work/senders"
    tell 'report.json is as its schema says' "$(
        against docs/report.schema.json "$work"/{one,two,several,judged,senders}/report.json
    )"
    tell 'its version and its findings are values' "$(
        wants_number "$work/one/report.json" 'r["version"]' 1
        wants_number "$work/one/report.json" 'sum(f["count"] for f in r["findings"]
            if f["criterion"] == "dropped") - r["totals"]["dropped"]' 0
        wants_number "$work/one/report.json" \
            'all(f["links"] for f in r["findings"] if f["criterion"] in ("missing", "late"))' True
    )"
}

if ! "$python" -c 'import jsonschema' 2>"$work/err"; then
    skip 'the schemas' 'there is no package jsonschema (apt-get install python3-jsonschema)'
else
    config_schema_tests
    if [[ -n $built && -n $numpy ]]; then
        report_schema_tests
    else
        skip 'the schema of report.json' 'there is no program, or no package numpy'
    fi
fi
