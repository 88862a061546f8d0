# Tests of tables as workbooks (.xlsx): read as CSV is, within bounds. A part of tests/run/tools.sh.
# shellcheck shell=bash
# shellcheck disable=SC2154  # what it uses is set by tests/run/tools.sh, which sources it

books=$work/books

write_books() { # workbooks of the examples, and some that are meant to harm
    "$python" - "$books" <<'END_OF_FILE'
import csv, io, sys, zipfile
import openpyxl

def book(name, rows):
    made = openpyxl.Workbook()
    for row in rows:
        made.active.append([int(c) if c.isdigit() else c or None for c in row])
    made.save(f"{sys.argv[1]}/{name}.xlsx")

for name in ("systems", "messages"):
    book(name, csv.reader(open(f"examples/{name}.csv")))
book("wide", [["system", *"x" * 200]])
made = openpyxl.Workbook()
made.active.append(["system", "port", "id", "partition", "rate"])
made.active.cell(900_000, 1, "late")
made.save(f"{sys.argv[1]}/long.xlsx")
with zipfile.ZipFile(f"{sys.argv[1]}/bomb.xlsx", "w", zipfile.ZIP_DEFLATED) as packed:
    old = zipfile.ZipFile(f"{sys.argv[1]}/systems.xlsx")
    for part in old.namelist():
        text = old.read(part)
        packed.writestr(part, text + b" " * 200_000_000 if part.endswith("sheet1.xml") else text)
whole = open(f"{sys.argv[1]}/systems.xlsx", "rb").read()
open(f"{sys.argv[1]}/cut.xlsx", "wb").write(whole[: len(whole) // 2])
END_OF_FILE
}

workbook_tests() {
    local name
    mkdir "$books"
    write_books
    launch tools/afdx-icd examples/systems.csv examples/messages.csv "$books/csv.toml"
    launch tools/afdx-icd "$books/systems.xlsx" "$books/messages.xlsx" "$books/xlsx.toml"
    tell 'tables as workbooks make what the same tables as CSV make' "$(
        is_status 0
        tail -n +2 "$books/csv.toml" >"$books/wanted"
        tail -n +2 "$books/xlsx.toml" >"$books/got"
        same "$books/wanted" "$books/got"
        same "$books/csv.names.csv" "$books/xlsx.names.csv"
    )"
    for name in wide long bomb cut; do
        launch_within 20 env -u PYTHONPATH prlimit --as=500000000 tools/afdx-icd \
            "$books/$name.xlsx" examples/messages.csv "$books/no.toml"
        tell "a workbook that isn't taken: $name" "$(
            is_status 2
            says err "$name.xlsx: "
            if [[ -e $books/no.toml || $(wc -l <"$work/err") -ne 1 ]]; then cat "$work/err"; fi
        )"
    done
}

if [[ -z $built ]]; then
    skip 'workbooks' "there is no program $program"
elif "$python" -c 'import openpyxl' 2>"$work/err"; then
    workbook_tests
else
    printf 'PK\3\4' >"$work/no.xlsx"
    launch tools/afdx-icd "$work/no.xlsx" examples/messages.csv "$work/no.toml"
    tell 'a workbook without openpyxl' "$(is_status 2; says err 'no.xlsx: ')"
    skip 'workbooks' 'there is no package openpyxl (apt-get install python3-openpyxl)'
fi
