# Tests of bin/package: the package is installed in a bare root, and what it brings is used there. A
# part of tests/run/tools.sh.
# shellcheck shell=bash
# shellcheck disable=SC2154  # what it uses is set by tests/run/tools.sh, which sources it

package_root() { # a root with an empty list of packages and the C library
    local library
    mkdir -p "$work/deb_root/var/lib/dpkg/"{info,updates,triggers}
    : >"$work/deb_root/var/lib/dpkg/status"
    while IFS= read -r library; do
        mkdir -p "$work/deb_root$(dirname "$library")"
        cp -L "$library" "$work/deb_root$library"
    done < <(ldd "$program" | grep -o '/[^ ]*')
}

dead_links() { # FOLDER : links of its documents that lead to no file, or to no heading of one
    "$python" - "$1" <<'END_OF_FILE'
import pathlib, re, sys
folder = pathlib.Path(sys.argv[1])
for page in sorted(folder.glob("*.md")):
    for name, _, place in re.findall(r"\]\(([^)#]*)(#([^)]*))?\)", page.read_text()):
        target = folder / (name or page.name)
        if not target.is_file():
            print(f"{page.name}: there is no {name}")
            continue
        heads = re.findall(r"^#+ (.*)$", target.read_text(), re.M)
        slugs = [re.sub(r"[^\w -]", "", head.lower()).replace(" ", "-") for head in heads]
        if place and place not in slugs:
            print(f"{page.name}: {target.name} has no heading {place}")
END_OF_FILE
}

installed_tests() { # DEB
    local root=$work/deb_root file
    package_root
    launch dpkg --root="$root" --force-not-root,depends,script-chrootless --log=/dev/null -i "$1"
    tell 'the package is installed in a bare root' "$(
        is_status 0
        dpkg --root="$root" --status afdx 2>&1 | grep '^Status: install ok installed' >/dev/null ||
            echo 'dpkg says that it is not'
        cmp "$program" "$root/usr/bin/afdx" 2>&1
        for file in share/man/man1/afdx{,-capture,-report,-campaign,-icd,-fill}.1.gz \
            share/man/man1/afdx{-traffic,-taps}.1.gz \
            share/doc/afdx/{TOOLS.md,copyright} share/afdx/examples/{messages.csv,make_bench.py} \
            share/bash-completion/completions/afdx{,-capture} share/zsh/vendor-completions/_afdx \
            share/fish/vendor_completions.d/afdx{,-report}.fish share/doc/afdx/changelog.gz \
            "lib/$(dpkg-architecture_of)/wireshark/plugins/afdx.lua" bin/afdx-report; do
            if [[ ! -s $root/usr/$file ]]; then echo "no $file"; fi
        done
        (cd "$root" && md5sum --quiet -c var/lib/dpkg/info/afdx.md5sums 2>&1)
    )"
    tell 'the README of the package is its own, and its documents lead nowhere else' "$(
        cmp docs/PACKAGE.md "$root/usr/share/doc/afdx/README.md" 2>&1
        dead_links "$root/usr/share/doc/afdx"
    )"
    tell 'GUIDE names the folder in which the package has the examples' "$(
        grep -o '/usr/share/afdx/examples' "$root/usr/share/doc/afdx/GUIDE.md" >"$work/listed" ||
            echo 'it does not'
        diff -r -x __pycache__ examples "$root$(head -n 1 "$work/listed")"
    )"
    if [[ -n $numpy ]]; then
        launch env -u AFDX "$root/usr/bin/afdx-report" examples/base.toml \
            examples/one_link.list --json
        tell 'a tool of the package finds its program' "$(
            is_status 0
            wants_number "$work/out" 'r["totals"]["frames"]' 3
        )"
    else
        skip 'a tool of the package finds its program' 'there is no package numpy'
    fi
    launch "$root/usr/bin/afdx-capture" --version
    tell 'a tool of the package knows its version' "$(says out "$version")"
    if [[ $(id -u) -eq 0 ]]; then
        launch chroot "$root" /usr/bin/afdx check /usr/share/doc/afdx/examples/base.toml
        tell 'the program of the package runs in the bare root' "$(is_status 0; says out ok)"
    else
        skip 'the program of the package in the bare root' 'only root may change the root folder'
    fi
}

dpkg-architecture_of() { # the folder of this machine's libraries
    case $(dpkg --print-architecture) in
        amd64) echo x86_64-linux-gnu ;;
        arm64) echo aarch64-linux-gnu ;;
    esac
}

package_tests() {
    local words version deb
    words=crates/afdx_command_words/src/words.rt
    version=$(sed -n 's/^const VERSION: &str = "\([^ ]*\) .*/\1/p' "$words")
    launch bin/package "$work/packages"
    deb=$(tail -n 1 "$work/out")
    tell 'a package is made' "$(
        is_status 0
        if [[ $deb != "$work/packages/afdx_${version}_"*.deb || ! -s $deb ]]; then
            echo "it says '$deb'"
        fi
        launch dpkg-deb --field "$deb" Version
        says out "$version"
    )" "$(stat -c %s "$deb" 2>/dev/null) bytes"
    form_tests "$deb"
    installed_tests "$deb"
    launch bin/package "$work/packages2"
    tell 'the same files give the same package' "$(cmp "$deb" "$(tail -n 1 "$work/out")" 2>&1)"
    planted_test "$deb"
}

planted_test() { # DEB : a link stands where the package is to stand
    local folder=$work/packages3 name=${1##*/}
    mkdir "$folder"
    echo precious >"$work/precious"
    ln -s "$work/precious" "$folder/$name"
    launch bin/package "$folder"
    tell 'a link in the place of a package is replaced, and nothing else stays there' "$(
        is_status 0
        grep -qxa precious "$work/precious" || echo 'the link was followed'
        if [[ -L $folder/$name ]]; then echo 'the link stays'; fi
        cmp "$1" "$folder/$name" 2>&1
        find "$folder" -mindepth 1 ! -name "$name"
    )"
}

packaged() { # DEB FILE : its bytes
    dpkg-deb --fsys-tarfile "$1" | tar -xO "./usr/$2"
}

# What Debian asks of a package; the program in it stays byte for byte what was proved.
form_tests() { # DEB
    local named
    named=$("$python" -c 'import tomllib; [one] = tomllib.load(open("pyproject.toml", "rb"))[
"project"]["maintainers"]; print(f"{one['"'name'"']} <{one['"'email'"']}>")')
    launch dpkg-deb --field "$1" Maintainer
    tell 'the maintainer of the package is the one that pyproject.toml names' "$(
        is_status 0
        says out "$named"
    )"
    packaged "$1" share/doc/afdx/changelog.gz | gzip -d >"$work/changelog"
    tell 'the changelog of the package has the form of Debian' "$(
        head -n 1 "$work/changelog" | grep -qx "afdx ($version) unstable; urgency=medium" ||
            head -n 1 "$work/changelog"
        grep -qxF -- " -- $named  $(date -R -d "@$(git log -1 --format=%ct)")" "$work/changelog" ||
            tail -n 1 "$work/changelog"
        if [[ $(tr -d ' \n' <"$work/changelog" | wc -c) -lt $(grep '^- ' CHANGELOG.md |
            cut -c 3- | tr -d ' \n' | wc -c) ]]; then echo 'text is left out'; fi
    )"
    if ! has lintian; then
        skip 'lintian finds nothing in the package' 'there is no lintian (apt-get install lintian)'
        return
    fi
    launch lintian --allow-root --fail-on error,warning --tag-display-limit 0 "$1"
    tell 'lintian finds nothing in the package' "$(is_status 0; cat "$work/out")"
}

refused_package_tests() {
    launch env AFDX=/nowhere bin/package "$work/no_package"
    tell 'no package without a program' "$(is_status 1; says err 'there is no program /nowhere')"
    launch env AFDX=/bin/echo bin/package "$work/no_package"
    tell 'no package of another version' "$(
        is_status 1
        says err 'the program says'
        if [[ -e $work/no_package ]]; then echo 'there is a folder'; fi
    )"
    launch bin/package
    tell 'package wants a folder' "$(is_status 2; says err 'bin/package FOLDER')"
}

if ! has dpkg-deb; then
    skip 'the package' 'there is no dpkg-deb (apt-get install dpkg)'
elif [[ -z $built ]]; then
    skip 'the package' "there is no program $program"
else
    refused_package_tests
    if [[ $("$program" --version 2>&1) == afdx\ * ]]; then
        package_tests
    else
        skip 'the package' 'the program tells no version'
    fi
fi
