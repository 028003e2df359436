#!/bin/sh
# SPDX-License-Identifier: Apache-2.0 OR MIT
# Makes in contrib/out what editors want beside the clients' own files, so that no editor has to be at hand: `elpa` holds the Emacs
# packages as Emacs' own installer leaves them, with their version and needs and with what makes their commands known, and
# `tags` is what `:helptags` writes for Vim's help.
cd "$(dirname "$0")/.." || exit 2
LC_ALL=C
export LC_ALL
out=contrib/out
rm -rf $out/elpa $out/tags
mkdir -p $out || exit 1

header() {
    sed -n "s/^;; $2: *//p" "$1" | head -n 1
}

# The commands of a file that stand under an autoload cookie, each as what loads the file for it.
commands() {
    awk -v name="$(basename "$1" .el)" '
        function known() {
            if (command != "") print "(autoload (quote " command ") \"" name "\" nil" asked ")"
            command = ""
        }
        /^[(;]/ { known() }
        cookie && $1 != "(defun" && $1 != "(define-minor-mode" {
            print FILENAME ": what is known of this before it is loaded? " $0 > "/dev/stderr"
            exit 1
        }
        cookie { command = $2; asked = $1 == "(define-minor-mode" ? " t" : "" }
        / \(interactive[ )]/ || / \(interactive$/ { asked = " t" }
        { cookie = $0 == ";;;###autoload" }
        END { known() }
    ' "$1"
}

# emacs_package FILE: of the file that says a version, with those whose names begin with its own.
emacs_package() {
    name=$(basename "$1" .el)
    place=$out/elpa/$name-$(header "$1" Version)
    summary=$(sed -n "1s/ *-\*-.*//; 1s/^;;; $name\.el --- *//p" "$1")
    mkdir -p "$place" || return 1
    cat > "$place/$name-pkg.el" <<END
(define-package "$name" "$(header "$1" Version)" "$summary" '$(header "$1" Package-Requires))
;; Local Variables:
;; no-byte-compile: t
;; End:
END
    {
        echo ";;; $name-autoloads.el --- what is known of $name before it is loaded  -*- lexical-binding: t -*-"
        echo "(add-to-list 'load-path (directory-file-name (file-name-directory load-file-name)))"
        for part in clients/emacs/"$name"*.el; do
            case $part in
                *-tests.el) ;;
                *) cp "$part" "$place/" && commands "$part" || return 1 ;;
            esac
        done
        echo ";; Local Variables:"
        echo ";; no-byte-compile: t"
        echo ";; End:"
        echo ";;; $name-autoloads.el ends here"
    } > "$place/$name-autoloads.el"
}

vim_tags() {
    for page in clients/vim/doc/*.txt; do
        awk -v page="${page##*/}" '
            {
                rest = " " $0 " "
                while (match(rest, /[ \t]\*[^ \t*|]+\*[ \t]/)) {
                    tag = substr(rest, RSTART + 2, RLENGTH - 4)
                    rest = substr(rest, RSTART + RLENGTH - 1)
                    place = tag
                    gsub(/[\\\/]/, "\\\\&", place)
                    print tag "\t" page "\t/*" place "*"
                }
            }' "$page"
    done | LC_ALL=C sort > $out/tags
}

packages=$(grep -l '^;; Version:' clients/emacs/*.el)
for client in $packages; do
    emacs_package "$client" || exit 1
done
for client in clients/emacs/*.el; do
    case $client in
        *-tests.el) ;;
        *) [ -n "$(find $out/elpa -name "${client##*/}")" ] || { echo "orgviews: $client is in no package" >&2; exit 1; } ;;
    esac
done
[ ! -d clients/vim/doc ] || vim_tags
touch $out/clients
