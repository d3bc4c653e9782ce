#!/bin/sh
# Prints each link of the documents that leads to no file, or to no heading of one, and what is stale in the
# lists of docs/PROMISES.md. Fails if there is any.
cd "$(dirname "$0")/.." || exit 1

# The headings of a page, in the form in which links name them.
headings() {
    sed -n 's/^##* //p' "$1" | tr '[:upper:]' '[:lower:]' | LC_ALL=C sed 's/[^a-z0-9_ -]//g; s/ /-/g'
}

links() {
    for document in *.md docs/*.md bindings/*.md crates/*.md; do
        folder=$(dirname "$document")
        grep -o '](\([^):]*\))' "$document" | sed 's/](//; s/)$//' | while read -r link; do
            file=${link%%#*}
            page=$folder/$file
            [ -n "$file" ] || page=$document
            heading=
            case $link in *'#'*) heading=${link#*#} ;; esac
            if [ ! -e "$page" ]; then
                echo "$document: $link"
            elif [ -n "$heading" ] && ! headings "$page" | grep -qxF -e "$heading"; then
                echo "$document: $link"
            fi
        done
    done
}

missing=$(links; tests/promises.py || echo "tests/promises.py failed")
[ -z "$missing" ] || { echo "$missing"; exit 1; }
