# Makes the documentation as a site in out/site: writes the generated blocks of the pages again, and builds the pages of docs/
# with MkDocs and the pages of all public clauses beside them.
# Variables that the launcher sets:
: "${root:?}"

build_site() {
    # Debian's Python has MkDocs; another Python on the path may not have it
    for python in /usr/bin/python3 python3; do
        ! "$python" -c "import mkdocs" 2>/dev/null || break
    done
    "$python" -c "import mkdocs" 2>/dev/null ||
        give_up "the site needs MkDocs: apt-get install mkdocs mkdocs-material python3-pymdownx libjs-katex graphviz"
    "$python" "$root/tools/site/generated.py" || exit 1
    exec "$python" "$root/tools/site/build.py" "$root/out/site"
}
