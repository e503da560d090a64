# For the scripts beside this one: crates and all that they stand on, copied to a repository of their own, in which something is changed and built again. What is not changed is not
# proved again there, since checks on one machine share what they kept.
copy_crates() { # FOLDER CRATE..
    local folder=$1 crate part
    shift
    mkdir -p "$folder" || return
    awk -v tops="$*" '
        function visit(name,    k, count, words) {
            if (name in seen) return
            seen[name]
            count = split(stands[name], words, " ")
            for (k = 1; k <= count; k++) visit(words[k])
            print name ":" stands[name]
        }
        { sub(/#.*/, "") }
        split($0, part, ":") == 2 { stands[part[1]] = part[2] }
        END { count = split(tops, top, " "); for (k = 1; k <= count; k++) visit(top[k]) }' crates.txt >"$folder/crates.txt" || return
    for crate in $(cut -d: -f1 "$folder/crates.txt"); do
        mkdir -p "$folder/crates/$crate" || return
        for part in src specs proofs; do
            if [ -d "crates/$crate/$part" ]; then cp -R "crates/$crate/$part" "$folder/crates/$crate/" || return; fi
        done
    done
}
