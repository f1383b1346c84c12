# Read by the benches that prove and build a program of their own.
# Copies crates, with what is proved of them and their lines of crates.txt, into a directory: copy_crates TOP SCRATCH CRATE...
copy_crates() {
    local top=$1 scratch=$2 crate part
    shift 2
    for crate; do
        mkdir -p "$scratch/crates/$crate"
        for part in src specs proofs; do
            [ ! -d "$top/crates/$crate/$part" ] || cp -r "$top/crates/$crate/$part" "$scratch/crates/$crate/$part"
        done
        grep -E "^$crate[ :]" "$top/crates.txt" >> "$scratch/crates.txt"
    done
}
