# The proved program that is kept, and how one tells that it is that of the files as they stand. Sourced by ./scr and
# .ci/run, with the repository's top in `here`.
kit='rattle-kit-13f logic dac8208d650f15bf'
program_crate=$here/crates/scr_replay
program=$program_crate/out/scr_replay

# The sum of all that a proof reads here, and of the kit.
sum_of_sources() {
  (
    cd "$here" || exit 1
    rt version 2>/dev/null
    cat crates.txt
    find crates -path 'crates/*/out' -prune -o -type f \( -name '*.rt' -o -name '*.antt' \) -print | LC_ALL=C sort | xargs -d '\n' sha256sum
  ) | sha256sum
}

# Notes that the program that stands was proved from the files as they stand.
note_kept() {
  { sum_of_sources; sha256sum <"$program"; } >"$program.of"
}

is_kept() {
  [ -x "$program" ] && [ -f "$program.of" ] && [ "$(cat "$program.of")" = "$(sum_of_sources; sha256sum <"$program")" ]
}
