# shellcheck shell=sh disable=SC2086,SC2154  # words before cargo; what the script sets that reads this file
# How cargo compiles the command: lay_out, compile and failed_before, for the script at the top of the checkout, which sets what they go by (here, built,
# made, failed, archive, registry, cargo, ending).

# A folder of the command's own for cargo, so that nothing is written beside the sources; its lock file takes the registry's checksums there. The manifest says
# where the sources are, by the whole path, since target may lie on another disk: rt ci refuses links to them anywhere in a checkout.
lay_out() {
    mkdir -p "$here/target/command" && { [ -d "$made" ] || mkdir -m 700 "$made"; } && mkdir -p "$made/crate/.cargo" || return 1
    quoted=$(printf '%s\n' "$here/command/src/main.rs" | sed 's/[\\"]/\\&/g') || return 1
    { cat "$here/command/Cargo.toml" && printf '\n[[bin]]\nname = "violstream"\npath = "%s"\n' "$quoted"; } > "$made/crate/Cargo.toml.$$" || return 1
    mv -f "$made/crate/Cargo.toml.$$" "$made/crate/Cargo.toml" && rm -f "$made/crate/src" "$made/crate/help" "$made/crate/systemd" || return 1
    if [ -d "$registry/clap-4.0.32" ]; then
        printf '[net]\noffline = true\n[source.crates-io]\nreplace-with = "debian"\n[source.debian]\ndirectory = "%s"\n' "$registry"
    fi > "$made/crate/.cargo/config.toml"
    cp "$here/command/Cargo.lock" "$made/crate/Cargo.lock"
}

# How things stand on which it depends whether cargo can compile the command: cargo itself, compiler and linker, Debian's registry, the sources.
standing() {
    { ls -lLi "$cargo" "$(command -v rustc)" "$(command -v cc)"; ls "$registry"; find "$here/command" -type f -exec cat {} +; } 2> /dev/null | cksum
}

# Says why cargo has failed. Without Debian's libraries it asks the network for them, and waits where nothing answers; that is written down for the next call.
tell_why() {
    grep -m 5 -E '^error' "$made/log" >&2
    [ -s "$made/crate/.cargo/config.toml" ] || { printf '%s\n' "$stand"; grep -m 5 -E '^error' "$made/log"; } > "$failed"
}

# Whether it has failed so before, and nothing has changed since; says the same again.
failed_before() {
    [ -r "$failed" ] && [ "$(sed 1q "$failed")" = "$(standing)" ] || return 1
    sed 1d "$failed" >&2
    say "so said cargo when it last tried, and nothing here has changed since; ./violstream build has it try again"
}

# With the library where it is there, for this processor, and has every call that the command makes; the newest tells. Of other bytes it stands in another folder, so that cargo sees that
# there is something to do. What was there is kept beside the command, which knows by it whether to be compiled again. Returns 1 where cargo fails, and 2 where nothing can be written.
compile() {
    stand=$(standing)
    library=$made/linked.$$
    if [ -f "$archive" ]; then cp "$archive" "$library"; else : > "$library"; fi || return 2
    set --
    if [ "$(uname -m)" = x86_64 ] && grep -q violstream_buys "$library"; then
        sum=$(cksum < "$library") && sum=$made/library.${sum%% *} && mkdir -p "$sum" && cp "$library" "$sum/libviolstream.a" || return 2
        set -- --features library -- -L "native=$sum"
    fi
    # What would have cargo build something else, or write elsewhere.
    unset -v CARGO_BUILD_RUSTFLAGS CARGO_BUILD_TARGET CARGO_ENCODED_RUSTFLAGS RUSTC RUSTC_WRAPPER RUSTFLAGS
    [ ! -s "$made/crate/.cargo/config.toml" ] || export CARGO_HOME="$made/home"
    (cd "$made/crate" && exec $ending nice -n 19 "$cargo" rustc --release --target-dir "$made/target" "$@") > "$made/log" 2>&1 || { tell_why; rm -f "$library"; return 1; }
    rm -f "$built".[0-9]* "$failed"
    # At once, and whole.
    cp "$made/target/release/violstream" "$built.$$" && mv -f "$built.$$" "$built" && mv -f "$library" "${built%/*}/linked.a" || return 2
}
