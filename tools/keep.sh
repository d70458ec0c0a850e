# shellcheck shell=sh
# The module that the Rattle compiler hands to its back end, kept; for the scripts that read this file by `.` after machine.sh.
#
#   keeping_tools FOLDER   makes FOLDER/toolchain, the back end as the kit has it but for its compiler: that leaves each module in FOLDER/module.bc, and
#                          does what it does. rattle takes it as --toolchain
unset -v file real
keeping_tools() {
    real=$(kit)/toolchain && [ -x "$real/bin/clang" ] && mkdir -p "$1/toolchain/bin" || return
    for file in "$real"/* "$real"/bin/*; do
        case ${file#"$real"/} in
            bin | bin/clang) ;;
            *) ln -s "$file" "$1/toolchain/${file#"$real"/}" || return ;;
        esac
    done
    cat > "$1/toolchain/bin/clang" << END
#!/bin/sh
for word in "\$@"; do case \$word in *.bc) cp "\$word" "$1/module.bc" ;; esac; done
exec "$real/bin/clang" "\$@"
END
    chmod +x "$1/toolchain/bin/clang"
}
