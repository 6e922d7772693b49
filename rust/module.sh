# Sourced at the repository's root: the library, and the module that its archive is made of, compiled for any processor that the kit's
# compiler knows, with the words that the kit compiles it with.
#   library                      proves the library and writes its archive, for x86-64, and the module, where they are not there or not of
#                                today (`run library`)
#   compile MACHINE FROM TO [WORDS..]   a module as text, compiled; with these words too
#   archive MACHINE NAME FOLDER  the module on standard input as FOLDER/libNAME.a, its text and object beside it
#   library_for MACHINE FOLDER   the library for a processor: its own archive for x86-64, else its module, compiled, as the header has it
kept=$PWD/target/module

# The kit's compiler; a function, since not all who source this need the kit.
compiler() { echo "$(dirname "$(rt doc)")/toolchain"; }

library() { ./run library; }

# text_for MACHINE: a module of x86-64 as one of the machine
text_for() {
    [ "$1" != x86_64 ] || exec cat
    sed -e '/^target datalayout/d' -e "s/^target triple.*/target triple = \"$1-unknown-linux-gnu\"/" -e 's/ "target-cpu"="x86-64[^"]*"//'
}

# A result of more than 16 octets is written where the first word points, which is what C does on x86-64. Marked as what it is, it goes where
# C has it on the machine (on Arm that word has a register of its own), and the header holds there too.
as_in_c() {
    [ "$1" != x86_64 ] || exec cat
    sed '/^define noundef ptr @df_/,/^}/ {
        s/^define noundef ptr @\(df_[a-z_]*\)(ptr noundef %a0/define void @\1(ptr sret(i8) align 8 noundef %a0/
        s/^  ret ptr %a0$/  ret void/
    }'
}

compile() {
    local machine=$1 from=$2 to=$3 words=() word
    shift 3
    while read -r word; do
        case $word in
        --target=*) words+=("--target=$machine-unknown-linux-gnu") ;;
        --sysroot=*) words+=("--sysroot=$(compiler)") ;;
        -march=*) [ "$machine" != x86_64 ] || words+=("$word") ;;
        module.bc) words+=("$from") ;;
        module.o) words+=("$to") ;;
        *) words+=("$word") ;;
        esac
    done <"$kept/words"
    "$(compiler)/bin/clang" "${words[@]}" "$@"
}

archive() {
    mkdir -p "$3"
    (text_for "$1") >"$3/$2.ll"
    compile "$1" "$3/$2.ll" "$3/$2.o"
    rm -f "$3/lib$2.a"
    "$(compiler)/bin/llvm-ar" rcs "$3/lib$2.a" "$3/$2.o"
}

library_for() {
    library >&2 || return
    if [ "$1" = x86_64 ]; then
        mkdir -p "$2" && cp target/staticlib/libdustferrule.a "$2/"
    else
        (as_in_c "$1") <"$kept/module.ll" | archive "$1" dustferrule "$2"
    fi
}
