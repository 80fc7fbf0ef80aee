# The samples of docs/EMBEDDING.md are, byte for byte, the files that examples/embedding/run builds and runs; the one in C compiles as
# printed, as C and as C++, without a warning. The lines of the Rattle sample are in the program that the gate runs.
cd ..
page=docs/EMBEDDING.md
made=$(mktemp -d)
trap 'rm -rf "$made"' EXIT

section() { # section HEADING: its lines up to the next heading
    awk -v heading="## $1" '$0 == heading { inside = 1; print; next } inside && /^##+ / { exit } inside' "$page"
}
same() { # same HEADING LANGUAGE FILE: the first block in this language is this file
    section "$1" | awk -v fence='```'"$2" '$0 == fence { inside = 1; next } inside && $0 == "```" { exit } inside' > "$made/sample.$2"
    if cmp -s "$made/sample.$2" "$3"; then
        echo "$1: the sample is $3"
    else
        echo "$1: the sample isn't $3"
    fi
}
compile() { # compile COMPILER LANGUAGE STANDARD
    if ! command -v "$1" > /dev/null; then
        echo "skipped: the sample as $3: no $1" >&2
    elif ! "$1" -x "$2" -std="$3" -fsyntax-only -Wall -Wextra -Werror -Iexamples/embedding "$made/sample.c" >&2; then
        echo "the sample doesn't compile as $3"
    fi
}
same Python python examples/embedding/sample.py
same 'C and C++' c examples/embedding/sample.c
compile cc c c99
compile cc c c17
compile c++ c++ c++17
# the lines in the comment of comtrade.h, in a function
for compiler in 'cc -std=c99' 'cc -std=c17' 'c++ -x c++ -std=c++17'; do
    command -v "${compiler%% *}" > "$made/said" || continue
    {
        echo '#include "comtrade.h"'
        echo 'void sample(size_t rows, double *values);'
        echo 'void sample(size_t rows, double *values) {'
        sed -n '/^ \*\/$\|^#ifndef/q; s/^ \*     //p' examples/embedding/comtrade.h
        echo '}'
    } > "$made/comment.c"
    $compiler -fsyntax-only -Wall -Wextra -Werror -Iexamples/embedding "$made/comment.c" >&2 || echo "the comment of comtrade.h doesn't compile: $compiler"
done
same Rust rust examples/embedding/rust/comtrade/examples/sample.rs
section Rattle | awk -v name=Rattle -f cases/documents/readme-examples/blocks.awk
