#!/usr/bin/env bash
# Lists the lines of src/ that may hold an older form, by point of docs/DESIGN-PASS.md: each has to be read.
#   tools/count_forms.sh        how many lines each point's pattern finds
#   tools/count_forms.sh N      the lines of point N
set -eu
cd "$(dirname "$0")/.."
find_in_src() { grep -rnE --include='*.rt' "$1" crates/*/src || true; }
point() {
    case $1 in
    # own Options and Results, flags, codes, an answer taken apart only to be passed on
    1) find_in_src '^pub enum|: bool,$|unwrap_or\(0\)|line: 0\b|^    pub line: usize|None => (return )?None|None => break|Err\([a-z_]+\) => (return )?Err\(|Err\(_\) => Err|if let Err\(|is_err\(\)|let (Some|Ok)\(.*\) = .* else \{|Result<Result' ;;
    # functions and types that may differ only in a type, a size or a constant
    2) find_in_src '^(pub(\(crate\))? )?fn (main|run|run_all|contents|print_all|say|run_torn|row)\b|enum (Letters|Kind|Node|Failure)|impl(<.*>)? From<Alloc|Un(read|written)\(' ;;
    # loops by hand
    3) find_in_src '^ *(for [^"]* in [^"]*\.\.|while |loop \{|.[a-z]+: loop)|^ *[a-z.]+ [+-]= 1;' ;;
    # comparing, converting and printing by hand; types without the usual derives
    4) find_in_src 'fmt::Display for|impl(<.*>)? From<|fn (named|number|same|is_number|is_word|is_line)\(|[a-z)] as u(8|16|32|64)\b'
       find_in_src '^#\[derive' | grep -v Debug || true ;;
    # facts and parameters that travel together
    5) find_in_src 'Drafted |Within |most ≤ 256|automaton: &A,|^    rt: &HostRuntime,|\(rt: &HostRuntime, (label|name|letters)' ;;
    # buffers with an index or a length beside them, look-ups by index
    6) find_in_src '^ *(pub )?(at|len): usize|ended: bool|\[u8; [0-9]+\]|\[(false|0|SmallSet)[^]]*; [A-Z0-9_]+\]|buffer: &mut|^ *letters: u8,|[a-z]\[[a-z.]+( as usize)?\]' ;;
    # a choice of what to run
    7) find_in_src 'match (self|kind|node|letters)\b' ;;
    # answers of proofs: how many there are
    8) grep -rnE --include='Answers.antt' '^pub \S+ : goal' crates/*/proofs || true ;;
    esac
}
if [ $# -gt 0 ]; then
    point "$1"
else
    for n in 1 2 3 4 5 6 7 8; do
        echo "$n: $(point $n | wc -l)"
    done
fi
