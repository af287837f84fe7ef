#!/bin/sh
# Counts the places of each point of docs/DESIGN-PASS.md in the code; with the number of a point, lists them.
cd "$(dirname "$0")/.." || exit 1
code() { git ls-files 'crates/*/src/*.rt' 'crates/*/src/**/*.rt' | sort -u; }
in_src() { code | xargs grep -nE "$1"; }

# Numbers that a comment explains as kinds or as "none", and booleans beside a value.
codes() { code | xargs grep -nE -A1 '// .*(\b[01] [a-z ]+, [12] |\b[01] for |\b0 (or|for|where|past|outside|means)\b|counts as 0)' | grep -E '^[^ ]+-[0-9]+-.*(: u(8|32|64)|: usize|-> \(?u)'; }
flags() { in_src '[a-z_]+: bool\b'; }
# A match that does what a method of Option or Result does.
hand_matches() { in_src '^ *(Some|Ok|Err|None)(\([a-z]+\))? => (Some|Ok|Err|None|0|true|false|[a-z_]+)[^{]*,$' | grep -E 'None => (None|0|true|false)|(Ok|Err)\(([a-z]+)\) => (Ok|Err)\('; }

# Names of functions or types that stand in two crates, methods of traits aside.
twins() { in_src '^ *(pub(\(crate\))? )?(fn|struct|enum) [A-Za-z_0-9]+' | sed -E 's/^([^:]+):[0-9]+: *(pub(\(crate\))? )?/\1 /; s/[(<:{].*//' | awk '{ k = $2 " " $3; n[k]++; f[k] = f[k] " " $1 } END { for (k in n) if (n[k] > 1) print k ":" f[k] }' | sort; }

# Loops, and those of them that count an index or a place by hand.
loops() { in_src '^ *(for|while|loop)\b'; }
indexed() { in_src 'in 0\.\.|\.enumerate\(\)|[a-z] \+= 1;'; }

# Casts, and matches between numbers and kinds.
casts() { in_src ' as (u8|u32|u64|usize|i64)\b'; }
number_arms() { in_src '^ *([0-9]+ => |[A-Z][A-Za-z:]+ => [0-9]+,)'; }

# What three contracts or more ask alike, and parameters that go together.
asked() { in_src 'requires ([a-z]+ )?\{' | sed -E 's/.*requires ([a-z]+ )?//' | sort | uniq -c | awk '$1 >= 3'; }
together() { in_src 'fn .*(d: Detail, b: &Bar|annex: &A, situation: Situation|fields: &\[u32\], place: usize)'; }

# Fixed buffers, and tables of constants.
buffers() { in_src '\[(u8|u32|bool|0|None)[^];]*; *[A-Z0-9_]+\]|^ *(pub )?const [A-Z_]+: (&\[|\[)'; }

# Functions that a number tells apart, and matches on a number of five arms or more.
numbered() { in_src 'fn [a-z]+[0-9]+\('; in_src 'match field \{'; }

# Answers and lemmas.
proofs() { git ls-files 'crates/*/proofs/*.antt' | xargs cat | wc -l; git ls-files 'crates/*/Answers.antt' | wc -l; }

line() { printf '%-58s %s\n' "$1" "$($2 | wc -l)"; }
case "$1" in
  1) codes; flags; hand_matches ;;
  2) twins ;;
  3) indexed ;;
  4) casts; number_arms ;;
  5) asked; together ;;
  6) buffers ;;
  7) numbered ;;
  8) proofs ;;
  *)
    line '1 numbers that stand for kinds or for none' codes
    line '1 booleans in signatures and structs' flags
    line '1 matches that a method of Option or Result replaces' hand_matches
    line '2 names of functions and types that stand twice' twins
    line '3 loops' loops
    line '3 loops that count an index or a place' indexed
    line '4 casts' casts
    line '4 arms between numbers and kinds' number_arms
    line '5 preconditions that three functions or more share' asked
    line '5 signatures with parameters that travel together' together
    line '6 fixed buffers and tables of constants' buffers
    line '7 functions numbered, and switches on a field' numbered
    echo "8 lines of proofs, files of answers:                       $(proofs | tr '\n' ' ')" ;;
esac
