#!/bin/bash
# Lists the places that the design pass looks at, in the sources of this checkout; with a number, those of one point.
# Usage: tools/places.sh [POINT], where POINT is one of 1a 1b 1c 1d 2 3 4a 4b 5a 5b 6 7 8
cd "$(dirname "$0")/.." || exit 1
sources() { find crates/*/src -name '*.rt' | sort; }
seen() { sources | xargs grep -nE "$1"; }

# own enums
p1a() { seen '^ *(pub(\([a-z]+\))? )?enum '; }
# an Option or a Result taken apart by hand
p1b() { seen 'None => |let (Some|Ok)\(.*\) = .* else|Err\(_\) => |Ok\(_\) => '; }
# functions that take a kind as a number, or tell a number without a meaning
p1c() { seen '(source|format|attribute|word|number): u32|fn [a-z_]+\(\) -> u8'; }
# flags as parameters
p1d() { seen 'fn .*: bool[,)]|^ {4}[a-z]+: bool,$'; }
# functions of one name in one crate, but for the methods of traits
p2() { sources | xargs awk '/^(pub(\([a-z]+\))? )?trait / || /^impl.* for / { skip = 1 } /^}/ { skip = 0 } !skip && match($0, /fn [a-z_]+/) { split(FILENAME, path, "/"); print path[2] ": " substr($0, RSTART + 3, RLENGTH - 3) }' | sort | uniq -c | awk '$1 > 1 { print $2, $3, "x", $1 }'; }
# loops that are no plain "for x in xs"
p3() { seen '^ *(while |loop \{|.*for [a-z_]+ in [0-9a-zA-Z_.()]+\.\.|.*enumerate\(\))'; }
# impls of traits that a derive or a conversion may give
p4a() { seen '^ *impl.* (PartialEq|Eq|PartialOrd|Ord|Clone|Copy|Debug|Default|Display|From<.*>|TryFrom<.*>) for '; }
# printing by hand
p4b() { seen 'fn (write|print)_?[a-z]*|out\.(text|byte|number|signed)\('; }
# one clause in three or more contracts
p5a() { sources | xargs grep -hoE '(requires|ensures)( [a-z_]+)? \{.*\}' | sed -E 's/^(requires|ensures) [a-z_]+ \{/\1 {/' | sort | uniq -c | awk '$1 >= 3'; }
# functions with six or more parameters
p5b() { sources | xargs awk 'FNR == 1 { open = 0 } /^ *(pub(\([a-z]+\))? )?fn [a-z_]+.*\($/ { open = 1; name = $0; n = 0; next } open && /^ *\)/ { if (n >= 6) print FILENAME ": " name " " n; open = 0 } open { n++ }'; }
# buffers with a length beside them, tables of starts, lists
p6() { seen 'len: usize|STARTS|Vec<|: &mut \[Record\]'; }
# tests as objects, flags and tables that select code
p7() { seen 'fold: bool|impl Test<|fn\(|dyn |Fn\('; }
# lines and answers of the proofs
p8() { find crates/*/proofs -name '*.antt' | sort | xargs cat | wc -l; find crates/*/proofs -name '*.antt' | xargs grep -hE '^pub [^ ]+ : goal\.' | wc -l; }

for p in ${1:-1a 1b 1c 1d 2 3 4a 4b 5a 5b 6 7 8}; do
    if [ -n "$1" ]; then "p$p"; elif [ "$p" = 8 ]; then echo "8: $(p8 | paste -sd ' ')"; else echo "$p: $("p$p" | wc -l)"; fi
done
