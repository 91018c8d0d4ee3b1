#!/usr/bin/env bash
# Lists the places in src/ that an older form of the language may have left, row by row, for docs/DESIGN-PASS.md.
#
#   tools/places.sh          the number of places of each row, here
#   tools/places.sh ROW      the places of a row, as 1d
#   tools/places.sh -C DIR   the same of another checkout, as of the commit at which the pass began
set -uo pipefail
dir="$(dirname "$0")/.."
if [ "${1:-}" = -C ]; then dir=$2; shift 2; fi
cd "$dir" || exit 1

src() { find crates -path '*/src/*' -name '*.rt' -not -path '*/out/*' | sort; }
lines() { src | xargs grep -nE "$1"; }

# 1a enums with a case for a refusal among the others; 1b truth values beside a value, or as the answer of a call that may fail
row_1a() { src | xargs awk '/enum [A-Z]/ { at = FILENAME ":" FNR ":" $0 } /^ *Refused\(/ && at { print at; at = "" } /^}/ { at = "" }'; }
row_1b() { lines '^ *(pub(\(crate\))? )?(started|timed): bool,?$|, timed: bool|fn push.*-> bool'; }
# 1c numbers for refusals: methods of one's own that give one, cases that hold one, calls that answer one or none
row_1c() { lines '^    pub fn number\(|No\(u8\)|Refused\(u8\)|fn [a-z_]*refusal.*-> Option<u8>|Result<[A-Za-z0-9<>, ;\[]*\]?, u8>'; }
# 1d numbers for quadrants and for kinds of grade
row_1d() { lines 'q: u8|fn kind_number'; }
# 1e matches that hand on what `?`, `map`, `ok`, `ok_or`, `is_some` and their like hand on
row_1e() { lines 'Err\(_?e?\) => (Err\(e\)|None|Answer::Refused|Reply::No|Said::Refused|\{\})|None => (None|Ok\(None\)|\{\}|true)|Ok\(_\) => (None|Reply::Done|Answer::Done|Ok)|Some\([a-z]+\) => Some\('; }

# 2a squares, quadrants of them and ranks that stand twice; 2b functions that read or write one place of a slice, by the type
row_2a() { lines 'struct Square|fn part\(|fn outranks<'; }
row_2b() { lines 'fn [a-z]+_at<|fn put_answer'; }
# 2c the number with which a call was refused, by the call; 2d one match for each question to a pile; 2e one test for each command
row_2c() { lines 'fn refusal\(|fn shift_refusal'; }
row_2d() { lines 'match self.least \{'; }
row_2e() { lines 'if !self.started'; }
# 2f generators; what a draw answers and how it is written; draws of one side and of one number; a box opened, and its first quadrants
row_2f() { lines 'struct (Generator|Dice|Numbers|DrawnLine|Drawn) |fn report_(side|line)|fn open_first|fn open<'; }

# 3a loops over a range of numbers; 3b loops that answer the index at which they stop; 3c numbers that a loop counts up
row_3a() { lines 'for [a-z_]+ in [^{]*\.\.[^{]* \{'; }
row_3b() { src | xargs grep -nE -A2 'enumerate\(\)' | grep -E 'return i;'; }
row_3c() { lines '(count|filled|marks|opened|listed) (\+= 1|= [a-z]+ \+ 1|= [a-z]+\.wrapping_add\(1\))'; }

# 4a equality and order written by hand; 4b conversion and order by functions of one's own, and casts that `From` can do
row_4a() { lines '^impl.* (PartialEq|PartialOrd|Ord|Clone) for '; }
row_4b() { lines 'fn (before|box_number|quadrant_named|value_of|number<)|\b(top|left|bottom|right|rows|cols|count|marks|quantity) as (u32|usize)|ceiling\(\) as usize|(square|window|self)\.[a-z]+ as u32'; }
# 4c types that derive no equality and no printing
row_4c() { src | xargs awk '/#\[derive\(Clone, Copy\)\]/ { getline line; print FILENAME ":" FNR ":" line }'; }

# 5a clauses that say that a plan, a queue or a tree is sound; 5b clauses with another fact that stands in three or more
row_5a() { lines '(requires|ensures)( [a-z]+)? \{ (Sound |T\.BoxTree\.sound|sound self)'; }
row_5b() { lines '(requires|ensures)( [a-z]+)? \{ (Upright|Lawful T|Fits|length places\.old ≤ 65535|Shape|\(0 < side\)|100 ≤|k ≤ length list)'; }
# 5c a plan's level, count and places as three parameters; 5d tree and window, and what a draw or a trial of one is lent, as parameters
row_5c() { lines '^    (h|count): (u32|u16),$|places: &(mut )?\[Place<G>\], h: u32'; }
row_5d() { lines 'tree: &T, window: Window|^    (rt|plan|queue|list|wanted|window): &?(mut )?(HostRuntime|impl Abort|Plan<.*>|\[Entry<.*>\]|\[Mark<.*>\]|\[\[u16; 3\]\]|Window),$'; }
# 5e a row and a column, or rows and columns, as two parameters
row_5e() { lines 'fn .*(row|rows): (u16|u32), (col|cols): (u16|u32)|^    row: u16,$|(Strike|Look)\(u16, u16\)'; }

# 6a slices and arrays with a length beside them; 6b links by index; 6c arrays of a fixed size that are filled or lent
row_6a() { lines '^ *(pub(\(crate\))? )?(len|count|filled): (usize|u16),?$|let mut filled = 0'; }
row_6b() { lines 'struct Link|^ *(pub(\(crate\))? )?[a-z_]+: (Link|\[Link; 4\]),$'; }
row_6c() { lines '\[Found; 256\]|= \[0; LONGEST\]|\[(Place|Entry)::vacant\(.*\); [A-Z0-9]+\]'; }

# 7a function pointers, trait objects, switches on a step
row_7a() { lines '\bdyn |: fn\(|Box<|match (step|phase|stage)'; }

# 8a answers; 8b lines of proofs
row_8a() { find crates -name Answers.antt -not -path '*/out/*' | xargs grep -hE '^pub '; }
row_8b() { find crates -path '*/proofs/*' -name '*.antt' -not -path '*/out/*' | xargs cat; }

rows="1a 1b 1c 1d 1e 2a 2b 2c 2d 2e 2f 3a 3b 3c 4a 4b 4c 5a 5b 5c 5d 5e 6a 6b 6c 7a 8a 8b"
if [ $# -gt 0 ]; then
    "row_$1"
else
    for r in $rows; do echo "$r $("row_$r" | grep -c .)"; done
fi
