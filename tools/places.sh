#!/bin/sh
# Lists the places of older forms in the sources of a checkout, by point; run at its top. docs/DESIGN-PASS.md says what each point is.
# With a commit as argument, the sources of that commit are searched.
where=.
if [ -n "$1" ]; then
    where=$(mktemp -d)
    git archive "$1" crates | tar x -C "$where"
fi
cd "$where" || exit 1

find_places() {
    echo
    echo "== $1"
    shift
    grep -nE "$@" crates/*/src/*.rt
}

find_places '1a enums, to be read for the shape of Option or Result' '^(pub |pub\(crate\) )?enum '
find_places '1b flags of a struct, to be read for a value beside them' '^ +(pub |pub\(crate\) )?[a-z_]+: bool,'
find_places '1c a ground in an Option in place of a Result' 'Option<Refusal>'
find_places '1d numbers that stand for nothing or for a refusal' '(Err\(_\)|Ok\(_\)|None) => (0|u32::MAX),|; zeros |0 where there is none'
find_places '1e kinds compared by number' 'number\(\) (==|!=|<|<=|>|>=) [a-z_.]*number\(\)'
find_places '1f errors handed on by hand' 'Err\([a-z]+\) => Err\(|let (Some|Ok)\([a-z_]+\) = .* else \{|if let Some\(refusal\) ='
find_places '3a loops over an index, loops with a condition, counters beside a loop' '^ *while |in 0\.\.|\.enumerate\(\)|\+= 1;|-= 1;|= [a-z]+\.saturating_add\(1\);'
find_places '3b loops that search or add up' '^ *for [a-z]+ in (&)?(text|payload|bytes|word|rows|days)\b'
find_places '4 equality, order, conversion and printing by hand' 'fn (same|same_bytes|before|higher|of|told_of|with_letter|letter|number|name|following|is_day|[a-z_]*value_of)\('
find_places '5a facts that stand in clause after clause' '(ensures|requires).*(Stands|SheetStands|Rising) [A-Za-z.]* ?(self|keys)'
find_places '5b two or more parameters that travel together' 'fn .*(year: u32, month: Month|day: u32, date: Date|first: u32, last: u32|place: usize, slot: usize|slot: usize, sheet: Sheet|day: u32, security: u8|clock: u64, execution: u64|clock: u64, trade: &Trade|listed: &mut \[Listed\], count)'
find_places '6 lengths beside memory, parallel arrays, sorted lists searched by hand' 'count: usize|\[Totals; 3\]|\[(mid|middle)\]|let mut (low|high) =|partition_point\(|binary_search'
find_places '7 switches on which step to run' 'enum Way|Way::(Onward|Back)|match (sheet|way)|totals\.(plus|minus)\(|doubled: bool|enum Class|: F(n|nOnce|nMut)\(|[(,] *B\b'

echo
echo '== 2 functions and types that are alike: pairs of four lines or more'
alike=$(mktemp -d)
for file in crates/*/src/*.rt; do
    mkdir -p "$alike/$(dirname "$file")"
    cp "$file" "$alike/${file%.rt}.rs"
done
duplicates --repo "$alike" --min-lines 4 --most 200 | grep -v -e '^ ' | grep '/src/.* ~ .*/src/'
rm -rf "$alike"
