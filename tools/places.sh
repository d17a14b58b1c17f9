#!/bin/sh
# Counts the places in crates/*/src for which today's Rattle may have a better form, one line a kind of place.
# With `-v` it prints the places too. Run it at the top of the repository.
verbose=$1
places() {
    name=$1
    shift
    found=$("$@")
    printf '%4d  %s\n' "$(printf '%s' "$found" | grep -c .)" "$name"
    [ "$verbose" = -v ] && [ -n "$found" ] && printf '%s\n' "$found"
    return 0
}
src=$(find crates/*/src -name '*.rt' | sort)
one() { grep -nE "$1" $src; }
# the line after an `else {` that only hands on a failure
handed_on() { grep -nA1 'else {$' $src | grep -E 'return (None|Err\(\w+\)|false);'; }
# clauses that stand in three or more contracts
repeated() { grep -hoE '(requires|ensures)( \w+)? \{.*\}' $src | sed -E 's/^(requires|ensures)( \w+)? //' | sort | uniq -c | awk '$1 >= 3'; }
# functions with five or more parameters
long_lists() { awk '/fn [a-z_0-9]+.*\(/ { sig = ""; open = 1 } open { sig = sig $0; if (/\{$|;$|^ *(requires|ensures)|^\)|\) (->|$)|\)$/) { open = 0; n = gsub(/: /, ": ", sig); if (n >= 5) print FILENAME ": " sig } }' $src; }
# two matches or casts with one shape: functions whose bodies are the same but for names and constants
twins() { python3 tools/twins.py $src; }

echo "1. Option, Result, enums"
places "functions that answer a number for want of a value" one '\) -> u8$'
places "let-else and if-else that only hand a failure on" handed_on
places "matches that only hand a failure on" one 'Err\(_\) =>|None => return None|Err\(\w+\) => return Err|None => false,|Ok\(\w+\) => Some|_ => None,$'
places "flags or counts for an answer or a refusal" one 'Option<\(\)>|fn read_\w+\(.*&mut.*-> bool|number: u8,|letter: Option<u8>'
echo "2. Twins"
places "functions with the shape of another" twins
echo "3. Loops that count an index"
places "while loops, and for loops over a range" one '^ *(while |for \w+ in .*\.\.)'
echo "4. Equality, order, copying, conversion, printing"
places "casts" one '\bas (u8|u16|u32|u64|usize|i16|i32|i64)\b'
places "functions that convert, compare or print by hand" one 'fn (same_\w+|\w+_of\((kind|operator|fault|truth)|print_\w+|number_of|truth|sign|letter)\b'
echo "5. Facts and parameters that repeat"
places "clauses in three or more contracts" repeated
places "functions with five or more parameters" long_lists
echo "6. Buffers with a length, parallel arrays"
places "fields and parameters that count what is in a buffer" one '^ *(pub |pub\(crate\) )?\w*(count|total)\w*: (usize|&mut usize),|, (count|n): usize[,)]'
places "fixed arrays in structs" one '^ *(pub |pub\(crate\) )?\w+: \[\w+; \w+\],'
echo "7. Switches on which step to run"
places "matches on an operation" one 'match (sweep|gate|op|operation)\b'
