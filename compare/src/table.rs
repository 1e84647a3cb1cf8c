//! Document 01's table of lines as the fuzzer takes it, which is written in C: as a header, and as words for its engine.

use crate::draft::{counts, material, ANALYSED};
use second::limits::{ALL_SHARES, LINES, LONGEST, MOST_ANALYSED, TOTAL_GAS};
use std::collections::BTreeSet;
use std::fmt::Write;

/// What stands in the header before the lines. A `$` is the number or the list that is due there, one after the other.
const HEAD: &str = "\
/* Document 01's table of lines, as compare/sheets has written it out. */
#include <stdbool.h>
#include <stddef.h>

enum { FIELDS_MOST = $, SHEET_LONGEST = $, SHARES_ALL = $, ANALYSED_MOST = $, GAS_LEAST = $, GAS_MOST = $ };

/* The kinds of lines, in the sheet's order. A stage of sheet 2 stands behind that of sheet 1. */
enum kind { $, KINDS };

struct span {
    long least, most;
};

/* A line that counts stands before the kind that it counts. A material is never the first field, so 0 says that there is none; its own
 * specific heat stands behind it. The values are those of document 01's example. */
static const struct form {
    const char *key;
    size_t fields, material;
    bool counts;
    struct span span[FIELDS_MOST];
    long example[FIELDS_MOST];
} forms[KINDS] = {
";

/// The header, with the values of this example for lines that are missing somewhere.
pub fn header(example: &str) -> String {
    let most = LINES.iter().map(|(_, spans)| spans.len()).max().expect("a line");
    let name = |place: usize| if place == ANALYSED { "ANALYSED".to_string() } else { LINES[place].0.to_uppercase() };
    let kinds: Vec<String> = (0..LINES.len()).map(name).collect();
    let numbers = [most as i64, LONGEST as i64, ALL_SHARES, MOST_ANALYSED, TOTAL_GAS.0, TOTAL_GAS.1];
    let mut due = numbers.iter().map(i64::to_string).chain([kinds.join(", ")]);
    let mut text = String::new();
    for piece in HEAD.split('$') {
        text += piece;
        text += &due.next().unwrap_or_default();
    }
    for (place, (key, spans)) in LINES.iter().enumerate() {
        let rows = || example.lines().filter_map(|line| line.split_once('='));
        // The example is of sheet 1, and has no stage of sheet 2.
        let fits = |values: &str| values.split(',').count() == spans.len();
        let values = rows().find(|(other, values)| other == key && fits(values)).map_or("0", |(_, values)| values);
        let limits: Vec<String> = spans.iter().map(|(least, greatest)| format!("{{{least}, {greatest}}}")).collect();
        let (material, counts) = (material(place).unwrap_or(0), counts(place));
        let _ = writeln!(text, "    {{\"{key}\", {}, {material}, {counts}, {{{}}}, {{{values}}}}},", spans.len(), limits.join(", "));
    }
    text + "};\n"
}

/// The keys with the LF before them, and every limit with what lies one beyond it.
pub fn words() -> String {
    let spans = LINES.iter().flat_map(|(_, spans)| spans.iter()).chain([&TOTAL_GAS]);
    let numbers: BTreeSet<i64> = spans.flat_map(|&(least, greatest)| [least - 1, least, greatest, greatest + 1]).collect();
    let keys: BTreeSet<&str> = LINES.iter().map(|(key, _)| *key).collect();
    let keys = keys.iter().map(|key| format!("\"\\x0a{key}=\"\n"));
    keys.chain(numbers.iter().map(|number| format!("\"{number}\"\n"))).collect()
}
