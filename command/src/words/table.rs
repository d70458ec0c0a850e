//! What each refusal says, as the help has it: the words where the reason itself was not found.

pub const REFUSALS: [(u64, &str); 26] = [
    (2, "a file of length 0, before the end of the one before it, or ending above 2^40; an aggregate number above 4,096, or one that returns after a file with another or none; place: the file"),
    (3, "over 64 wants left"),
    (4, "a want that is not in the table or not ascending, or a count of 0; place: the want"),
    (5, "over 1,024 reads"),
    (6, "a turn price above 2^32"),
    (7, "a head above 2^40, or left of the end of the rightmost wanted file or of its aggregate"),
    (9, "too many wants and reads for this program: wants * wants * (reads + 1) is over 5,120, with wants of one aggregate as one"),
    (10, "a list that is not well formed; place: the first detour that breaks a rule by itself or against an earlier one"),
    (11, "a line that is not as described; place: the line"),
    (12, "a sheet over 16,384 bytes"),
    (13, "a tape name that is not 1 to 16 of A-Z and 0-9"),
    (15, "an office that is not 1 or 2, a file that the tape has not, or a count that is not 1 to 128"),
    (16, "an office with 16 waiting"),
    (17, "no ticket of that office and number waits"),
    (18, "an office that has been given number 65,535"),
    (19, "the rule sweep, which is retired: write rule=least; place: the line"),
    (20, "a text that is not balanced or over 32 elements deep, a needed element missing, a value that has not its form, or label and index together over 512 KiB"),
    (21, "a file in several extents"),
    (22, "two files that overlap"),
    (23, "over 256 files left, or a file that ends above 2^40 (in bytes 1.1 TB, less than a large cartridge holds)"),
    (24, "over eight wants, as they stand on the sheet"),
    (25, "a byte count that is not a number and an LF or runs past the input, or a sheet numbered 1,001; place: the sheet"),
    (41, "a name of the list that is that of no file of the index, or of several; place: its line"),
    (42, "a name of the list whose file has no bytes, or some of them in the other partition; place: its line"),
    (43, "an event that is not for this window"),
    (44, "label and index are of different volumes"),
];

pub fn words(number: u64) -> String {
    match REFUSALS.iter().find(|(refusal, _)| *refusal == number) {
        Some((_, words)) => (*words).to_string(),
        None => "a reason that this command does not know".to_string(),
    }
}
