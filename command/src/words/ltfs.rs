//! A refused LTFS label or index in words.

mod files;
pub mod list;
mod text;

use super::table;
use crate::answers::Refusal;
use files::Files;
use text::Text;

const MOST: usize = 524_288;

/// A tape's label and index, each with the name of its file for the message.
pub struct Tape<'a> {
    pub label: &'a [u8],
    pub label_name: String,
    pub index: &'a [u8],
    pub index_name: String,
    /// The bytes that the program was handed, its own lines among them.
    pub bytes_in_all: usize,
}

/// The sentence without its beginning.
pub fn words(refusal: &Refusal, tape: &Tape) -> String {
    if refusal.number == 20 && tape.bytes_in_all > MOST {
        return too_large(tape);
    }
    find(refusal.number, tape).unwrap_or_else(|| table::words(refusal.number))
}

fn too_large(tape: &Tape) -> String {
    let size = |bytes: usize| if bytes > MOST { format!("over {MOST}") } else { bytes.to_string() };
    format!(
        "label and index together are over 512 KiB ({MOST} bytes with the lines that the command puts before them): the label has {} bytes, the index {}",
        size(tape.label.len()),
        size(tape.index.len())
    )
}

/// Of several faults the first is told, a label's before an index's.
fn find(number: u64, tape: &Tape) -> Option<String> {
    let mut files = Files::default();
    let label = Text::new("label", number == 20, &mut files).read(tape.label)?;
    if number == 20 {
        if let Some(fault) = label {
            return Some(format!("label ({}), {fault}", tape.label_name));
        }
    }
    let index = Text::new("index", number == 20, &mut files).read(tape.index);
    let index_says = |words: String| format!("index ({}), {words}", tape.index_name);
    match number {
        20 => index?.map(index_says),
        21 => files.several_extents().map(index_says),
        22 => files.overlap().map(index_says),
        23 => files.too_many_or_far().map(index_says),
        _ => None,
    }
}
