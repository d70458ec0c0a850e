//! What pictures share: steps of an axis, numbers to be read, the room that words take, and places for words that must not meet.

/// A round step that cuts a length into at most ten.
pub fn step_for(length: i64) -> i64 {
    step_of(length, 10.0)
}

/// A round step, 1, 2 or 5 and zeros, that cuts a length into at most so many parts.
pub fn step_of(length: i64, most: f64) -> i64 {
    let most = most.max(1.0);
    let mut step = 1;
    for factor in [2, 5, 10].into_iter().cycle() {
        if length as f64 / step as f64 <= most {
            break;
        }
        let tens = 10_i64.pow(step.to_string().len() as u32 - 1);
        step = tens * factor;
    }
    step
}

/// Digits in groups of three, by what stands between them.
fn in_groups(number: i64, between: char) -> String {
    let digits = number.to_string();
    let mut out = String::new();
    for (at, digit) in digits.chars().enumerate() {
        if at > 0 && (digits.len() - at) % 3 == 0 {
            out.push(between);
        }
        out.push(digit);
    }
    out
}

/// A number for a page: 1,099,511,627,776.
pub fn grouped(number: i64) -> String {
    in_groups(number, ',')
}

/// A number for a picture, with thin spaces.
pub fn spaced(number: i64) -> String {
    in_groups(number, '\u{2009}')
}

/// Bytes, exactly, in the largest unit of thousands: 1.25 TB.
pub fn bytes(number: i64) -> String {
    let (mut unit, mut name) = (1, "B");
    for next in ["kB", "MB", "GB", "TB", "PB", "EB"] {
        if number / unit < 1000 {
            break;
        }
        unit *= 1000;
        name = next;
    }
    let part = format!("{:0width$}", number % unit, width = unit.to_string().len() - 1);
    let part = part.trim_end_matches('0');
    match unit > 1 && !part.is_empty() {
        true => format!("{}.{part}\u{2009}{name}", number / unit),
        false => format!("{}\u{2009}{name}", number / unit),
    }
}

/// The room of words in a font of 12 pixels, rather too much than too little: which font a reader has is not known here.
pub fn room_of(text: &str) -> f64 {
    let of = |c: char| match c {
        '\u{2009}' => 3.0,
        'i' | 'j' | 'l' | '.' | ',' | ':' | ';' | '\'' | '|' | '!' | ' ' => 4.4,
        'm' | 'w' | 'M' | 'W' | '%' | '@' => 12.0,
        'A'..='Z' => 9.4,
        ' '..='~' => 7.8,
        _ => 12.6,
    };
    text.chars().map(of).sum()
}

/// A name of which the end is kept.
pub fn shortened(name: &str, most: usize) -> String {
    let count = name.chars().count();
    if count <= most {
        return name.to_string();
    }
    format!("\u{2026}{}", name.chars().skip(count - most + 1).collect::<String>())
}

/// Heights for words that want to stand at these, which rise: each at its own or as near to it as the others allow, none closer than `gap` to the
/// next, and the last not below the bottom.
pub fn spread(wanted: &[f64], gap: f64, bottom: f64) -> Vec<f64> {
    let mut heights: Vec<f64> = Vec::new();
    for &height in wanted {
        heights.push(heights.last().map_or(height, |above| height.max(above + gap)));
    }
    let mut limit = bottom;
    for height in heights.iter_mut().rev() {
        *height = height.min(limit);
        limit = *height - gap;
    }
    heights
}

/// So that it stands for itself between tags and in quotes.
pub fn escaped(text: &str) -> String {
    text.replace('&', "&amp;").replace('<', "&lt;").replace('>', "&gt;").replace('"', "&quot;").replace('\'', "&#39;")
}

#[cfg(test)]
mod tests {
    use super::*;

    #[test]
    fn numbers() {
        assert_eq!((grouped(1 << 40), spaced(999)), ("1,099,511,627,776".to_string(), "999".to_string()));
        assert_eq!(spaced(1 << 40), "1\u{2009}099\u{2009}511\u{2009}627\u{2009}776");
        let written: Vec<String> = [0, 999, 1000, 1500, 1 << 20, 1_250_000_000_000, 1_000_000_000_001].into_iter().map(bytes).collect();
        assert_eq!(written.join(" ").replace('\u{2009}', ""), "0B 999B 1kB 1.5kB 1.048576MB 1.25TB 1.000000000001TB");
    }

    #[test]
    fn steps() {
        for (length, most, step) in [
            (1, 10.0, 1),
            (10, 10.0, 1),
            (11, 10.0, 2),
            (21, 10.0, 5),
            (1 << 40, 10.0, 200_000_000_000),
            (1 << 58, 10.0, 50_000_000_000_000_000),
            (100, 3.5, 50),
        ] {
            assert_eq!(step_of(length, most), step, "{length}");
        }
    }

    #[test]
    fn words_do_not_meet() {
        assert_eq!(spread(&[0.0, 1.0, 2.0, 90.0, 99.0], 10.0, 100.0), [0.0, 10.0, 20.0, 90.0, 100.0]);
        assert_eq!(spread(&[95.0, 96.0, 97.0], 10.0, 100.0), [80.0, 90.0, 100.0]);
        assert_eq!(shortened("reel_03/scan_0041.dpx", 10), "\u{2026}_0041.dpx");
        assert_eq!(shortened("reel", 4), "reel");
    }
}
