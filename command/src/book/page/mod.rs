//! The page of a book, for a person who has never seen a run sheet: one file, with nothing from elsewhere and no script.

mod style;
mod texts;

use super::audit::{Audit, Seen};
use super::entry::written;
use super::shown;
use super::wants::{Want, Wants};
use crate::clock;
use crate::commands::Call;
use crate::explain::measure::{escaped, grouped};
use crate::explain::{sketch, Plan, Texts};
use crate::help;
use crate::programs::Program;
use crate::say::quoted;
use crate::status::{failed, Stop};
use crate::words::visible;
use std::ffi::OsStr;
use std::fmt::Write as _;

pub struct Page<'a> {
    name: String,
    call: &'a Call,
    price: Option<Program>,
    made: String,
    program: String,
    rows: String,
    articles: String,
}

fn count(number: usize, one: &str, many: &str) -> String {
    format!("{} {}", grouped(number as i64), if number == 1 { one } else { many })
}

/// Digits in groups; sums are longer than a word of the machine.
fn digits(text: &str) -> String {
    text.parse().map_or_else(|_| text.to_string(), grouped)
}

/// 2026-11-16T08:00:00Z for a person.
fn moment(made: &str) -> String {
    format!("<time datetime=\"{made}\">{} UTC</time>", made.replace('T', " ").trim_end_matches('Z'))
}

fn name_of(by: &str) -> String {
    format!("<b><bdi>{}</bdi></b>", escaped(&shown(by)))
}

impl<'a> Page<'a> {
    pub fn of(book: &OsStr, call: &'a Call) -> Result<Page<'a>, Stop> {
        let made = clock::now().or_else(failed)?;
        let program = help::version(&call.places)?.lines().next().unwrap_or_default().to_string();
        Ok(Page { name: escaped(&quoted(book)), call, price: None, made, program, rows: String::new(), articles: String::new() })
    }

    pub fn add(&mut self, seen: &Seen) -> Result<(), Stop> {
        let (number, made, by) = (written(seen.entry.number), moment(&seen.entry.made), name_of(&seen.entry.by));
        let what = match &seen.refused {
            Some((refused, _)) => format!("refused ({})", refused.number),
            None => {
                let wants = Wants::read(seen.entry.run, seen.entry.plan);
                self.add_plan(seen, &wants)?;
                format!("tape {}, {}", wants.tape, count(wants.wants.len(), "file", "files"))
            }
        };
        if let Some((refused, words)) = &seen.refused {
            self.add_refusal(seen, refused.number, words);
        }
        let _ = writeln!(self.rows, "<tr><th scope=\"row\"><a href=\"#e{number}\">{number}</a></th><td>{made}</td><td>{by}</td><td>{what}</td></tr>");
        Ok(())
    }

    fn add_plan(&mut self, seen: &Seen, wants: &Wants) -> Result<(), Stop> {
        let sweep = self.sweep(seen)?;
        let plan = Plan::read(&Texts { run: seen.entry.run, plan: seen.entry.plan, buys: b"", sweep: b"" });
        let out = &mut self.articles;
        let number = written(seen.entry.number);
        let _ =
            writeln!(out, "<article id=\"e{number}\"><h3>Entry {number}: tape {}, {}</h3>", wants.tape, count(wants.wants.len(), "file", "files"));
        let _ = writeln!(
            out,
            "<p>On {}, {} asked for {} of tape {}, for which {} waited. The head stood at {}, and every turn of it costs {}.</p>",
            moment(&seen.entry.made),
            name_of(&seen.entry.by),
            count(wants.wants.len(), "file", "files"),
            wants.tape,
            count(wants.reads.parse().unwrap_or(0), "read", "reads"),
            digits(&wants.head),
            digits(&wants.turn)
        );
        put_table(out, wants);
        put_sums(out, wants, sweep.as_deref());
        let drawn = sketch::draw(&plan);
        if !drawn.is_empty() {
            let _ = writeln!(out, "<figure>{drawn}<figcaption>{}</figcaption></figure>", texts::PICTURE);
        }
        let _ = writeln!(out, "<p class=\"checked\">\u{2713} {}</p>", texts::PLAN_CHECKED);
        put_sheets(out, seen, "The run sheet and the plan sheet");
        Ok(())
    }

    fn add_refusal(&mut self, seen: &Seen, refused: u64, words: &str) {
        let out = &mut self.articles;
        let number = written(seen.entry.number);
        let _ = writeln!(out, "<article id=\"e{number}\"><h3>Entry {number}: refused ({refused})</h3>");
        let _ = writeln!(
            out,
            "<p>On {}, {} asked by a run sheet that was refused, for reason {refused}: {}. Nothing was planned, and nothing was read by it.</p>",
            moment(&seen.entry.made),
            name_of(&seen.entry.by),
            escaped(words)
        );
        let _ = writeln!(out, "<p class=\"checked\">\u{2713} {}</p>", texts::REFUSAL_CHECKED);
        put_sheets(out, seen, "The run sheet and the answer");
    }

    /// The sum without any detour, where the pricer takes the run.
    fn sweep(&mut self, seen: &Seen) -> Result<Option<String>, Stop> {
        let printed = Program::kept(&mut self.price, "cmd_price", self.call)?.ask_pair(seen.entry.run, b"").or_else(failed)?;
        let answer = String::from_utf8_lossy(&printed.answer).into_owned();
        Ok(answer.lines().find_map(|line| line.strip_prefix("sum=")).map(str::to_string))
    }

    /// The page, with the state of the book at its top.
    pub fn whole(&self, audit: &Audit) -> Vec<u8> {
        let mut out = format!(
            "<!doctype html>\n<html lang=\"en\">\n<head>\n<meta charset=\"utf-8\">\n<meta name=\"viewport\" content=\"width=device-width, initial-scale=1\">\n\
             <title>Record book {name}</title>\n<link rel=\"icon\" href=\"data:,\">\n<style>\n{}</style>\n</head>\n<body>\n<a class=\"skip\" href=\"#entries\">To the entries</a>\n\
             <header>\n<h1>Record book {name}</h1>\n",
            style::STYLE,
            name = self.name
        );
        self.put_state(&mut out, audit);
        out.push_str("</header>\n<main>\n");
        out.push_str(texts::WHAT);
        let _ = write!(
            out,
            "<section id=\"entries\">\n<h2>The entries</h2>\n{}<div class=\"wide\"><table class=\"index\"><caption>Each is further down, by its number</caption>\n<thead><tr><th scope=\"col\">Entry</th>\
             <th scope=\"col\">Made</th><th scope=\"col\">By</th><th scope=\"col\">What</th></tr></thead>\n<tbody>\n{}{}</tbody></table></div>\n",
            if audit.entries == 0 { "<p>There is none that could be shown.</p>\n" } else { "" },
            self.rows,
            Page::row_of_wrong(audit)
        );
        out.push_str("</section>\n<section>\n<h2>Entry by entry</h2>\n");
        out.push_str(&self.articles);
        self.put_wrong(&mut out, audit);
        let _ = writeln!(
            out,
            "</section>\n</main>\n<footer>\n<p class=\"small\">Made on {} by {}.</p>\n</footer>\n</body>\n</html>",
            moment(&self.made),
            escaped(&self.program)
        );
        out.into_bytes()
    }

    fn put_state(&self, out: &mut String, audit: &Audit) {
        let _ = match &audit.wrong {
            None => writeln!(out, "<p class=\"state good\"><strong>\u{2713} This book is right.</strong> {}</p>", texts::RIGHT),
            Some(wrong) => writeln!(
                out,
                "<p class=\"state bad\"><strong>\u{2717} Entry {} of this book cannot be right.</strong> What is wrong: {}. Nothing was found wrong with the entries \
                 before it; what follows was not looked at.</p>",
                written(wrong.number),
                escaped(&wrong.why)
            ),
        };
        let _ = writeln!(
            out,
            "<dl>\n<dt>Entries that are right</dt><dd>{}</dd>\n<dt>of them plans</dt><dd>{}</dd>\n<dt>of them refusals</dt><dd>{}</dd>\n<dt>Digest of the last</dt><dd><code>{}</code></dd>\n\
             <dt>Looked at</dt><dd>{}</dd>\n</dl>",
            grouped(audit.entries as i64),
            grouped(audit.plans as i64),
            grouped(audit.refusals as i64),
            audit.last,
            moment(&self.made)
        );
    }

    /// What is wrong stands in the list of the entries too.
    fn row_of_wrong(audit: &Audit) -> String {
        let row = |number: String| {
            format!("<tr><th scope=\"row\"><a href=\"#e{number}\">{number}</a></th><td></td><td></td><td>cannot be right</td></tr>\n")
        };
        audit.wrong.as_ref().map(|wrong| row(written(wrong.number))).unwrap_or_default()
    }

    fn put_wrong(&self, out: &mut String, audit: &Audit) {
        if let Some(wrong) = &audit.wrong {
            let number = written(wrong.number);
            let _ = writeln!(
                out,
                "<article id=\"e{number}\"><h3>Entry {number}: cannot be right</h3>\n<p class=\"state bad\">\u{2717} {}.</p>",
                escaped(&wrong.why)
            );
            let _ =
                writeln!(out, "<p>{} from here on were not looked at.</p>\n</article>", count(wrong.left, "file of the book", "files of the book"));
        }
    }
}

fn put_table(out: &mut String, wants: &Wants) {
    if wants.wants.is_empty() {
        return;
    }
    out.push_str(
        "<div class=\"wide\"><table><caption>When each file is read</caption>\n<thead><tr><th scope=\"col\">File</th><th scope=\"col\">Read at</th><th scope=\"col\">In leg</th>\
         <th scope=\"col\">Reads that waited</th><th scope=\"col\">Starts at</th><th scope=\"col\">Ends at</th></tr></thead>\n<tbody>\n",
    );
    for want in &wants.wants {
        let Want { file, start, end, in_aggregate, reads, time, leg } = want;
        let _ = writeln!(
            out,
            "<tr><th scope=\"row\">{file}{}</th><td>{}</td><td>{leg}</td><td>{}</td><td>{}</td><td>{}</td></tr>",
            if *in_aggregate { " (with its aggregate)" } else { "" },
            digits(time),
            digits(reads),
            grouped(*start),
            grouped(*end)
        );
    }
    out.push_str("</tbody></table></div>\n");
}

fn put_sums(out: &mut String, wants: &Wants, sweep: Option<&str>) {
    if wants.wants.is_empty() {
        out.push_str("<p>Nothing was wanted: the head stays where it is.</p>\n");
        return;
    }
    let last = wants.detours + 1;
    let legs = match wants.detours {
        0 => "The head makes no detour: there is one leg, the last sweep.".to_string(),
        detours => format!("The head makes {}, legs 1 to {detours}, and then the last sweep, leg {last}.", count(detours, "detour", "detours"))
            .replace("legs 1 to 1,", "leg 1,"),
    };
    let without = match sweep {
        Some(sweep) if wants.detours > 0 => format!(" Without any detour it would be {}.", digits(sweep)),
        _ => String::new(),
    };
    let _ = writeln!(
        out,
        "<p>{legs} At {} it has read everything, and stands at {}. The waits of all reads, added up, are {}; no movement of the head makes that sum smaller.{without}</p>",
        digits(&wants.finish),
        digits(&wants.end),
        digits(&wants.sum)
    );
}

/// The texts as they stand in the entry, as far as a page can show them.
fn put_sheets(out: &mut String, seen: &Seen, what: &str) {
    let number = written(seen.entry.number);
    let _ = writeln!(
        out,
        "<details><summary>{what} of entry {number}, as recorded</summary>\n<pre>{}</pre>\n<pre>{}</pre>\n</details>",
        sheet(seen.entry.run),
        sheet(seen.entry.plan)
    );
    let _ = writeln!(
        out,
        "<p class=\"small\">Made by {}. SHA-256 of this entry: <code>{}</code></p>\n</article>",
        escaped(&shown(&seen.entry.program)),
        seen.digest
    );
}

fn sheet(text: &[u8]) -> String {
    let part = &text[..text.len().min(16384)];
    let lines: Vec<String> = part.strip_suffix(b"\n").unwrap_or(part).split(|&byte| byte == b'\n').map(|line| escaped(&visible(line))).collect();
    let rest = if part.len() < text.len() { format!("\n({} bytes in all; the rest stands in the entry)", text.len()) } else { String::new() };
    format!("{}{rest}", lines.join("\n"))
}

#[cfg(test)]
mod tests {
    use super::*;

    #[test]
    fn nothing_from_outside_is_markup() {
        assert_eq!(escaped("<b a='1'>&\""), "&lt;b a=&#39;1&#39;&gt;&amp;&quot;");
        assert_eq!(sheet(b"a<\x00\n&\n"), "a&lt;\\x00\n&amp;");
        assert_eq!(name_of("a\u{202e}b"), "<b><bdi>a?b</bdi></b>");
    }
}
