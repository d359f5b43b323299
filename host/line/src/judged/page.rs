//! The night as one page for a browser: receivers by hours, each hop a cell with its verdict in words and in colour, its steps a click away. It has no script and
//! asks for nothing from elsewhere.
use crate::files::disk::Sink;
use crate::files::logged::Line;
use crate::judged::hops::Hop;
use crate::judged::told::{Receiver, count_words, lock_words, notes, off};
use crate::judged::verdict::Verdict;
use crate::printed::clock;
use crate::printed::names::counted;
use pasetone::Transcript;
use std::collections::BTreeSet;

/// What the hop's verdict is called in the page's style.
const CLASSES: [&str; 5] = ["right", "beside", "unlocked", "doubtful", "unknown"];

/// Colours that are told apart by most eyes, and each with its word in the cell.
const STYLE: &str = "
body { font: 15px/1.4 sans-serif; margin: 1.5em; color: #111; background: #fff }
table { border-collapse: collapse; margin: 1em 0 }
th, td { border: 1px solid #bbb; padding: .15em; text-align: left; vertical-align: top; font-size: 13px; line-height: 1.25 }
th { background: #eee; white-space: nowrap; padding: .15em .4em }
th[scope=row] { position: sticky; left: 0 }
td a { display: block; padding: .1em .3em; margin: .05em 0; text-decoration: none; white-space: nowrap; border-radius: .2em }
td a:hover, td a:focus { outline: 3px solid #111 }
.right { background: #cfe8f3; color: #0b3c5d }
.beside { background: #b3261e; color: #fff; font-weight: bold }
.unlocked { background: #ffd24d; color: #111; font-weight: bold }
.doubtful { background: #6b3fa0; color: #fff; font-weight: bold }
.unknown { background: #555; color: #fff }
.legend span { padding: .1em .5em; margin-right: .6em; border-radius: .2em; display: inline-block }
.hop { display: none }
.hop:target { display: block; position: fixed; inset: 3vh 3vw; overflow: auto; background: #fff; border: 3px solid #111; padding: .5em 1.5em; z-index: 1 }
.hop h2 span { padding: 0 .4em; border-radius: .2em }
pre { background: #f6f6f6; padding: .5em; overflow-x: auto; font-size: 13px }
.wide { overflow-x: auto }
@media print { .hop, .hop:target { display: block; position: static; border: 0 } }
";

/// What a page shows of text: nothing of it is a tag.
fn escaped(text: &str) -> String {
    let mut page = String::new();
    for c in text.chars() {
        match c {
            '&' => page += "&amp;",
            '<' => page += "&lt;",
            '>' => page += "&gt;",
            '"' => page += "&quot;",
            '\'' => page += "&#39;",
            c if c.is_control() && c != '\n' => page.push('\u{fffd}'),
            c => page.push(c),
        }
    }
    page
}

/// What a column stands for: an hour, or the hop's number where no log tells a time.
#[derive(Clone, Copy, PartialEq, Eq, PartialOrd, Ord)]
enum Column {
    Hour(u64),
    Number(usize),
}

impl Column {
    fn of(hop: &Hop) -> Column {
        hop.began.map_or(Column::Number(hop.number), |time| Column::Hour(time / 3600))
    }

    fn words(self) -> String {
        match self {
            Column::Hour(hour) => {
                let moment = clock::words(hour * 3600);
                format!("{}<br>{}:00", &moment[5..10], &moment[11..13])
            }
            Column::Number(number) => format!("hop {number}"),
        }
    }
}

/// The whole page, piece by piece.
pub fn write(receivers: &[Receiver], mut sink: Sink) -> Result<(), String> {
    sink.add(head(receivers).as_bytes())?;
    sink.add(grid(receivers).as_bytes())?;
    for (row, receiver) in receivers.iter().enumerate() {
        let mut lines = receiver.log.as_ref().map_or(&[][..], |log| &log.lines).iter().peekable();
        for hop in &receiver.hops {
            sink.add(details(row, receiver, hop, &mut lines)?.as_bytes())?;
        }
    }
    sink.keep(b"</body>\n</html>\n")
}

fn head(receivers: &[Receiver]) -> String {
    let mut count = [0; 5];
    for receiver in receivers {
        count.iter_mut().zip(receiver.count).for_each(|(all, own)| *all += own);
    }
    let legend: String = Verdict::WORDS.iter().zip(CLASSES).map(|(word, class)| format!("<span class=\"{class}\">{word}</span>")).collect();
    let title = format!("{}, {}", counted(receivers.len(), "receiver"), count_words(&count));
    format!(
        "<!DOCTYPE html>\n<html lang=\"en\">\n<head>\n<meta charset=\"utf-8\">\n<meta name=\"viewport\" content=\"width=device-width\">\n<title>Night: {title}</title>\n\
         <style>{STYLE}</style>\n</head>\n<body>\n<h1 id=\"night\">Night: {title}</h1>\n<p class=\"legend\">{legend}</p>\n\
         <p>By what was sent, in UTC. A cell is a hop: the MHz that were asked for, and the verdict; click it for its steps.</p>\n"
    )
}

fn grid(receivers: &[Receiver]) -> String {
    let columns: BTreeSet<Column> = receivers.iter().flat_map(|receiver| receiver.hops.iter().map(Column::of)).collect();
    let heads: String = columns.iter().map(|column| format!("<th scope=\"col\">{}</th>", column.words())).collect();
    let mut page = format!("<div class=\"wide\">\n<table>\n<tr><th scope=\"col\">receiver</th>{heads}</tr>\n");
    for (row, receiver) in receivers.iter().enumerate() {
        page += &format!("<tr id=\"r{row}\"><th scope=\"row\">{}</th>", escaped(&receiver.name));
        if receiver.parts.is_none() {
            page += &format!("<td class=\"unknown\" colspan=\"{}\">DAMAGED: not judged</td>", columns.len().max(1));
        }
        for column in columns.iter().filter(|_| receiver.parts.is_some()) {
            let cells: String = receiver.hops.iter().filter(|hop| Column::of(hop) == *column).map(|hop| cell(row, hop)).collect();
            page += &format!("<td>{cells}</td>");
        }
        page += "</tr>\n";
    }
    page + "</table>\n</div>\n"
}

/// Hz as a reader of stations has them.
fn megahertz(hz: u64) -> String {
    let digits = format!("{}.{:06}", hz / 1_000_000, hz % 1_000_000);
    let digits = digits.trim_end_matches('0');
    digits.strip_suffix('.').map_or_else(|| digits.to_string(), |whole| format!("{whole}.0"))
}

fn cell(row: usize, hop: &Hop) -> String {
    let at = hop.verdict.at();
    let asked = hop.asked.map_or_else(|| String::from("?"), megahertz);
    format!("<a class=\"{}\" href=\"#r{row}h{}\">{asked}<br>{}</a>", CLASSES[at], hop.number, Verdict::WORDS[at])
}

/// A hop's own part: what it came to, and the steps of its sections.
fn details<'a>(
    row: usize,
    receiver: &Receiver,
    hop: &Hop,
    lines: &mut std::iter::Peekable<std::slice::Iter<'a, Line>>,
) -> Result<String, String> {
    let number = |value: Option<i128>, unit: &str| value.map_or_else(|| String::from("not known"), |value| format!("{value}{unit}"));
    let (class, words) = (CLASSES[hop.verdict.at()], hop.verdict.words());
    let mut page = format!(
        "<section class=\"hop\" id=\"r{row}h{}\">\n<h2>{}, hop {}: <span class=\"{class}\">{words}</span></h2>\n<p><a href=\"#r{row}\">back to the night</a></p>\n",
        hop.number,
        escaped(&receiver.name),
        hop.number
    );
    let began = hop.began.map_or_else(|| String::from("no log tells it"), clock::words);
    for (what, value) in [
        ("began", began),
        ("asked", number(hop.asked.map(i128::from), " Hz")),
        ("centre", number(hop.centre, " Hz")),
        ("off", number(off(hop), " Hz")),
        ("rate", number(hop.rate.map(i128::from), "")),
        ("lock", lock_words(hop.lock, hop.tries)),
        ("doubtful registers", hop.doubtful.to_string()),
        ("notes", if notes(hop).is_empty() { String::from("none") } else { notes(hop).join("; ") }),
    ] {
        page += &format!("<div><b>{what}</b>: {}</div>\n", escaped(&value));
    }
    page += &sections(receiver, hop, lines)?;
    Ok(page + "</section>\n")
}

fn sections<'a>(receiver: &Receiver, hop: &Hop, lines: &mut std::iter::Peekable<std::slice::Iter<'a, Line>>) -> Result<String, String> {
    let Some(parts) = &receiver.parts else { return Ok(String::new()) };
    let bytes = parts.read(hop.start, (hop.end - hop.start) as usize)?;
    let (mut starts, mut end) = (Vec::new(), bytes.len());
    while let Ok(start) = Transcript::start(&bytes[..end]) {
        starts.push((start, end));
        end = start;
    }
    let mut page = String::new();
    for (start, end) in starts.into_iter().rev() {
        let at = hop.start + start as u64;
        while lines.next_if(|line| line.at < at).is_some() {}
        let line = lines.next_if(|line| line.at == at);
        page += &format!("<h3>{}</h3>\n<pre>", line.map_or_else(|| format!("byte {at}: no line in a log"), call_words));
        let Ok((_, transcript)) = Transcript::read(&bytes[start..end]) else { continue };
        page += &escaped(&transcript.iter().map(|entry| format!("{entry}\n")).collect::<String>()).replace("FAILED", "<b>FAILED</b>");
        page += "</pre>\n";
    }
    Ok(page)
}

/// A call as its line has it.
fn call_words(line: &Line) -> String {
    let asked = line.asked.map_or_else(String::new, |asked| format!(" {asked}"));
    let answer = if line.refusal == 0 { String::from("done") } else { format!("refused {}", line.refusal) };
    format!("{}, byte {}: {}{asked}: {answer}", clock::words(line.time), line.at, line.call)
}
