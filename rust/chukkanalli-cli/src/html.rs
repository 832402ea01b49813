//! A standing as a page: one file, without scripts and without anything from elsewhere.

use crate::version::{COMMIT, VERSION};

/// What a page shows.
pub struct Page {
    /// The game, seats and D.
    pub title: String,
    /// U, where a table was ranked.
    pub units: Option<u64>,
    pub seats: u64,
    pub rows: Vec<Row>,
    pub leader: Option<Leader>,
    /// What was refused: its name, and a sentence for each fault.
    pub refused: Vec<(String, Vec<String>)>,
    pub date: String,
}

/// A table in the standing.
pub struct Row {
    pub rank: usize,
    pub name: String,
    pub nash_conv: u64,
    pub chips: String,
    pub decimals: String,
    /// Each seat's gain in chips per hand.
    pub gains: Vec<String>,
    pub note: String,
}

/// The first table, and what each seat gains against it, in sentences.
pub struct Leader {
    pub name: String,
    pub seats: Vec<(String, Vec<String>)>,
}

/// A text as HTML shows it.
fn escaped(text: &str) -> String {
    let mut safe = String::with_capacity(text.len());
    for c in text.chars() {
        match c {
            '&' => safe += "&amp;",
            '<' => safe += "&lt;",
            '>' => safe += "&gt;",
            '"' => safe += "&quot;",
            '\'' => safe += "&#39;",
            c => safe.push(c),
        }
    }
    safe
}

impl Page {
    pub fn html(&self) -> String {
        let title = escaped(&self.title);
        let mut body = format!("<h1>Ladder: {title}</h1>\n<p>{}</p>\n", self.summary());
        if !self.rows.is_empty() {
            body += &self.standing();
        }
        if let Some(leader) = &self.leader {
            body += &leader.section();
        }
        if !self.refused.is_empty() {
            body += &self.not_ranked();
        }
        format!(
            "<!DOCTYPE html>\n<html lang=\"en\">\n<head>\n<meta charset=\"utf-8\">\n\
             <meta name=\"viewport\" content=\"width=device-width, initial-scale=1\">\n<title>Ladder: {title}</title>\n\
             <style>\n{STYLE}</style>\n</head>\n<body>\n<main>\n{body}</main>\n\
             <footer><p>chukkanalli {} (commit {}), {}</p></footer>\n</body>\n</html>\n",
            escaped(VERSION),
            escaped(COMMIT),
            escaped(&self.date)
        )
    }

    fn summary(&self) -> String {
        let counted = |count: usize, what: &str| format!("{count} {what}{}", if count == 1 { "" } else { "s" });
        let mut text = format!("{} ranked", counted(self.rows.len(), "table"));
        if !self.refused.is_empty() {
            text += &format!(", {} not ranked", self.refused.len());
        }
        text += ". NashConv is the sum of what each seat could gain by a perfect reply: the lower, the harder to beat.";
        if let Some(units) = self.units {
            text += &format!(" {} are one chip per hand.", counted(units as usize, "unit"));
        }
        text
    }

    fn standing(&self) -> String {
        let heads: String =
            (0..self.seats).map(|seat| format!("<th scope=\"col\" class=\"n\">gain of seat {seat}</th>")).collect();
        let mut text = format!(
            "<h2>Standing</h2>\n<div class=\"wide\">\n<table>\n<caption>Tables by NashConv, equals together; gains in chips per hand</caption>\n\
             <thead><tr><th scope=\"col\" class=\"n\">rank</th><th scope=\"col\">table</th><th scope=\"col\" class=\"n\">NashConv in units</th>\
             <th scope=\"col\" class=\"n\">chips per hand</th><th scope=\"col\" class=\"n\">in decimals</th>{heads}<th scope=\"col\">read</th></tr></thead>\n"
        );
        let most = self.rows.iter().map(|row| row.nash_conv).max().unwrap_or(0);
        for group in self.rows.chunk_by(|one, other| one.rank == other.rank) {
            let rows: String = group.iter().map(|row| row.html(most)).collect();
            text += &format!("<tbody>\n{rows}</tbody>\n");
        }
        text + "</table>\n</div>\n"
    }

    fn not_ranked(&self) -> String {
        let mut text = "<h2>Not ranked</h2>\n".to_string();
        for (name, sentences) in &self.refused {
            text += &format!("<h3>{}</h3>\n{}", escaped(name), list(sentences));
        }
        text
    }
}

impl Row {
    /// A row; its bar is as long as its NashConv beside the greatest.
    fn html(&self, most: u64) -> String {
        let percent = if most == 0 { 0 } else { u128::from(self.nash_conv) * 100 / u128::from(most) };
        let gains: String = self.gains.iter().map(|gain| format!("<td class=\"n\">{}</td>", escaped(gain))).collect();
        format!(
            "<tr><td class=\"n\">{}</td><th scope=\"row\">{}<span class=\"bar\" aria-hidden=\"true\"><span style=\"width:{percent}%\"></span></span></th>\
             <td class=\"n\">{}</td><td class=\"n\">{}</td><td class=\"n\">{}</td>{gains}<td>{}</td></tr>\n",
            self.rank,
            escaped(&self.name),
            self.nash_conv,
            escaped(&self.chips),
            escaped(&self.decimals),
            escaped(&self.note)
        )
    }
}

impl Leader {
    fn section(&self) -> String {
        let mut text = format!("<h2>How the first table can be beaten: {}</h2>\n", escaped(&self.name));
        for (heading, sentences) in &self.seats {
            text += &format!("<h3>{}</h3>\n", escaped(heading));
            if !sentences.is_empty() {
                text += &list(sentences);
            }
        }
        text
    }
}

fn list(sentences: &[String]) -> String {
    let items: String = sentences.iter().map(|sentence| format!("<li>{}</li>\n", escaped(sentence))).collect();
    format!("<ul>\n{items}</ul>\n")
}

const STYLE: &str = "\
body { font: 16px/1.5 sans-serif; color: #111; background: #fff; max-width: 72em; margin: 0 auto; padding: 1em; }
h1 { font-size: 1.6em; } h2 { font-size: 1.3em; margin-top: 2em; } h3 { font-size: 1.05em; overflow-wrap: anywhere; }
.wide { overflow-x: auto; }
table { border-collapse: collapse; width: 100%; }
caption { text-align: left; padding-bottom: 0.5em; }
th, td { text-align: left; vertical-align: top; padding: 0.3em 0.6em; font-weight: normal; }
thead th { font-weight: bold; border-bottom: 2px solid #111; }
tbody { border-bottom: 1px solid #777; }
tbody th { min-width: 10em; overflow-wrap: anywhere; }
tbody td { white-space: nowrap; }
.n { text-align: right; font-variant-numeric: tabular-nums; }
.bar { display: block; height: 0.5em; border: 1px solid #555; }
.bar span { display: block; height: 100%; background: #555; print-color-adjust: exact; -webkit-print-color-adjust: exact; }
li { overflow-wrap: anywhere; }
footer { margin-top: 3em; border-top: 1px solid #777; font-size: 0.9em; }
@media (max-width: 40em) { body { padding: 0.5em; } th, td { padding: 0.2em 0.4em; } }
@media print { body { max-width: none; font-size: 11px; } .wide { overflow: visible; } tr, li { break-inside: avoid; } h2, h3 { break-after: avoid; } }
";

#[cfg(test)]
mod tests {
    use super::*;

    fn page() -> Page {
        let row = |rank, name: &str, nash_conv| Row {
            rank,
            name: name.to_string(),
            nash_conv,
            chips: "1/3".to_string(),
            decimals: "0.333333333".to_string(),
            gains: vec!["0".to_string(), "1/3".to_string()],
            note: "by labels".to_string(),
        };
        Page {
            title: "Kuhn with 2 seats, D 3".to_string(),
            units: Some(162),
            seats: 2,
            rows: vec![row(1, "<script>alert(\"a\")</script>", 54), row(1, "b", 54), row(3, "c", 108)],
            leader: Some(Leader {
                name: "&amp;".to_string(),
                seats: vec![("seat 0".to_string(), vec!["1 < 2".to_string()])],
            }),
            refused: vec![("d'".to_string(), vec!["line 1: odd".to_string()])],
            date: "2026-11-18".to_string(),
        }
    }

    #[test]
    fn names_are_escaped_and_nothing_comes_from_elsewhere() {
        let html = page().html();
        assert!(html.contains("&lt;script&gt;alert(&quot;a&quot;)&lt;/script&gt;"));
        assert!(html.contains("&amp;amp;") && html.contains("<h3>d&#39;</h3>") && html.contains("<li>1 &lt; 2</li>"));
        for odd in ["<script", "http", "src=", "url(", "@import", "javascript"] {
            assert!(!html.contains(odd), "{odd}");
        }
    }

    #[test]
    fn equals_stand_together_and_bars_are_in_proportion() {
        let html = page().html();
        assert_eq!(html.matches("<tbody>").count(), 2);
        assert_eq!((html.matches("width:50%").count(), html.matches("width:100%\"").count()), (2, 1));
        assert_eq!(html.matches("<th scope=\"row\">").count(), 3);
        assert_eq!(html.matches("gain of seat ").count(), 2);
    }

    #[test]
    fn a_page_without_a_ranked_table_has_no_standing() {
        let html = Page { rows: Vec::new(), units: None, leader: None, ..page() }.html();
        assert!(!html.contains("<table") && html.contains("0 tables ranked, 1 not ranked"));
    }
}
