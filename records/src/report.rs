//! One HTML page on a batch, with no script from elsewhere and no network:
//! counts, a table of records by state, ambiguous ones with two readings.

use std::fmt::Write;

use crate::batch::Record;
use crate::diagnosis::sentence;
use crate::progress::{grouped, Counts};
use crate::readings;
use crate::tree::escape;
use crate::worker::{Outcome, State};

/// Rows of each state that are shown; the page says how many are not.
const MOST_ROWS: usize = 500;

/// What stands on the page so far.
pub struct Report {
    grammar_name: String,
    grammar: Vec<u8>,
    rows: [Vec<String>; State::ALL.len()],
}

impl Report {
    pub fn new(grammar_name: &str, grammar: &[u8]) -> Report {
        Report {
            grammar_name: grammar_name.into(),
            grammar: grammar.to_vec(),
            rows: Default::default(),
        }
    }

    pub fn add(&mut self, record: &Record, outcome: &Outcome, diagnosis: Option<&str>) {
        let state = outcome.state();
        let rows = &mut self.rows[state as usize];
        if rows.len() >= MOST_ROWS {
            return;
        }
        let said = match outcome {
            Outcome::Converted {
                xml,
                ambiguous: false,
                ..
            } => pre(xml),
            Outcome::Converted { xml, .. } => {
                let two = readings::two(&self.grammar, &record.bytes);
                pre(xml) + &two.map(|two| side_by_side(&two)).unwrap_or_default()
            }
            Outcome::Refused(answer) => pre(diagnosis.unwrap_or(sentence(*answer))),
        };
        let text = String::from_utf8_lossy(&record.bytes);
        rows.push(format!(
            "<tr class=\"{}\"><td>{}:{}</td><td class=\"state\">{}</td><td>{}</td><td>{said}</td></tr>\n",
            class(state),
            escape(&record.file),
            record.line,
            state.word(),
            pre(&text),
        ));
    }

    /// The whole page.
    pub fn page(&self, counts: &Counts) -> String {
        let mut page = String::from(HEAD);
        let _ = write!(
            page,
            "<h1>Records by {}</h1>\n<p class=\"sum\">{}</p>\n<div class=\"cards\">\n",
            escape(&self.grammar_name),
            escape(&counts.sentence()),
        );
        for state in State::ALL {
            let _ = writeln!(
                page,
                "<a class=\"card {}\" href=\"#{}\"><b>{}</b><span>{}</span></a>",
                class(state),
                class(state),
                grouped(counts.of(state)),
                state.word(),
            );
        }
        page.push_str("</div>\n");
        page.push_str(&bar(counts));
        // What needs somebody's eyes comes first.
        for state in [
            State::Ambiguous,
            State::NoReading,
            State::Refused,
            State::Converted,
        ] {
            let rows = &self.rows[state as usize];
            if rows.is_empty() {
                continue;
            }
            let _ = write!(
                page,
                "<h2 id=\"{}\">{} {}</h2>\n<table><thead><tr><th>where</th><th>state</th>\
                 <th>record</th><th>{}</th></tr></thead><tbody>\n",
                class(state),
                grouped(counts.of(state)),
                state.word(),
                heading(state),
            );
            page.extend(rows.iter().map(String::as_str));
            page.push_str("</tbody></table>\n");
            let left_out = counts.of(state) - rows.len();
            if left_out > 0 {
                let _ = writeln!(page, "<p>{} more are not shown.</p>", grouped(left_out));
            }
        }
        let text = String::from_utf8_lossy(&self.grammar);
        let _ = write!(
            page,
            "<h2>Grammar</h2>\n{}\n<p class=\"foot\">States, XML and places are those of the proved \
             library; pictures are drawn by this tool, and each second reading was judged by the \
             library.</p>\n</body></html>\n",
            pre(&text)
        );
        page
    }
}

fn heading(state: State) -> &'static str {
    match state {
        State::Converted => "XML",
        State::Ambiguous => "XML of the chosen reading, and two readings",
        State::NoReading | State::Refused => "what is wrong",
    }
}

fn class(state: State) -> &'static str {
    match state {
        State::Converted => "converted",
        State::Ambiguous => "ambiguous",
        State::NoReading => "unread",
        State::Refused => "refused",
    }
}

fn pre(text: &str) -> String {
    format!("<pre>{}</pre>", escape(text))
}

fn side_by_side(two: &readings::Two) -> String {
    let mut html = String::from("<div class=\"two\">");
    for (title, reading) in ["chosen", "another"].iter().zip(&two.readings) {
        let _ = write!(
            html,
            "<figure><figcaption>{title}</figcaption>{}{}</figure>",
            reading.tree.svg(),
            match &reading.xml {
                Ok(xml) => pre(xml),
                Err(refusal) => pre(&refusal.to_string()),
            },
        );
    }
    let _ = write!(html, "</div><p>{}</p>", escape(&two.part()));
    html
}

/// A bar with a part for each state, as wide as its share.
fn bar(counts: &Counts) -> String {
    let mut bar = String::from("<div class=\"bar\" role=\"img\" aria-label=\"shares by state\">");
    for state in State::ALL {
        let count = counts.of(state);
        if count > 0 {
            let _ = write!(
                bar,
                "<span class=\"{}\" style=\"flex-grow:{count}\" title=\"{} {}\"></span>",
                class(state),
                grouped(count),
                state.word(),
            );
        }
    }
    bar + "</div>\n"
}

const HEAD: &str = "<!DOCTYPE html>
<html lang=\"en\"><head><meta charset=\"utf-8\">
<meta name=\"viewport\" content=\"width=device-width, initial-scale=1\">
<title>Records</title>
<style>
:root { --ok: #15803d; --two: #b45309; --un: #b91c1c; --no: #475569; }
body { font: 15px/1.45 system-ui, sans-serif; margin: 2rem auto; max-width: 75rem; padding: 0 1rem; color: #1e293b; background: #fff; }
h1 { font-size: 1.5rem; margin-bottom: .2rem; } h2 { font-size: 1.1rem; margin-top: 2rem; }
.sum, .foot { color: #475569; }
.cards { display: flex; gap: .8rem; flex-wrap: wrap; margin: 1rem 0; }
.card { flex: 1 1 9rem; border-radius: .6rem; padding: .8rem 1rem; color: #fff; text-decoration: none; }
.card b { display: block; font-size: 1.7rem; line-height: 1.1; }
.bar { display: flex; height: .8rem; border-radius: .4rem; overflow: hidden; gap: 2px; }
.card.converted, .bar .converted { background: var(--ok); }
.card.ambiguous, .bar .ambiguous { background: repeating-linear-gradient(45deg, var(--two) 0 10px, #92400e 10px 20px); }
.card.unread, .bar .unread { background: var(--un); }
.card.refused, .bar .refused { background: var(--no); }
table { border-collapse: collapse; width: 100%; }
th, td { text-align: left; vertical-align: top; padding: .45rem .6rem; border-bottom: 1px solid #e2e8f0; }
th { font-size: .8rem; text-transform: uppercase; letter-spacing: .04em; color: #64748b; }
pre { margin: 0; font: 13px/1.4 ui-monospace, monospace; white-space: pre-wrap; overflow-wrap: anywhere; tab-size: 8; }
td.state { white-space: nowrap; font-weight: 600; }
tr.converted .state { color: var(--ok); } tr.ambiguous .state { color: var(--two); }
tr.unread .state { color: var(--un); } tr.refused .state { color: var(--no); }
tr.ambiguous > td { background: repeating-linear-gradient(45deg, #fffbeb 0 12px, #fef3c7 12px 24px); }
.two { display: flex; gap: 1rem; flex-wrap: wrap; margin-top: .6rem; }
figure { margin: 0; padding: .6rem; background: #fff; border: 1px solid #e2e8f0; border-radius: .5rem; max-width: 100%; overflow-x: auto; }
figcaption { font-weight: 600; margin-bottom: .3rem; }
svg { max-width: 100%; height: auto; }
</style></head><body>
";
