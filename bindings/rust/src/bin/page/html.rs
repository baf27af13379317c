//! A page as HTML: one file that needs nothing else, no script and no network. It is written so that it is XML too.
use crate::escape::{escaped, visible};
use crate::mathml::mathml;
use crate::notation::{marked, Token};
use crate::plain::verdict;
use crate::rules;
use crate::sheet::{is_shortened, step_label, Body, End, Piece, Sheet, Shown, CUT, SHORTENED};
use fejogbu::{Code, Side};
use std::collections::BTreeSet;
use std::fmt::Write;

/// A document around a body. A page may load nothing: should a byte of a file ever get out of its place, it has nowhere to go.
pub fn document(title: &str, body: &str) -> String {
    format!(
        "<!DOCTYPE html>\n<html lang=\"en\" xmlns=\"http://www.w3.org/1999/xhtml\">\n<head>\n<meta charset=\"utf-8\"/>\n<meta name=\"viewport\" content=\"width=device-width, initial-scale=1\"/>\n<meta http-equiv=\"Content-Security-Policy\" content=\"default-src 'none'; style-src 'unsafe-inline'\"/>\n<title>{}</title>\n<style>\n{}</style>\n</head>\n<body>\n{body}</body>\n</html>\n",
        escaped(title),
        include_str!("style.css")
    )
}

/// The page of a derivation. The record, where one is wanted, stands at its end.
pub fn page(sheet: &Sheet, file: &str, record: Option<&str>) -> String {
    let class = if sheet.accepted() {
        "accepted"
    } else {
        "refused"
    };
    let mut out = format!(
        "<header>\n<h1>{}</h1>\n<p class=\"verdict {class}\">{}</p>\n</header>\n<main>\n",
        escaped(&sheet.title),
        escaped(&verdict(sheet))
    );
    match &sheet.body {
        Body::Lines(lines) => file_lines(lines, sheet, &mut out),
        Body::Terms {
            names,
            sides,
            types,
            steps,
            end,
        } => {
            legend(names, &mut out);
            two("sides", "The two sides", sides, &sheet.words, &mut out);
            if !types.is_empty() {
                let _ = writeln!(out, "<p>{}</p>", sentence(types));
            }
            step_list(steps, &mut out);
            ends(end, &mut out);
            table(steps, &mut out);
        }
    }
    if let Some(record) = record {
        let _ = write!(
            out,
            "<h2 id=\"record\">The record</h2>\n<pre class=\"wide\">{}</pre>\n",
            escaped_lines(record)
        );
    }
    let file = crate::sheet::without_the_word(file, sheet.answer.code);
    let held = match sheet.body {
        Body::Lines(_) => "bytes of",
        Body::Terms { .. } => "words that the replay held of",
    };
    let _ = write!(
        out,
        "</main>\n<footer class=\"faint\">\n<p>Made from the {held} {}.</p>\n</footer>\n",
        escaped(file)
    );
    document(&sheet.title, &out)
}

/// Text of several lines.
fn escaped_lines(text: &str) -> String {
    let lines: Vec<String> = text.lines().map(escaped).collect();
    lines.join("\n")
}

fn line(tokens: &[Token]) -> String {
    format!("<div class=\"line\">{}</div>", mathml(tokens))
}

fn sentence(pieces: &[Piece]) -> String {
    let spelled = pieces.iter().map(|piece| match piece {
        Piece::Words(words) => escaped(words),
        Piece::Formula(tokens) => mathml(tokens),
    });
    spelled.collect()
}

fn legend(names: &[Vec<Piece>], out: &mut String) {
    if names.is_empty() {
        return;
    }
    *out += "<h2 id=\"letters\">The letters</h2>\n<ul class=\"letters\">\n";
    for pieces in names {
        let _ = writeln!(out, "<li>{}</li>", sentence(pieces));
    }
    *out += "</ul>\n";
}

/// A heading and a line for each side; where a part of it is to blame, why.
fn two(id: &str, heading: &str, sides: &[Vec<Token>; 2], why: &str, out: &mut String) {
    let _ = write!(out, "<h2 id=\"{id}\">{heading}</h2>\n<dl>\n");
    for (side, tokens) in ["left", "right"].into_iter().zip(sides) {
        let reason = match marked(tokens).is_empty() {
            true => String::new(),
            false => refused(why),
        };
        let _ = writeln!(out, "<dt>{side}</dt>\n<dd>{}{reason}</dd>", line(tokens));
    }
    *out += "</dl>\n";
}

fn refused(why: &str) -> String {
    format!("<p class=\"verdict refused\">refused: {}</p>", escaped(why))
}

fn step_list(steps: &[Shown], out: &mut String) {
    if steps.is_empty() {
        return;
    }
    *out += "<h2 id=\"steps\">The steps</h2>\n<p class=\"faint\">In each step the part that is rewritten is <mark class=\"part\">underlined</mark>, and what it becomes has a <mark class=\"result\">frame</mark>. Words of a side are counted from 0.</p>\n";
    if is_shortened(steps) {
        let _ = writeln!(out, "<p class=\"faint\">{SHORTENED}</p>");
    }
    *out += "<ol class=\"steps\">\n";
    for (k, step) in steps.iter().enumerate() {
        let _ = writeln!(out, "<li id=\"step-{}\">{}</li>", k + 1, step_item(step));
    }
    *out += "</ol>\n";
}

fn step_item(step: &Shown) -> String {
    let (name, behind) = step_label(step.step);
    let side = match step.side {
        Side::Left => "left",
        Side::Right => "right",
    };
    let name = match rules::name(step.step.rule) {
        Some(_) => format!("<a href=\"#rule-{}\">{name}</a>", step.step.rule),
        None => name,
    };
    let after = match &step.after {
        Ok(after) => line(after),
        Err(why) => refused(why),
    };
    format!("<p>{side}, {name}{behind}</p>{}{after}", line(&step.before))
}

fn ends(end: &End, out: &mut String) {
    match end {
        End::None => (),
        End::Same(end) => {
            let _ = write!(
                out,
                "<h2 id=\"end\">Both sides end as</h2>\n{}\n",
                line(end)
            );
        }
        End::Differ(both, at) => {
            let why = format!("they differ first at word {at}, where the marked part begins");
            two("end", "The two ends", both, &why, out);
        }
    }
}

/// The rules that the steps name, each in the notation of the terms.
fn table(steps: &[Shown], out: &mut String) {
    let used: BTreeSet<u16> = steps.iter().map(|step| step.step.rule).collect();
    let used: Vec<u16> = used
        .into_iter()
        .filter(|&rule| rules::name(rule).is_some())
        .collect();
    if used.is_empty() {
        return;
    }
    *out += "<h2 id=\"rules\">The rules</h2>\n<p class=\"faint\">Here a and b are scalars, K kets, B bras and O operators; X and Y are kets, bras or operators, all of one kind in a rule; s and t are bases; σ, τ, ρ and κ are types or products of types. What stands before ▷ becomes what stands behind it; dots stand for what is between their neighbours.</p>\n<div class=\"wide\">\n<table>\n<thead><tr><th scope=\"col\">rule</th><th scope=\"col\">what becomes what</th></tr></thead>\n<tbody>\n";
    for rule in used {
        let _ = writeln!(out, "{}", rule_row(rule));
    }
    *out += "</tbody>\n</table>\n</div>\n";
}

fn rule_row(rule: u16) -> String {
    let name = rules::name(rule).unwrap_or_default();
    let mut cell = String::new();
    for equation in rules::equations(rule) {
        let _ = write!(
            cell,
            "<div class=\"line\">{} ▷ <wbr/>{}",
            mathml(&equation.left),
            mathml(&equation.right)
        );
        if !equation.condition.is_empty() {
            let _ = write!(
                cell,
                " <span class=\"faint\">({})</span>",
                escaped(&equation.condition)
            );
        }
        cell += "</div>";
    }
    let remark = rules::remark(rule);
    if !remark.is_empty() {
        let _ = write!(cell, "<p class=\"faint\">{}</p>", escaped(remark));
    }
    format!("<tr id=\"rule-{rule}\"><td>{name} ({rule})</td><td>{cell}</td></tr>")
}

/// The lines of a file that is not of the form, with the faulty one marked, and why.
fn file_lines(lines: &[Vec<u8>], sheet: &Sheet, out: &mut String) {
    *out += "<h2 id=\"file\">The file, line by line</h2>\n<p class=\"faint\">A byte other than 32 to 126 is shown by its number, as in \\x00, and a backslash twice.</p>\n";
    if sheet.answer.code == Code::TooLong {
        let _ = writeln!(out, "<p class=\"faint\">{CUT}</p>");
    }
    *out += "<ol class=\"file\">\n";
    let faulty = sheet.answer.at;
    let why = escaped(&sheet.words);
    let marked = |line: &str| {
        format!(
            "<li><mark class=\"fault\">{line}</mark> <span class=\"faint\">← {why}</span></li>\n"
        )
    };
    for (k, line) in lines.iter().enumerate() {
        let line = escaped(&visible(line));
        *out += &match k + 1 == faulty {
            // A mark around nothing would not be seen.
            true if line.is_empty() => marked("\u{a0}"),
            true => marked(&line),
            false => format!("<li>{line}</li>\n"),
        };
    }
    if faulty > lines.len() {
        *out += &marked("the file ends here");
    }
    *out += "</ol>\n";
}
