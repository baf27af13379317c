//! A page as text, in the form of the examples' own.
use crate::escape::{plain, visible};
use crate::notation::{marked, Token};
use crate::sheet::{is_shortened, step_label, Body, End, Piece, Sheet, Shown, CUT, SHORTENED};
use crate::text::text;
use fejogbu::Code;
use std::fmt::Write;

/// The whole page. A line that is not of the file's own making ends no line early: what comes from outside is escaped.
pub fn page(sheet: &Sheet) -> String {
    let mut out = format!("# {}\n\n{}\n", plain(&sheet.title), verdict(sheet));
    match &sheet.body {
        Body::Lines(lines) => {
            if sheet.answer.code == Code::TooLong {
                let _ = write!(out, "\n{CUT}\n");
            }
            file_lines(lines, sheet.answer.at, &mut out);
        }
        Body::Terms {
            names,
            sides: [left, right],
            types,
            steps,
            end,
        } => {
            legend(names, &mut out);
            let _ = write!(
                out,
                "\n- left: `{}`\n- right: `{}`\n",
                text(left),
                text(right)
            );
            for (side, tokens) in [("left", left), ("right", right)] {
                if !marked(tokens).is_empty() {
                    let (at, part) = (sheet.answer.at, text(marked(tokens)));
                    let _ = write!(out, "\nAt word {at} of the {side} stands `{part}`.\n");
                }
            }
            if !types.is_empty() {
                let _ = write!(out, "\n{}\n", sentence(types));
            }
            if is_shortened(steps) {
                let _ = write!(out, "\n{SHORTENED}\n");
            }
            if !steps.is_empty() {
                out += "\nSteps:\n\n";
            }
            for (k, step) in steps.iter().enumerate() {
                let _ = writeln!(out, "{}", step_line(k + 1, step));
            }
            ends(end, &mut out);
        }
    }
    out
}

/// The answer in words, and whether it is a refusal.
pub fn verdict(sheet: &Sheet) -> String {
    match sheet.accepted() {
        true => format!("{}: both sides stand for the same matrix", sheet.words),
        false => format!(
            "refused (code {}): {}",
            sheet.answer.code.number(),
            sheet.words
        ),
    }
}

fn legend(names: &[Vec<Piece>], out: &mut String) {
    if !names.is_empty() {
        let names: Vec<String> = names.iter().map(|pieces| sentence(pieces)).collect();
        let _ = write!(out, "\nLetters: {}.\n", names.join("; "));
    }
}

fn sentence(pieces: &[Piece]) -> String {
    let spelled = pieces.iter().map(|piece| match piece {
        Piece::Words(words) => words.clone(),
        Piece::Formula(tokens) => text(tokens),
    });
    spelled.collect()
}

/// A line of the list of steps: the part before and after. A step that is refused has the part and the reason.
fn step_line(number: usize, step: &Shown) -> String {
    let (name, behind) = step_label(step.step);
    let part = |tokens: &[Token]| text(marked(tokens));
    let label = format!("{number}. {}, {name}{behind}", step.side);
    match &step.after {
        Ok(after) => format!(
            "{label}: `{}` becomes `{}`",
            part(&step.before),
            part(after)
        ),
        Err(why) if marked(&step.before).is_empty() => format!("{label}: refused: {why}"),
        Err(why) => format!("{label}: `{}` refused: {why}", part(&step.before)),
    }
}

fn ends(end: &End, out: &mut String) {
    let _ = match end {
        End::None => Ok(()),
        End::Same(end) => write!(out, "\nBoth sides end as `{}`.\n", text(end)),
        End::Differ([left, right], at) => write!(
            out,
            "\nThe left ends as `{}`,\nthe right as `{}`.\nThey differ first at word {at}: `{}` and `{}`.\n",
            text(left),
            text(right),
            text(marked(left)),
            text(marked(right))
        ),
    };
}

/// The lines of a file that is not of the form; the faulty one is pointed at.
fn file_lines(lines: &[Vec<u8>], faulty: usize, out: &mut String) {
    out.push('\n');
    for (k, line) in lines.iter().enumerate() {
        let sign = if k + 1 == faulty { '>' } else { ' ' };
        let _ = writeln!(out, "{sign} {:5}  {}", k + 1, visible(line));
    }
    if faulty > lines.len() {
        let _ = writeln!(out, "> {faulty:5}  (the file ends here)");
    }
}
