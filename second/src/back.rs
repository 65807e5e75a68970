//! Do the texts for ProteusDS that a program wrote give back the six tables that they were written from?

use crate::proteus;
use crate::proteus_back::{held, read, Values};
use crate::protocol::{Bench, Script};
use crate::table::Record;

/// Goes through a script with a bench of its own. Each text among the answers that a program gave is read back with the
/// coverage of the table in place 1, and held to the six tables that are kept then: how many, or what differs where.
pub fn answers(script: &[u8], answers: &[u8]) -> Result<usize, String> {
    let (mut script, mut answers) = (Script { rest: script }, Script { rest: answers });
    let mut bench = Bench::new();
    let (mut number, mut count) = (0, 0);
    while let Some((command, own)) = bench.step(&mut script) {
        number += 1;
        let here = |why: String| format!("command {number}: {why}");
        match text_of(command, &mut answers).map_err(here)? {
            Some(text) => {
                let kept = bench.kept.iter().map(|kept| (&kept.record, kept.cells.as_slice()));
                holds(text, kept).map_err(here)?;
                count += 1;
            }
            None => pass_over(&own, &mut answers).map_err(here)?,
        }
    }
    if !answers.rest.is_empty() {
        return Err(format!("command {number}: an answer behind the last"));
    }
    Ok(count)
}

/// The text, if the next answer is one. Any other answer stays where it is.
fn text_of<'a>(command: &[u8], answers: &mut Script<'a>) -> Result<Option<&'a [u8]>, String> {
    let mut ahead = Script { rest: answers.rest };
    let length = ahead.line().and_then(|line| line.strip_prefix(b"proteus "));
    let (true, Some(length)) = (command.starts_with(b"proteus"), length) else {
        return Ok(None);
    };
    let length: Option<usize> = std::str::from_utf8(length).ok().and_then(|length| length.parse().ok());
    let Some((text, rest)) = length.and_then(|length| ahead.rest.split_at_checked(length)) else {
        return Err("not as many bytes as it says".to_string());
    };
    answers.rest = rest;
    Ok(Some(text))
}

/// An answer that is no text has as many lines as our own: that they are the same is not asked here.
fn pass_over(own: &str, answers: &mut Script) -> Result<(), String> {
    for _ in own.split('\n') {
        answers.line().ok_or("no answer")?;
    }
    Ok(())
}

/// The same of what a program wrote of one WAMIT text with all six components.
pub fn written(coverage: &str, text: &[u8], written: &[u8]) -> Result<usize, String> {
    let tables = proteus::six_tables(coverage, text).map_err(|line| line.trim_end().to_string())?;
    holds(written, tables.iter().map(|(record, cells)| (record, cells.as_slice())))?;
    Ok(1)
}

/// A text read back is these six tables by values, each by its own slots.
fn holds<'a>(text: &[u8], tables: impl Iterator<Item = (&'a Record, &'a [i32])>) -> Result<(), String> {
    let mut six: Vec<Values> = Vec::new();
    for (record, cells) in tables {
        let place = six.len() + 1;
        six.push(held(record, cells).map_err(|why| format!("place {place}: {why}"))?);
    }
    let back = read(text, six[0].choices.coverage)?;
    for (place, (back, table)) in back.iter().zip(&six).enumerate() {
        if let Some(why) = back.other_than(table) {
            return Err(format!("component {}: {why}", place + 1));
        }
    }
    Ok(())
}

#[cfg(test)]
mod tests {
    use super::*;

    /// Ticks 1,000 and 5,000 (a tie in rad/s), headings -90 and 180 degrees, full coverage: the rows of a component.
    /// Each starts with another pair, so that slots differ from table to table; one of two pairs comes from its other side.
    fn rows(component: usize) -> String {
        let nodes = [("10", "-90"), ("2", "-90"), ("10", "180"), ("2", "180")];
        let mut rows = Vec::new();
        for first in 0..nodes.len() {
            for second in first..nodes.len() {
                let (a, b) = if (first + second) % 2 == 0 { (first, second) } else { (second, first) };
                let pair = rows.len();
                // Thousandths; of the real part the size.
                let (re, im) = (10 * pair + component, if a == b { 0 } else { 100 * a + 10 * b + component });
                let modulus = ((re * re + im * im) as f64).sqrt() / 1_000.0;
                let (a, b) = (nodes[a], nodes[b]);
                let place = format!("{} {} {} {} {component}", a.0, b.0, a.1, b.1);
                rows.push(format!("{place} {modulus:.6} 0 -.{re:03} .{im:03}\n"));
            }
        }
        rows.rotate_left(component);
        rows.concat()
    }

    /// All six read and kept; then the text is asked for: command 25.
    fn script() -> String {
        let table = |component: usize| {
            let rows = rows(component);
            format!("open 0 {component} 1\npiece {}\n{rows}\nclose\nkeep {component}\n", rows.len())
        };
        (1..=6).map(table).collect::<String>() + "proteus 1100000\n"
    }

    /// What is said of this text in the place of the script's own.
    fn said_of(text: &str) -> Result<usize, String> {
        let own = Bench::new().run(script().as_bytes());
        let ahead = &own[..own.find("proteus ").unwrap()];
        answers(script().as_bytes(), format!("{ahead}proteus {}\n{text}", text.len()).as_bytes())
    }

    fn own_text() -> String {
        let own = Bench::new().run(script().as_bytes());
        own[own.find("$QTF").unwrap()..].to_string()
    }

    /// The text with its matrix as words, changed.
    fn matrix(change: impl Fn(&mut Vec<Vec<String>>)) -> String {
        let text = own_text();
        let (head, rows) = text.split_at(text.find("0 0 0 0 ").unwrap());
        let mut rows = rows.lines().map(|line| line.split(' ').map(str::to_string).collect()).collect();
        change(&mut rows);
        head.to_string() + &rows.iter().map(|row| row.join(" ") + "\n").collect::<String>()
    }

    /// By heading and frequency of the first node, then of the second.
    fn listed(rows: &mut [Vec<String>]) {
        rows.sort_by_key(|row| [2, 0, 3, 1].map(|at| row[at].clone()));
    }

    #[test]
    fn what_is_written_is_read_back() {
        assert_eq!(said_of(&own_text()), Ok(1));
        assert_eq!(said_of(&matrix(|rows| listed(rows))), Ok(1));
        assert_eq!(matrix(|_| ()), own_text());
        let own = own_text();
        for line in [
            "0.628318531 3.141592654",
            "-90.000 180.000",
            // Pair 3, and it came from its other side: -.03K + .30Ki.
            "0 1 0 1 -0.031000 -0.301000 -0.032000 -0.302000 -0.033000 -0.303000 -0.034000 -0.304000 -0.035000 -0.305000 -0.036000 -0.306000",
        ] {
            assert!(own.lines().any(|own| own == line), "{line}");
        }
    }

    /// What a writer with a fault would have written is not read back, though there is no other text to hold it to.
    fn refused(fault: &str, text: &str, why: &str) {
        assert_ne!(text, own_text(), "{fault}");
        assert_eq!(said_of(text), Err(format!("command 25: {why}")), "{fault}");
    }

    #[test]
    fn a_writer_s_faults_in_numbers() {
        let own = own_text();
        let mean = "1000 -90000 1000 -90000 is";
        refused(
            "a frequency is cut",
            &own.replace("0.628318531", "0.628318530"),
            "line 2: word 1: no tick is written so",
        );
        refused(
            "the one tie goes down",
            &own.replace("3.141592654", "3.141592653"),
            "line 2: word 2: no tick is written so",
        );
        refused(
            "-0.001 loses its sign",
            &own.replace(" -0.", " 0."),
            &format!("component 1: {mean} (1000, 0) and not (-1000, 0)"),
        );
        refused("0 has a sign", &own.replace(" 0.000000", " -0.000000"), "line 6: word 6: a sign before 0");
        refused(
            "components 2 and 3 are exchanged",
            &matrix(|rows| rows.iter_mut().for_each(|row| row[6..10].rotate_left(2))),
            &format!("component 2: {mean} (-3000, 0) and not (-2000, 0)"),
        );
        refused("the text is cut short", &own[..own.len() - 1], "line 21: no line feed at its end");
    }

    /// Component 1 brings 2 s first, component 2 brings 10 s first.
    #[test]
    fn entries_by_the_first_table_s_slots() {
        let mut bench = Bench::new();
        bench.run(script().as_bytes());
        let first = bench.kept[0].record;
        for kept in &mut bench.kept[1..] {
            (kept.record.ticks, kept.record.headings) = (first.ticks, first.headings);
        }
        let written = bench.run(b"proteus 1100000\n");
        let text = &written[written.find("$QTF").unwrap()..];
        refused("", text, "component 2: 1000 -90000 1000 -90000 is (-42000, 0) and not (-2000, 0)");
    }

    #[test]
    fn a_writer_s_faults_in_indexes() {
        let order = "line 8: a pair that does not come behind the one before";
        refused(
            "heading indexes come before frequency indexes",
            &matrix(|rows| rows.iter_mut().for_each(|row| row[..4].rotate_left(2))),
            order,
        );
        refused(
            "heading indexes start at 1",
            &matrix(|rows| rows.iter_mut().for_each(|row| row[3] = row[3].replace('1', "2").replace('0', "1"))),
            "line 8: word 4: an index behind the end of its list",
        );
        refused(
            "rows go by frequency, then heading",
            &matrix(|rows| rows.sort_by_key(|row| [0, 2, 1, 3].map(|at| row[at].clone()))),
            order,
        );
        refused("a row is missing", &matrix(|rows| drop(rows.remove(6))), "no row for 5000 -90000 1000 180000");
    }

    /// Texts of the right form that say something else.
    #[test]
    fn a_writer_s_faults_put_in_order() {
        let exchanged = |columns: &'static [(usize, usize)]| {
            matrix(|rows| {
                rows.iter_mut().for_each(|row| columns.iter().for_each(|&(one, other)| row.swap(one, other)));
                listed(rows);
            })
        };
        refused(
            "the two heading indexes are exchanged",
            &exchanged(&[(2, 3)]),
            "component 1: 1000 -90000 1000 180000 is (-21000, -21000) and not (-21000, 21000)",
        );
        refused(
            "the two nodes are exchanged",
            &exchanged(&[(0, 1), (2, 3)]),
            "component 1: 1000 -90000 5000 -90000 is (-11000, 101000) and not (-11000, -101000)",
        );
        let turned = |word: &str| if word == "0" { "1" } else { "0" }.to_string();
        let falling = matrix(|rows| {
            rows.iter_mut().for_each(|row| (row[2], row[3]) = (turned(&row[2]), turned(&row[3])));
            listed(rows);
        });
        refused(
            "headings fall, and their indexes with them",
            &falling.replace("-90.000 180.000", "180.000 -90.000"),
            "line 4: word 2: not above the one before",
        );
    }

    #[test]
    fn answers_of_several_lines_and_several_texts() {
        let more = script() + "listing\nproteus 0\nforce 0\nproteus 1100001\nkeep 2\nproteus 1100000\n" + &script();
        let own = Bench::new().run(more.as_bytes());
        let said = |answers: &str| super::answers(more.as_bytes(), answers.as_bytes());
        assert_eq!(said(&own), Ok(2));
        assert_eq!(said(&format!("{own}sum 0\n")), Err("command 56: an answer behind the last".to_string()));
        assert_eq!(said(""), Err("command 1: no answer".to_string()));
        let at = own.rfind("proteus ").unwrap();
        assert_eq!(said(&own[..at]), Err("command 56: no answer".to_string()));
        assert_eq!(said(&own[..own.len() - 1]), Err("command 56: not as many bytes as it says".to_string()));
        // Place 2 holds component 6: 18 was to be answered, and not the text of before.
        let text = format!("proteus {}\n{}", own_text().len(), own_text());
        let kept = own.replace("refused 18 0\n", &text);
        let why = "command 31: component 2: Choices { kind: 0, component: 2, coverage: 1 } and not Choices { kind: 0, component: 6, coverage: 1 }";
        assert_eq!(said(&kept), Err(why.to_string()));
        assert_eq!(
            super::answers(b"proteus 9\n", text.as_bytes()).unwrap_err(),
            "command 1: place 1: no table to be written: refused 2 0"
        );
    }

    #[test]
    fn one_text_with_all_six() {
        let text: String = (1..=6).map(rows).collect();
        let said = |coverage: &str, text: &str, by: &str| written(coverage, text.as_bytes(), by.as_bytes());
        assert_eq!(said("full", &text, &own_text()), Ok(1));
        assert_eq!(said("single", &text, &own_text()).unwrap_err(), "line 8: two headings in single coverage");
        let other = own_text().replace("-0.091000 0.000000", "-0.091001 0.000000");
        let why = "component 1: 5000 180000 5000 180000 is (-91001, 0) and not (-91000, 0)";
        assert_eq!(said("full", &text, &other).unwrap_err(), why);
        assert_eq!(said("full", "", &own_text()).unwrap_err(), "component 1 refused 10 0");
        assert_eq!(said("full", &text, "refused 18 0\n").unwrap_err(), "line 1: not $QTFFrequencies");
    }
}
