//! The bench: a script of commands in, an answer for each out.

use crate::display::{self, Reading};
use crate::explain;
use crate::load::{self, Sea, SeaLine, SEA_LINES};
use crate::phase::Phases;
use crate::proteus::{self, COMPONENTS};
use crate::reader;
use crate::rows::{Choices, Node, FULL, SINGLE};
use crate::table::{self, Place, Record, Refusal, CELLS, FLAGS, NODES, NO_NODE};

const BENCH_CELLS: usize = 12_900;
const BENCH_FLAGS: usize = 6_500;
const MOST_SEA: usize = 70;
const MOST_SPILL: usize = 100;
const MOST_ROOM: usize = 1_100_000;
/// The one way of making that `explain` knows.
const NINE_COLUMNS: usize = 0;

/// A table that was kept: the record and all cells as they were then.
#[derive(Clone)]
pub struct Kept {
    pub record: Record,
    pub cells: Vec<i32>,
}

pub struct Bench {
    pub record: Record,
    pub cells: Vec<i32>,
    pub flags: Vec<u8>,
    lent_cells: usize,
    lent_flags: usize,
    sea: Sea,
    /// Places 1 to 6.
    pub kept: Vec<Kept>,
    phases: Phases,
}

/// The script, or what was answered to one, and how far it has been read.
pub struct Script<'a> {
    pub rest: &'a [u8],
}

impl<'a> Script<'a> {
    /// The next line, without its line feed.
    pub fn line(&mut self) -> Option<&'a [u8]> {
        if self.rest.is_empty() {
            return None;
        }
        let end = self.rest.iter().position(|&b| b == b'\n').unwrap_or(self.rest.len());
        let line = &self.rest[..end];
        self.rest = &self.rest[(end + 1).min(self.rest.len())..];
        Some(line)
    }

    /// The next bytes as they are, and the line feed after them.
    fn bytes(&mut self, count: usize) -> Option<&'a [u8]> {
        let taken = count.min(self.rest.len());
        let (bytes, rest) = self.rest.split_at(taken);
        self.rest = rest;
        match self.rest.split_first() {
            Some((b'\n', rest)) if taken == count => {
                self.rest = rest;
                Some(bytes)
            }
            _ => None,
        }
    }
}

fn words(line: &[u8]) -> Vec<&[u8]> {
    line.split(|&b| b == b' ').collect()
}

/// A decimal with an optional minus that its place can hold.
fn number<T: TryFrom<i128>>(word: &[u8]) -> Option<T> {
    let (negative, digits) = match word.split_first() {
        Some((b'-', rest)) => (true, rest),
        _ => (false, word),
    };
    if digits.is_empty() || digits.len() > 30 || !digits.iter().all(u8::is_ascii_digit) {
        return None;
    }
    let size = digits.iter().fold(0_i128, |sum, &digit| sum * 10 + i128::from(digit - b'0'));
    T::try_from(if negative { -size } else { size }).ok()
}

/// A whole number from 0 to `most`.
fn up_to(word: &[u8], most: usize) -> Option<usize> {
    number::<usize>(word).filter(|&value| value <= most)
}

fn answer<T>(result: Result<T, Refusal>, say: impl FnOnce(T) -> String) -> String {
    match result {
        Ok(value) => say(value),
        Err(refusal) => refusal.text(),
    }
}

impl Bench {
    pub fn new() -> Bench {
        Bench {
            record: Record::never_opened(),
            cells: vec![0; BENCH_CELLS],
            flags: vec![0; BENCH_FLAGS],
            lent_cells: CELLS,
            lent_flags: FLAGS,
            sea: Sea::empty(),
            kept: vec![Kept { record: Record::never_opened(), cells: vec![0; BENCH_CELLS] }; COMPONENTS],
            phases: Phases::new(),
        }
    }

    /// Runs a script and gives the answers, one line each (a listing and a text for ProteusDS more).
    pub fn run(&mut self, script: &[u8]) -> String {
        let mut script = Script { rest: script };
        let mut answers = String::new();
        while let Some((_, answer)) = self.step(&mut script) {
            answers.push_str(&answer);
            answers.push('\n');
        }
        answers
    }

    /// Runs the next command: its line, and its answer without the last line feed.
    pub fn step<'a>(&mut self, script: &mut Script<'a>) -> Option<(&'a [u8], String)> {
        let line = script.line()?;
        let answer = self.command(&words(line), script);
        Some((line, answer.unwrap_or("?".to_string())))
    }

    /// One command; `None` if it is not one that the bench's page describes.
    fn command(&mut self, words: &[&[u8]], script: &mut Script) -> Option<String> {
        match words {
            [b"lend", cells, flags] => self.lend(cells, flags),
            [b"open", kind, component, coverage] => self.open(kind, component, coverage),
            [b"piece", count] => {
                let text = script.bytes(number(count)?)?;
                Some(self.piece(text))
            }
            [b"close"] => Some(self.close()),
            [b"listing"] => {
                let lines = table::listing(&self.record, &self.cells[..self.lent_cells]);
                Some(answer(lines, |lines| lines.join("\n")))
            }
            [b"coefficient", tick1, heading1, tick2, heading2] => self.coefficient([tick1, heading1, tick2, heading2]),
            [b"sea", count] => self.read_sea(up_to(count, MOST_SEA)?, script),
            [b"force", second] => {
                let cells = &self.cells[..self.lent_cells];
                let result = load::force(&self.record, cells, &self.sea, number(second)?, &self.phases);
                Some(answer(result, |load| format!("force {}", load.whole)))
            }
            [b"display", second, bits] => self.display(number(second)?, number(bits)?),
            [b"cell", r, c] => self.cell(r, c),
            [b"poke", r, c, re, im, flag] => self.poke([r, c], [re, im, flag]),
            [b"spill", value] => self.spill(value),
            [b"forge", what, value] => self.forge(what, value),
            [b"forge", what, index, value] => self.forge_one_of(what, index, value),
            [b"record"] => Some(self.show_record()),
            [b"sum"] => Some(format!("sum {}", self.sum())),
            [b"keep", place] => self.keep(place),
            [b"proteus", room] => self.proteus(room),
            [b"explain", words @ ..] => self.explain(words, script),
            _ => None,
        }
    }

    fn coefficient(&self, words: [&[u8]; 4]) -> Option<String> {
        let first = Node { tick: number(words[0])?, heading: number(words[1])? };
        let second = Node { tick: number(words[2])?, heading: number(words[3])? };
        let result = load::coefficient(&self.record, &self.cells[..self.lent_cells], first, second);
        Some(answer(result, |(re, im)| format!("coefficient {re} {im}")))
    }

    fn cell(&self, r: &[u8], c: &[u8]) -> Option<String> {
        let (r, c) = (up_to(r, NODES - 1)?, up_to(c, NODES - 1)?);
        let (re, im) = table::cell(&self.cells, r, c);
        Some(format!("cell {re} {im} {}", self.flags[table::flag_at(r, c)]))
    }

    fn poke(&mut self, at: [&[u8]; 2], values: [&[u8]; 3]) -> Option<String> {
        let (r, c) = (up_to(at[0], NODES - 1)?, up_to(at[1], NODES - 1)?);
        let (re, im, flag) = (number(values[0])?, number(values[1])?, number(values[2])?);
        self.cells[table::cell_at(r, c)] = re;
        self.cells[table::cell_at(r, c) + 1] = im;
        self.flags[table::flag_at(r, c)] = flag;
        Some("poked".to_string())
    }

    /// Somebody else's writing beyond the table, whatever is lent.
    fn spill(&mut self, value: &[u8]) -> Option<String> {
        let value = up_to(value, MOST_SPILL)?;
        self.cells[CELLS..].fill(value as i32);
        self.flags[FLAGS..].fill(value as u8);
        Some(format!("spilt {value}"))
    }

    fn lend(&mut self, cells: &[u8], flags: &[u8]) -> Option<String> {
        let (cells, flags) = (up_to(cells, BENCH_CELLS)?, up_to(flags, BENCH_FLAGS)?);
        self.lent_cells = cells;
        self.lent_flags = flags;
        Some(format!("lent {cells} {flags}"))
    }

    fn open(&mut self, kind: &[u8], component: &[u8], coverage: &[u8]) -> Option<String> {
        let choices = Choices { kind: number(kind)?, component: number(component)?, coverage: number(coverage)? };
        let cells = &mut self.cells[..self.lent_cells];
        let flags = &mut self.flags[..self.lent_flags];
        let result = reader::open(choices, cells, flags);
        if let Ok(record) = result {
            self.record = record;
        }
        Some(answer(result, |_| "open".to_string()))
    }

    fn piece(&mut self, text: &[u8]) -> String {
        let cells = &mut self.cells[..self.lent_cells];
        let flags = &mut self.flags[..self.lent_flags];
        let (record, result) = reader::piece(self.record, text, cells, flags);
        self.record = record;
        answer(result, |()| "going".to_string())
    }

    fn close(&mut self) -> String {
        let cells = &mut self.cells[..self.lent_cells];
        let flags = &mut self.flags[..self.lent_flags];
        let (record, result) = reader::close(self.record, cells, flags);
        self.record = record;
        answer(result, |(frequencies, headings)| format!("accepted {frequencies} {headings}"))
    }

    /// Takes all the sea's lines before it judges them, so that the command is one command.
    fn read_sea(&mut self, count: usize, script: &mut Script) -> Option<String> {
        let lines: Vec<Option<SeaLine>> =
            (0..count).map(|_| script.line().and_then(|line| sea_line(&words(line)))).collect();
        let mut lines: Vec<SeaLine> = lines.into_iter().collect::<Option<_>>()?;
        lines.truncate(SEA_LINES);
        self.sea = Sea { count: count as u32, lines };
        Some(format!("sea {count}"))
    }

    fn display(&self, second: u64, bits: u64) -> Option<String> {
        let scale = f64::from_bits(bits);
        let cells = &self.cells[..self.lent_cells];
        let result = display::display(&self.record, cells, &self.sea, second, scale, &self.phases);
        Some(answer(result, |reading| match reading {
            Reading::Force(two) => format!("force {} {}", two.mean.to_bits(), two.whole.to_bits()),
            Reading::Moment(two) => format!("moment {} {}", two.mean.to_bits(), two.whole.to_bits()),
        }))
    }

    fn forge(&mut self, what: &[u8], value: &[u8]) -> Option<String> {
        match what {
            b"stage" => self.record.stage = number(value)?,
            b"kind" => self.record.choices.kind = number(value)?,
            b"component" => self.record.choices.component = number(value)?,
            b"coverage" => self.record.choices.coverage = number(value)?,
            b"lines" => self.record.lines = number(value)?,
            b"headings" => self.record.headings_held = number(value)?,
            b"kept" => self.record.kept_held = number(value)?,
            _ => return None,
        }
        Some("forged".to_string())
    }

    fn forge_one_of(&mut self, what: &[u8], index: &[u8], value: &[u8]) -> Option<String> {
        let index: usize = number(index)?;
        match what {
            b"tick" => *self.record.ticks.get_mut(index)? = number(value)?,
            b"heading" => *self.record.headings.get_mut(index)? = number(value)?,
            b"byte" => *self.record.kept.get_mut(index)? = number(value)?,
            _ => return None,
        }
        Some("forged".to_string())
    }

    fn show_record(&self) -> String {
        let record = &self.record;
        let choices = &record.choices;
        let mut text = format!(
            "record {} {} {} {} {} {}",
            record.stage, choices.kind, choices.component, choices.coverage, record.lines, record.headings_held
        );
        for tick in record.ticks {
            text.push_str(&format!(" {tick}"));
        }
        for heading in record.headings {
            text.push_str(&format!(" {heading}"));
        }
        text
    }

    fn sum(&self) -> i64 {
        let modulus = 1_000_000_007;
        let mut sum: i64 = 0;
        for &cell in &self.cells {
            sum = (31 * sum + i64::from(cell) + (1 << 31)) % modulus;
        }
        for &flag in &self.flags {
            sum = (31 * sum + i64::from(flag)) % modulus;
        }
        sum
    }

    fn keep(&mut self, place: &[u8]) -> Option<String> {
        let place = up_to(place, COMPONENTS).filter(|&place| place > 0)?;
        self.kept[place - 1] = Kept { record: self.record, cells: self.cells.clone() };
        Some(format!("kept {place}"))
    }

    /// The text has a line feed at its end, and so has every answer.
    fn proteus(&self, room: &[u8]) -> Option<String> {
        let mut room = vec![0; up_to(room, MOST_ROOM)?];
        let six = std::array::from_fn(|index| {
            let kept = &self.kept[index];
            proteus::Table { record: &kept.record, cells: &kept.cells[..self.lent_cells] }
        });
        let written = proteus::write(&six, &mut room);
        Some(answer(written, |length| {
            let text = String::from_utf8_lossy(&room[..length]);
            format!("proteus {length}\n{}", text.strip_suffix('\n').unwrap_or(&text))
        }))
    }

    /// Takes the text once all its numbers are as described; works on cells and flags of its own.
    fn explain(&self, words: &[&[u8]], script: &mut Script) -> Option<String> {
        let &[way, kind, component, coverage, refused, p1, p2, p3, p4, count] = words else {
            return None;
        };
        up_to(way, NINE_COLUMNS)?;
        let choices = Choices { kind: number(kind)?, component: number(component)?, coverage: number(coverage)? };
        let stated = stated(number(refused)?, [p1, p2, p3, p4])?;
        let text = script.bytes(number(count)?)?;
        let (mut cells, mut flags) = (vec![0; self.lent_cells], vec![0; self.lent_flags]);
        let result = explain::explain(choices, stated, text, &mut cells, &mut flags);
        Some(answer(result, |explanation| explanation.text()))
    }
}

/// The refusal that `explain` is asked about: a pair for 11, else a line, or no place for 0, with zeros behind it.
fn stated(refused: u8, place: [&[u8]; 4]) -> Option<Refusal> {
    let first = Node { tick: number(place[0])?, heading: number(place[1])? };
    let second = Node { tick: number(place[2])?, heading: number(place[3])? };
    let place = match (refused, first.tick) {
        (11, _) => Place::Pair(first, second),
        _ if first.heading != 0 || second != NO_NODE => return None,
        (_, 0) => Place::Nothing,
        (_, line) => Place::Line(line),
    };
    Some(Refusal { number: refused, place })
}

fn sea_line(words: &[&[u8]]) -> Option<SeaLine> {
    match words {
        [tick, heading, re, im] => Some(SeaLine {
            node: Node { tick: number(tick)?, heading: number(heading)? },
            re: number(re)?,
            im: number(im)?,
        }),
        _ => None,
    }
}

/// A word that is no choice becomes a choice that is not valid.
const NO_CHOICE: u8 = 255;

pub fn coverage_of(word: &str) -> u8 {
    match word {
        "single" => SINGLE,
        "full" => FULL,
        _ => NO_CHOICE,
    }
}

/// Document 01's listing program: choices in words, the text whole, the lines it prints.
pub fn listing_program(kind: &str, component: &str, coverage: &str, text: &[u8]) -> String {
    let choices = Choices {
        kind: match kind {
            "difference" => 0,
            "sum" => 1,
            _ => NO_CHOICE,
        },
        component: match component.as_bytes() {
            [digit @ b'1'..=b'6'] => digit - b'0',
            _ => NO_CHOICE,
        },
        coverage: coverage_of(coverage),
    };
    let mut cells = vec![0; CELLS];
    let mut flags = vec![0; FLAGS];
    let lines = (|| {
        let record = reader::open(choices, &mut cells, &mut flags)?;
        let (record, result) = reader::piece(record, text, &mut cells, &mut flags);
        result?;
        let (record, result) = reader::close(record, &mut cells, &mut flags);
        result?;
        table::listing(&record, &cells)
    })();
    answer(lines, |lines| lines.join("\n")) + "\n"
}

#[cfg(test)]
mod tests {
    use super::*;
    use crate::reader::tests::EXAMPLE_H;

    fn run(script: &str) -> String {
        Bench::new().run(script.as_bytes())
    }

    #[test]
    fn the_page_s_own_example() {
        let script = "open 0 1 0\npiece 65\n0.100000E+02 0.100000E+02 0.0 0.0 1 0.020000 180.0 -0.020000 0.0\n\nclose\ncoefficient 1000 0 1000 0\n";
        assert_eq!(run(script), "open\ngoing\naccepted 1 1\ncoefficient -20000 0\n");
    }

    #[test]
    fn what_the_page_does_not_describe() {
        for script in [
            "\n",
            "opens 0 1 0\n",
            "open 0 1\n",
            "open  0 1 0\n",
            "open 0 1 0 \n",
            "open 256 1 0\n",
            "open -1 1 0\n",
            "open +0 1 0\n",
            "lend 12901 0\n",
            "lend 0 6501\n",
            "cell 80 0\n",
            "cell 0 80\n",
            "cell 0\n",
            "force\n",
            "force -1\n",
            "force 18446744073709551616\n",
            "display 0 18446744073709551616\n",
            "sea 71\n",
            "sea 1\n4294967296 0 0 0\n",
            "sea 1\n1 2147483648 0 0\n",
            "forge tick 20 1\n",
            "forge heading 4 1\n",
            "forge byte 160 1\n",
            "forge size 1\n",
            "poke 0 0 0 0 256\n",
            "poke 0 0 2147483648 0 0\n",
            "spill\n",
            "spill 101\n",
            "spill -1\n",
            "spill 256\n",
            "spill 4294967296\n",
            "spill 1 1\n",
            "spill x\n",
            "spill 1 \n",
            "piece x\n",
            "coefficient 4294967296 0 0 0\n",
            "keep\n",
            "keep 0\n",
            "keep 7\n",
            "keep -1\n",
            "keep 257\n",
            "keep 1 1\n",
            "keep x\n",
            "keep 1 \n",
            "kept 1\n",
            "proteus\n",
            "proteus -1\n",
            "proteus 1100001\n",
            "proteus 4294967296\n",
            "proteus 1 1\n",
            "proteus single\n",
            "proteus  1\n",
            "Proteus 1\n",
            "explain\n",
            "explain 0 0 1 0 10 0 0 0 0\n",
            "explain 0 0 1 0 10 0 0 0 0 x\n",
            "explain 0 0 1 0 10 0 0 0 0 -1\n",
            "explain 0 0 1 0 10 0 0 0 0 0 0\n",
            "explain  0 0 1 0 10 0 0 0 0 0\n",
            "Explain 0 0 1 0 10 0 0 0 0 0\n",
            // No line feed behind the bytes, other bytes there, too few.
            "explain 0 0 1 0 10 0 0 0 0 0",
            "explain 0 0 1 0 10 0 0 0 0 2\nxy",
            "explain 0 0 1 0 10 0 0 0 0 2\nx",
            "explain 0 0 1 0 10 0 0 0 0 2\n",
        ] {
            assert_eq!(run(script), "?\n", "{script:?}");
        }
    }

    #[test]
    fn listing_program_prints_example_h() {
        assert_eq!(
            listing_program("difference", "1", "single", EXAMPLE_H.as_bytes()),
            "QTF difference 1 single 2 1\n1000 0 1000 0 -20000 0\n1000 0 1250 0 -30000 4000\n\
             1250 0 1000 0 -30000 -4000\n1250 0 1250 0 -36000 0\n"
        );
        assert_eq!(listing_program("difference", "2", "single", EXAMPLE_H.as_bytes()), "refused 10 0\n");
        assert_eq!(listing_program("difference", "1", "single", b"9 9 0 0 1\n"), "refused 4 1\n");
        assert_eq!(
            listing_program("sum", "1", "full", b"9 9 0 0 1 0 0 0 0\n9 9 1 1 1 0 0 0 0"),
            "refused 11 1111 0 1111 1000\n"
        );
        assert_eq!(listing_program("both", "1", "single", b""), "refused 2 0\n");
    }

    #[test]
    fn lines_past_the_64th_are_counted_and_dropped() {
        let lines: String = (0..65).map(|i| format!("{} 0 1 0\n", 1000 + i)).collect();
        let mut bench = Bench::new();
        assert_eq!(bench.run(format!("sea 65\n{lines}").as_bytes()), "sea 65\n");
        assert_eq!((bench.sea.count, bench.sea.lines.len()), (65, 64));
    }

    #[test]
    fn only_what_is_lent_is_used() {
        let script = "lend 12799 6400\nopen 0 1 0\nlend 12800 6399\nopen 2 1 0\nlend 12800 6400\nopen 2 1 0\nclose\n";
        assert_eq!(
            run(script),
            "lent 12799 6400\nrefused 1 0\nlent 12800 6399\nrefused 1 0\nlent 12800 6400\nrefused 2 0\nrefused 2 0\n"
        );
    }

    #[test]
    fn a_spill_fills_what_is_beyond_and_nothing_else() {
        let mut bench = Bench::new();
        assert_eq!(bench.run(b"poke 79 79 3 4 5\nlend 0 0\nspill 100\n"), "poked\nlent 0 0\nspilt 100\n");
        assert_eq!((bench.cells.len(), bench.flags.len()), (12_900, 6_500));
        assert_eq!((&bench.cells[12_797..12_800], &bench.flags[6_398..6_400]), (&[0, 3, 4][..], &[0, 5][..]));
        assert!(bench.cells[12_800..].iter().all(|&cell| cell == 100));
        assert!(bench.flags[6_400..].iter().all(|&flag| flag == 100));
    }

    #[test]
    fn no_call_writes_beyond_the_table() {
        let mut bench = Bench::new();
        bench.run(b"lend 12900 6500\nspill 7\nopen 0 1 0\n");
        for script in
            ["", "piece 21\n9 9 0 0 1 .5 0 0.5 0\n\n", "close\n", "listing\nforce 0\n", "open 2 1 0\n", "open 1 1 1\n"]
        {
            bench.run(script.as_bytes());
            assert!(bench.cells[12_800..].iter().all(|&cell| cell == 7), "{script:?}");
            assert!(bench.flags[6_400..].iter().all(|&flag| flag == 7), "{script:?}");
        }
    }

    /// The shortest six: 10 s, heading 0, everything 0. 16 + 12 + 13 + 6 + 20 + 116 bytes.
    const SHORTEST: &str = "$QTFFrequencies\n0.628318531\n$QTFHeadings\n0.000\n$WaveDriftQTFMatrix\n0 0 0 0\
        \x20\
        0.000000 0.000000 0.000000 0.000000 0.000000 0.000000 0.000000 0.000000 0.000000 0.000000 0.000000 0.000000\n";

    fn six_shortest() -> Bench {
        let mut bench = Bench::new();
        for component in 1..=6 {
            let row = format!("10 10 0 0 {component} 0 0 0 0");
            let script = format!("open 0 {component} 0\npiece {}\n{row}\nclose\nkeep {component}\n", row.len());
            assert_eq!(bench.run(script.as_bytes()), format!("open\ngoing\naccepted 1 1\nkept {component}\n"));
        }
        bench
    }

    #[test]
    fn six_kept_tables_are_written() {
        assert_eq!(SHORTEST.len(), 183);
        let text = format!("proteus 183\n{SHORTEST}");
        let mut bench = six_shortest();
        assert_eq!(bench.run(b"proteus 1100000\n"), text);
        assert_eq!(bench.run(b"proteus 183\nproteus 182\nproteus 0\n"), format!("{text}refused 19 0\nrefused 19 0\n"));
        assert_eq!(
            bench.run(b"lend 12799 6500\nproteus 183\nlend 12800 0\nproteus 183\n"),
            format!("lent 12799 6500\nrefused 1 0\nlent 12800 0\n{text}")
        );
    }

    #[test]
    fn what_is_kept_is_a_copy_of_record_and_cells() {
        let mut bench = six_shortest();
        assert_eq!(
            bench.run(b"poke 0 0 2000000000 0 0\nforge kind 1\nlend 12800 6400\nopen 0 1 0\n").lines().count(),
            4
        );
        assert_eq!(bench.run(b"proteus 183\n"), format!("proteus 183\n{SHORTEST}"));
        assert_eq!(bench.run(b"keep 3\nproteus 183\n"), "kept 3\nrefused 2 0\n");
        // All 12,900 cells are copied, whatever is lent.
        bench.run(b"spill 5\nlend 0 0\nkeep 2\n");
        assert_eq!((bench.kept[1].cells.len(), bench.kept[1].cells[12_899]), (12_900, 5));
    }

    /// M-102: the text shows 180.000 whatever sign the rows have; a kept record that holds -180,000 is 2.
    #[test]
    fn six_tables_at_either_sign() {
        let mut bench = Bench::new();
        for (component, sign) in (1..=6).zip(["-180", "180", "-179.9996", "-180.0005", "-1.8E2", "180.0004"]) {
            let row = format!("10 10 {sign} 180 {component} 0 0 0 0");
            let script = format!("open 0 {component} 0\npiece {}\n{row}\nclose\nkeep {component}\n", row.len());
            assert_eq!(bench.run(script.as_bytes()), format!("open\ngoing\naccepted 1 1\nkept {component}\n"));
        }
        let text = format!("proteus 185\n{}", SHORTEST.replace("\n0.000\n", "\n180.000\n"));
        assert_eq!(bench.run(b"proteus 185\n"), text);
        // In a slot that is not held, in one that is, and as it was.
        let forged = |slot: u8, heading: i32| format!("forge heading {slot} {heading}\nkeep 6\nproteus 185\n");
        assert_eq!(bench.run(forged(1, -180_000).as_bytes()), format!("forged\nkept 6\n{text}"));
        assert_eq!(bench.run(forged(0, -180_000).as_bytes()), "forged\nkept 6\nrefused 2 0\n");
        assert_eq!(bench.run(forged(0, 180_000).as_bytes()), format!("forged\nkept 6\n{text}"));
    }

    #[test]
    fn a_place_never_kept_to() {
        assert_eq!(run("proteus 1100000\nlend 12799 0\nproteus 0\n"), "refused 2 0\nlent 12799 0\nrefused 1 0\n");
    }

    #[test]
    fn explain_takes_its_text_and_leaves_the_bench_alone() {
        let mut bench = Bench::new();
        bench.run(b"open 1 2 1\npiece 23\n9 9 0 0 2 5 0 3 4\n9 8 0\nspill 3\n");
        let before = (bench.record, bench.cells.clone(), bench.flags.clone());
        let nine = "9 8 0 0 1 5 0 3 4\n8 9 0 0 1 5 0 3 4\n";
        let command = |head: &str| format!("explain {head} {}\n{nine}\n", nine.len());
        assert_eq!(bench.run(command("0 0 1 0 9 2 0 0 0").as_bytes()), "set 1 3000000 -4000000 3000000 4000000\n");
        assert_eq!(bench.run(command("0 0 1 0 9 1 0 0 0").as_bytes()), "refused 2 0\n");
        assert_eq!(bench.run(command("0 1 1 0 11 1111 0 1111 0").as_bytes()), "brought 1 1 1 1\n");
        assert_eq!(bench.run(command("0 0 2 0 10 0 0 0 0").as_bytes()), "nothing\n");
        assert_eq!(bench.run(command("0 2 1 0 9 2 0 0 0").as_bytes()), "refused 2 0\n");
        assert_eq!((bench.record, &bench.cells, &bench.flags), (before.0, &before.1, &before.2));
        // What is lent counts, and the bytes are taken all the same.
        for lent in ["12799 6400", "12800 6399"] {
            let script = format!("lend {lent}\n{}close\n", command("0 0 1 0 9 2 0 0 0"));
            assert_eq!(bench.run(script.as_bytes()), format!("lent {lent}\nrefused 1 0\nrefused 1 0\n"));
        }
        let script = format!("lend 12900 6500\n{}", command("0 0 1 0 9 2 0 0 0"));
        assert!(bench.run(script.as_bytes()).ends_with("set 1 3000000 -4000000 3000000 4000000\n"));
        assert_eq!((bench.record, bench.cells, bench.flags), before);
    }

    #[test]
    fn explain_with_numbers_that_are_not_described_takes_no_bytes() {
        for head in [
            "1 0 1 0 10 0 0 0 0",
            "-1 0 1 0 10 0 0 0 0",
            "x 0 1 0 10 0 0 0 0",
            "0 256 1 0 10 0 0 0 0",
            "0 0 -1 0 10 0 0 0 0",
            "0 0 1 256 10 0 0 0 0",
            "0 0 1 0 256 0 0 0 0",
            "0 0 1 0 -1 0 0 0 0",
            "0 0 1 0 10 -1 0 0 0",
            "0 0 1 0 10 4294967296 0 0 0",
            "0 0 1 0 10 0 1 0 0",
            "0 0 1 0 10 0 0 1 0",
            "0 0 1 0 10 0 0 0 -1",
            "0 0 1 0 11 1000 2147483648 1000 0",
            "0 0 1 0 11 1000 0 -1 0",
            "0 0 1 0 11 1000 0 4294967296 0",
            "0 0 1 0 11 1000 0 1000 -2147483649",
        ] {
            assert_eq!(run(&format!("explain {head} 6\nclose\n\n")), "?\nrefused 2 0\n?\n", "{head}");
        }
        // All that a place can hold, and numbers that no text gives.
        for head in [
            "0 0 1 0 255 4294967295 0 0 0",
            "0 0 1 0 0 0 0 0 0",
            "0 255 255 255 11 4294967295 -2147483648 4294967295 2147483647",
            "0 0 1 0 11 0 0 0 0",
        ] {
            assert_eq!(run(&format!("explain {head} 6\nclose\n\n")), "refused 2 0\n", "{head}");
        }
    }
}
