//! Cases for writing a file from rows and for reading a file.

use crate::calendar::last_position;
use crate::case_text::{hex_word, read_hex_word};
use crate::message::{FileRow, file_text, read, write};
use crate::random::Random;

const ID: &[u8] = b"T-1";
const MOMENT: &[u8] = b"2021-08-02T09:00:00.000+02:00";
const LONG_ENOUGH: usize = 16_000;

/// Positions about the last of March, of a month of 31 days and of October.
pub const CLOCK_CHANGE_POSITIONS: [u64; 6] = [2972, 2973, 2976, 2977, 2980, 2981];

/// IDs and moments at both sides of each edge of their forms.
pub fn ids() -> Vec<Vec<u8>> {
    let mut ids: Vec<Vec<u8>> =
        ["", "a", "-", "0", "9", "A", "Z", "z", "--------", "T-1 ", " T-1", "T_1", "T.1", "T&1"]
            .iter()
            .map(|id| id.as_bytes().to_vec())
            .collect();
    for length in [35, 36, 37, 72] {
        ids.push(vec![b'x'; length]);
    }
    for byte in [0, b'\n', b',', b'.', b'/', b':', b'@', b'[', b'`', b'{', 128, 255] {
        ids.push(vec![b'a', byte, b'b']);
    }
    ids
}

pub fn moments() -> Vec<Vec<u8>> {
    let good = "2021-08-02T09:00:00.000+02:00";
    let mut moments: Vec<Vec<u8>> = [
        "2021-08-02T09:00:00.000+01:00",
        "2021-01-02T09:00:00.000+02:00",
        "2018-08-31T16:04:53.848+02:00",
        "2018-01-01T00:00:00.000+01:00",
        "2099-12-31T23:59:59.999+01:00",
        "2017-12-31T23:59:59.999+01:00",
        "2100-01-01T00:00:00.000+01:00",
        "0000-01-01T00:00:00.000+01:00",
        "9999-01-01T00:00:00.000+01:00",
        "2021-00-02T09:00:00.000+02:00",
        "2021-01-02T09:00:00.000+02:00",
        "2021-12-02T09:00:00.000+02:00",
        "2021-13-02T09:00:00.000+02:00",
        "2021-08-00T09:00:00.000+02:00",
        "2021-08-01T09:00:00.000+02:00",
        "2021-08-31T09:00:00.000+02:00",
        "2021-08-32T09:00:00.000+02:00",
        "2021-09-30T09:00:00.000+02:00",
        "2021-09-31T09:00:00.000+02:00",
        "2021-02-28T09:00:00.000+01:00",
        "2021-02-29T09:00:00.000+01:00",
        "2024-02-29T09:00:00.000+01:00",
        "2024-02-30T09:00:00.000+01:00",
        "2096-02-29T09:00:00.000+01:00",
        "2098-02-29T09:00:00.000+01:00",
        "2021-03-28T02:30:00.000+01:00",
        "2021-08-02T23:00:00.000+02:00",
        "2021-08-02T24:00:00.000+02:00",
        "2021-08-02T29:00:00.000+02:00",
        "2021-08-02T09:59:00.000+02:00",
        "2021-08-02T09:60:00.000+02:00",
        "2021-08-02T09:00:59.000+02:00",
        "2021-08-02T09:00:60.000+02:00",
        "2021-08-02T09:00:00.999+02:00",
        "2021-08-02T09:00:00.000+00:00",
        "2021-08-02T09:00:00.000+03:00",
        "2021-08-02T09:00:00.000-01:00",
        "2021-08-02T09:00:00.000+02:01",
        "2021-08-02T09:00:00.000+02:30",
        "2021-08-02T09:00:00.000+11:00",
        "2021-08-02T09:00:00.000Z",
        "2021-08-02T09:00:00+02:00",
        "2021-08-02T09:00+02:00",
        "2021-08-02t09:00:00.000+02:00",
        "2021-08-02 09:00:00.000+02:00",
        "2021/08/02T09:00:00.000+02:00",
        "2021-08-02T09.00.00.000+02:00",
        "2021-08-02T09:00:00,000+02:00",
        "+021-08-02T09:00:00.000+02:00",
        "2021-+8-02T09:00:00.000+02:00",
        "2021-08- 2T09:00:00.000+02:00",
        "2021-8-02T09:00:00.0000+02:00",
        "",
    ]
    .iter()
    .map(|moment| moment.as_bytes().to_vec())
    .collect();
    moments.push(good.as_bytes()[..28].to_vec());
    moments.push(good.as_bytes()[1..].to_vec());
    moments.push([good.as_bytes(), b"0"].concat());
    moments.push([good.as_bytes(), b" "].concat());
    for place in 0..29 {
        for byte in [b'/', b':', 255] {
            let mut moment = good.as_bytes().to_vec();
            if moment[place] != byte {
                moment[place] = byte;
                moments.push(moment);
            }
        }
    }
    moments
}

/// What writing from rows is given.
#[derive(Clone)]
pub struct WriteCase {
    pub what: String,
    /// The bytes of the file that the answer shows, if not all.
    pub part: Option<(usize, usize)>,
    pub kind: u8,
    pub receiver: u64,
    pub year: u64,
    pub month: u64,
    pub file_length: usize,
    pub id: Vec<u8>,
    pub moment: Vec<u8>,
    pub numbers: Vec<u64>,
}

/// One case a line: `write KIND RECEIVER YEAR MONTH FILE ID MOMENT COUNT NUMBER ...`, or `part FROM TO` and then the same
/// words from KIND on.
pub fn write_cases_text() -> String {
    let mut text = String::new();
    for case in write_cases() {
        text += &match case.part {
            None => "write ".to_string(),
            Some((from, to)) => format!("part {from} {to} "),
        };
        text += &format!("{} {} {} {}", case.kind, case.receiver, case.year, case.month);
        text += &format!(" {} {} {}", case.file_length, hex_word(&case.id), hex_word(&case.moment));
        text += &format!(" {}", case.numbers.len());
        for number in case.numbers {
            text += &format!(" {number}");
        }
        text += "\n";
    }
    text
}

/// One line a case: the file's bytes, or those from byte FROM up to byte TO, or `refused NUMBER ITEM`.
pub fn write_answers(text: &str) -> String {
    let mut output = String::new();
    for line in text.lines() {
        let all: Vec<&str> = line.split(' ').collect();
        let (words, part) = match all[0] {
            "part" => (&all[3..], Some(all[1].parse().unwrap()..all[2].parse().unwrap())),
            _ => (&all[1..], None),
        };
        let number = |index: usize| words[index].parse::<u64>().unwrap();
        let numbers: Vec<u64> = (8..words.len()).map(number).collect();
        assert_eq!(numbers.len() as u64, number(7));
        let (id, moment) = (read_hex_word(words[5]), read_hex_word(words[6]));
        let (kind, file_length) = (number(0) as u8, number(4) as usize);
        output += &match write(kind, number(1), number(2), number(3), &numbers, &id, &moment, file_length) {
            Ok(file) => {
                let shown = part.map_or(&file[..], |part: std::ops::Range<usize>| &file[part]);
                String::from_utf8(shown.to_vec()).unwrap()
            }
            Err(refusal) => format!("refused {} {}", refusal.number, refusal.item),
        };
        output += "\n";
    }
    output
}

pub fn write_cases() -> Vec<WriteCase> {
    let mut cases = WriteCases(Vec::new());
    cases.heads();
    cases.row_fields();
    cases.row_order();
    cases.months();
    cases.all_months();
    cases.ids_and_moments();
    cases.buffers();
    cases.order_of_refusals();
    cases.many();
    cases.random();
    cases.clock_change_positions();
    cases.0
}

fn base() -> WriteCase {
    WriteCase {
        what: String::new(),
        part: None,
        kind: 1,
        receiver: 7,
        year: 2021,
        month: 6,
        file_length: LONG_ENOUGH,
        id: ID.to_vec(),
        moment: MOMENT.to_vec(),
        numbers: vec![3, 0, 0, 1, 2500, 0, 3, 0, 0, 2, 2500, 0],
    }
}

struct WriteCases(Vec<WriteCase>);

impl WriteCases {
    fn changed(&mut self, what: impl Into<String>, change: impl FnOnce(&mut WriteCase)) {
        let mut case = base();
        case.what = what.into();
        change(&mut case);
        self.0.push(case);
    }

    fn rows(&mut self, what: &str, kind: u8, rows: &[[u64; 6]]) {
        self.changed(format!("kind {kind}: {what}"), |case| {
            case.kind = kind;
            case.numbers = rows.concat();
        });
    }

    fn heads(&mut self) {
        self.changed("case F", |_| ());
        for kind in [0, 2, 3, 4, 255] {
            self.changed(format!("kind {kind}"), |case| case.kind = kind);
        }
        for receiver in [0, 9_999_999_999, 10_000_000_000, u64::MAX] {
            self.changed(format!("receiver {receiver}"), |case| case.receiver = receiver);
            self.changed(format!("receiver {receiver}, no rows"), |case| {
                case.receiver = receiver;
                (case.year, case.month) = (0, 0);
                case.numbers.clear();
            });
        }
        for year in [0, 1, 2017, 2018, 2099, 2100, 65535, 65536 + 2021, (1 << 32) + 2021, u64::MAX] {
            self.changed(format!("year {year}"), |case| case.year = year);
        }
        for month in [0, 13, 255, 256 + 6, (1 << 32) + 6, u64::MAX] {
            self.changed(format!("month {month}"), |case| case.month = month);
        }
        self.changed("rows with year 0 and month 0", |case| (case.year, case.month) = (0, 0));
        for kind in [0, 1, 2, 3, 4] {
            for (year, month) in [(0, 0), (2021, 6), (0, 6), (2021, 0), (0, 1), (1, 0)] {
                self.changed(format!("no rows, kind {kind}, year {year}, month {month}"), |case| {
                    (case.kind, case.year, case.month) = (kind, year, month);
                    case.numbers.clear();
                });
            }
        }
        for count in [1, 2, 3, 4, 5, 7, 8, 9, 10, 11] {
            self.changed(format!("{count} numbers"), |case| case.numbers.truncate(count));
        }
        self.changed("13 numbers", |case| case.numbers.push(0));
        self.changed("one number, year 0 and month 0", |case| {
            (case.year, case.month) = (0, 0);
            case.numbers = vec![0];
        });
    }

    fn row_fields(&mut self) {
        for kind in 1..=3 {
            let company = 10u64.pow(10);
            let ean = 10u64.pow(18);
            for partner in [0, company - 1, company, ean - 1, ean, u64::MAX] {
                self.rows(&format!("partner {partner}"), kind, &[[partner, 0, 0, 1, 1, 0]]);
            }
            for supply in [1, 2, 256, 1 << 32, u64::MAX] {
                self.rows(&format!("supply {supply}"), kind, &[[3, supply, 0, 1, 1, 0]]);
            }
            for direction in [1, 2, 256, 1 << 32, u64::MAX] {
                self.rows(&format!("direction {direction}"), kind, &[[3, 0, direction, 1, 1, 0]]);
            }
            for position in [0, 1, 9, 10, 2880, 2881, 2976, (1 << 32) + 1, u64::MAX] {
                self.rows(&format!("position {position}"), kind, &[[3, 0, 0, position, 1, 0]]);
            }
            for watts in [
                0,
                1,
                10,
                100,
                999,
                1000,
                1001,
                9999,
                10000,
                123_456_789_012,
                999_999_999_999,
                1_000_000_000_000,
                1 << 63,
                u64::MAX,
            ] {
                self.rows(&format!("watts {watts}"), kind, &[[3, 0, 0, 1, watts, 0]]);
            }
            for last in [1, 1 << 40] {
                self.rows(&format!("sixth number {last}"), kind, &[[3, 0, 0, 1, 1, last]]);
            }
            self.rows("the second row bad", kind, &[[3, 0, 0, 1, 1, 0], [3, 0, 0, 2, 0, 0]]);
        }
    }

    fn row_order(&mut self) {
        for kind in 1..=3 {
            self.rows("equal rows", kind, &[[3, 0, 0, 5, 1, 0], [3, 0, 0, 5, 1, 0]]);
            self.rows("equal places, other watts", kind, &[[3, 0, 0, 5, 1, 0], [3, 0, 0, 5, 2, 0]]);
            self.rows("falling positions", kind, &[[3, 0, 0, 5, 1, 0], [3, 0, 0, 4, 1, 0]]);
            self.rows("falling directions", kind, &[[3, 0, 1, 5, 1, 0], [3, 0, 0, 6, 1, 0]]);
            self.rows("falling supplies", kind, &[[3, 1, 0, 5, 1, 0], [3, 0, 1, 6, 1, 0]]);
            self.rows("falling partners", kind, &[[3, 0, 0, 5, 1, 0], [2, 1, 1, 6, 1, 0]]);
            self.rows("rising directions, falling positions", kind, &[[3, 0, 0, 5, 1, 0], [3, 0, 1, 4, 1, 0]]);
            self.rows("rising supplies, falling directions", kind, &[[3, 0, 1, 5, 1, 0], [3, 1, 0, 4, 1, 0]]);
            self.rows("rising partners, falling others", kind, &[[3, 1, 1, 5, 1, 0], [4, 0, 0, 4, 1, 0]]);
            self.rows(
                "a partner once more, later",
                kind,
                &[[3, 0, 0, 5, 1, 0], [4, 0, 0, 5, 1, 0], [3, 0, 0, 6, 1, 0]],
            );
            self.rows("both directions of one partner", kind, &[[3, 1, 0, 5, 1, 0], [3, 1, 1, 5, 1, 0]]);
            self.rows(
                "two supplies of one partner",
                kind,
                &[[3, 0, 0, 5, 1, 0], [3, 0, 1, 5, 1, 0], [3, 1, 0, 5, 1, 0], [3, 1, 1, 5, 1, 0]],
            );
            self.rows(
                "two partners of other supplies",
                kind,
                &[[3, 0, 0, 5, 1, 0], [3, 0, 1, 5, 1, 0], [4, 1, 0, 5, 1, 0], [4, 1, 1, 5, 1, 0]],
            );
        }
    }

    fn months(&mut self) {
        for month in 1..=12 {
            self.changed(format!("month {month}"), |case| case.month = month);
        }
        for (year, month, positions) in
            [(2021, 2, 2688), (2024, 2, 2784), (2021, 3, 2976), (2021, 4, 2880), (2021, 10, 2976), (2099, 12, 2976)]
        {
            for position in [positions, positions + 1] {
                self.position(1, (year, month), position);
            }
        }
    }

    fn position(&mut self, kind: u8, (year, month): (u64, u64), position: u64) {
        self.changed(format!("kind {kind}, {year}-{month:02}, position {position}"), |case| {
            (case.kind, case.year, case.month) = (kind, year, month);
            case.numbers = vec![3, 0, 0, position, 1, 0];
        });
    }

    /// C-12: "up to 2,972 in March and 2,980 in October".
    fn clock_change_positions(&mut self) {
        for (kind, year) in [(1, 2021), (2, 2018), (3, 2099)] {
            for month in [3, 10] {
                for position in CLOCK_CHANGE_POSITIONS {
                    self.position(kind, (year, month), position);
                }
            }
        }
        for month in [2, 4, 9, 11] {
            let last = last_position(2021, month as i64);
            for position in [last - 4, last, last + 4] {
                self.position(1, (2021, month), position);
            }
        }
    }

    /// The period of each month, in a file with its last position.
    fn all_months(&mut self) {
        for year in 2018..=2099 {
            for month in 1..=12 {
                let last = last_position(year as i64, month as i64);
                self.changed(format!("the period of a month of {year}"), |case| {
                    case.kind = 1 + (month % 3) as u8;
                    (case.year, case.month) = (year, month);
                    case.numbers = vec![3, 0, 0, last, 1, 0];
                    let file = write(case.kind, 7, year, month, &case.numbers, ID, MOMENT, LONG_ENOUGH).unwrap();
                    let file = String::from_utf8(file).unwrap();
                    let from = file.find("<PeriodStart>").unwrap() + "<PeriodStart>".len();
                    case.part = Some((from, file.find("</PeriodEnd>").unwrap()));
                });
            }
        }
    }

    fn ids_and_moments(&mut self) {
        for id in ids() {
            self.changed(format!("ID {:?}", String::from_utf8_lossy(&id)), |case| {
                (case.year, case.month) = (0, 0);
                case.numbers.clear();
                case.id = id;
            });
        }
        for moment in moments() {
            self.changed(format!("moment {:?}", String::from_utf8_lossy(&moment)), |case| {
                (case.year, case.month) = (0, 0);
                case.numbers.clear();
                case.moment = moment;
            });
        }
    }

    fn buffers(&mut self) {
        let kinds = [1, 2, 3].map(|kind| [("two rows", kind, true), ("no rows", kind, false)]);
        for (what, kind, with_rows) in kinds.concat() {
            let mut case = base();
            case.kind = kind;
            if !with_rows {
                (case.year, case.month) = (0, 0);
                case.numbers.clear();
            }
            let written =
                write(kind, case.receiver, case.year, case.month, &case.numbers, &case.id, &case.moment, LONG_ENOUGH);
            let length = written.unwrap().len();
            for file_length in [0, length - 1, length, length + 1] {
                case.what = format!("kind {kind}, {what}: {length} bytes, {file_length} lent");
                case.file_length = file_length;
                self.0.push(case.clone());
            }
        }
    }

    fn order_of_refusals(&mut self) {
        type Spoil = fn(&mut WriteCase);
        let spoil: [(&str, Spoil); 5] = [
            ("kind", |case| case.kind = 4),
            ("rows", |case| case.numbers[4] = 0),
            ("ID", |case| case.id.clear()),
            ("moment", |case| case.moment[0] = b'3'),
            ("buffer", |case| case.file_length = 0),
        ];
        for set in 0..32 {
            let bad: Vec<_> = (0..5).filter(|index| set >> index & 1 == 1).map(|index| spoil[index]).collect();
            let names: Vec<&str> = bad.iter().map(|(name, _)| *name).collect();
            self.changed(format!("bad: {}", if names.is_empty() { "none".into() } else { names.join(", ") }), |case| {
                for (_, change) in &bad {
                    change(case);
                }
            });
        }
        for kind in [1, 4] {
            self.changed(format!("kind {kind}, a length that isn't six numbers a row, bad ID"), |case| {
                case.kind = kind;
                case.numbers.pop();
                case.id.clear();
            });
        }
    }

    /// Counters of more digits than one.
    fn many(&mut self) {
        for (count, kind) in [(9, 1), (10, 1), (11, 2), (12, 3)] {
            self.changed(format!("kind {kind}, {count} partners"), |case| {
                case.kind = kind;
                case.numbers = (0..count).flat_map(|i| [100 + i, 0, 0, 1 + i, 1 + i, 0]).collect();
            });
        }
        for (count, kind) in [(9, 1), (10, 2), (99, 3), (100, 1)] {
            self.changed(format!("kind {kind}, {count} observations"), |case| {
                case.kind = kind;
                case.numbers = (0..count).flat_map(|i| [100, 1, 1, 1 + 2 * i, 1 + i, 0]).collect();
            });
        }
    }

    fn random(&mut self) {
        let mut random = Random::new(3);
        for number in 1..=60 {
            let mut case = random_file(&mut random);
            case.what = format!("random rows {number}");
            self.0.push(case.clone());
            case.what = format!("random rows {number}, one number changed");
            let place = random.range(0, case.numbers.len() as i64 - 1) as usize;
            let value = case.numbers[place];
            case.numbers[place] = random.pick(&[value + 1, value.wrapping_sub(1), 0, 1, value ^ 1 << 33, value + 96]);
            self.0.push(case);
        }
    }
}

/// Good rows of some partners, series and positions.
pub fn random_file(random: &mut Random) -> WriteCase {
    let mut case = base();
    case.kind = random.range(1, 3) as u8;
    case.receiver = random.number() % 10u64.pow(10);
    case.year = random.range(2018, 2099) as u64;
    case.month = random.range(1, 12) as u64;
    case.id = vec![b'i'; random.range(1, 36) as usize];
    case.numbers.clear();
    let partner_limit = if case.kind == 3 { 10i64.pow(18) } else { 10i64.pow(10) };
    let mut partner = 0;
    for _ in 0..random.range(1, 3) {
        let far = random.pick(&[5, partner_limit / 4]);
        partner += random.range(1, far);
        let one_supply = random.range(0, 1) as u64;
        for (supply, direction) in [(0, 0), (0, 1), (1, 0), (1, 1)] {
            if random.once_in(2) || (case.kind == 3 && supply != one_supply) {
                continue;
            }
            let mut position = 0;
            for _ in 0..random.range(1, 3) {
                let far = random.pick(&[2, 800]);
                position += random.range(1, far) as u64;
                let any = random.range(1, 999_999_999_999) as u64;
                let watts = random.pick(&[1, 999, 1000, 12_345, any]);
                case.numbers.extend([partner as u64, supply, direction, position, watts, 0]);
            }
        }
    }
    if case.numbers.is_empty() {
        case.numbers = vec![partner as u64, 0, 0, 1, 1, 0];
    }
    case
}

/// A file to be read: some bytes of a base file replaced.
pub struct ReadCase {
    pub what: String,
    pub rows_length: usize,
    pub edits: Vec<Edit>,
}

/// The bytes of a base from `start` to `end` are replaced with others. Edits rise and don't overlap.
pub struct Edit {
    pub start: usize,
    pub end: usize,
    pub bytes: Vec<u8>,
}

pub struct ReadGroup {
    pub base: Vec<u8>,
    pub cases: Vec<ReadCase>,
    /// Whether all changes of single bytes of the base are tried too.
    pub changes: bool,
}

fn edited(base: &[u8], edits: &[Edit]) -> Vec<u8> {
    let mut file = Vec::new();
    let mut place = 0;
    for edit in edits {
        file.extend(&base[place..edit.start]);
        file.extend(&edit.bytes);
        place = edit.end;
    }
    file.extend(&base[place..]);
    file
}

/// A line that starts with `<` is the base of the lines after it. A case is a line
/// `read ROWS START END HEX START END HEX ...`, or `changes`.
pub fn read_cases_text() -> String {
    let mut text = String::new();
    for group in read_groups() {
        text += std::str::from_utf8(&group.base).unwrap();
        text += "\n";
        for case in group.cases {
            text += &format!("read {}", case.rows_length);
            for edit in case.edits {
                text += &format!(" {} {} {}", edit.start, edit.end, hex_word(&edit.bytes));
            }
            text += "\n";
        }
        if group.changes {
            text += "changes\n";
        }
    }
    text
}

/// What each line of that text is.
pub fn read_whats() -> Vec<String> {
    let mut whats = Vec::new();
    for group in read_groups() {
        whats.push("a base".to_string());
        whats.extend(group.cases.into_iter().map(|case| case.what));
        if group.changes {
            whats.push("every byte of the base with each of the 256 values".to_string());
        }
    }
    whats
}

/// A line of the text of cases.
enum ReadLine {
    Case(usize, Vec<u8>),
    Changes(Vec<u8>),
}

fn read_lines(text: &str) -> Vec<ReadLine> {
    let mut lines = Vec::new();
    let mut base: &[u8] = &[];
    for line in text.lines() {
        let words: Vec<&str> = line.split(' ').collect();
        if line.starts_with('<') {
            base = line.as_bytes();
        } else if words[0] == "changes" {
            lines.push(ReadLine::Changes(base.to_vec()));
        } else {
            let edit = |edit: &[&str]| Edit {
                start: edit[0].parse().unwrap(),
                end: edit[1].parse().unwrap(),
                bytes: read_hex_word(edit[2]),
            };
            let edits: Vec<Edit> = words[2..].chunks(3).map(edit).collect();
            lines.push(ReadLine::Case(words[1].parse().unwrap(), edited(base, &edits)));
        }
    }
    lines
}

/// The files of a text of cases.
pub fn read_case_files(text: &str) -> Vec<Vec<u8>> {
    let file = |line| match line {
        ReadLine::Case(_, file) => file,
        ReadLine::Changes(base) => base,
    };
    read_lines(text).into_iter().map(file).collect()
}

/// For each case `refused NUMBER ITEM`, or one line
/// `file KIND RECEIVER YEAR MONTH ID-START ID-LENGTH MOMENT-START MOMENT-LENGTH ROWS` and a line of six numbers
/// for each row. For `changes` a line `PLACE COUNT` for each byte of the base with which more values than its own are
/// read, COUNT being how many of the 256 are.
pub fn read_answers(text: &str) -> String {
    let mut output = String::new();
    for line in read_lines(text) {
        output += &match line {
            ReadLine::Case(rows_length, file) => read_answer(&file, rows_length),
            ReadLine::Changes(base) => changes_answer(&base),
        };
    }
    output
}

fn read_answer(file: &[u8], rows_length: usize) -> String {
    let read = match read(file, rows_length) {
        Err(refusal) => return format!("refused {} {}\n", refusal.number, refusal.item),
        Ok(read) => read,
    };
    let mut output = format!("file {} {} {} {}", read.kind, read.receiver, read.year, read.month);
    output += &format!(" {} {}", read.id.start, read.id.len());
    output += &format!(" {} {}", read.moment.start, read.moment.len());
    output += &format!(" {}\n", read.numbers.len() / 6);
    for six in read.numbers.chunks(6) {
        let words: Vec<String> = six.iter().map(u64::to_string).collect();
        output += &(words.join(" ") + "\n");
    }
    output
}

fn changes_answer(base: &[u8]) -> String {
    let mut output = String::new();
    let mut file = base.to_vec();
    for place in 0..base.len() {
        let mut count = 0;
        for value in 0..=255 {
            file[place] = value;
            count += read(&file, usize::MAX).is_ok() as usize;
        }
        file[place] = base[place];
        if count > 1 {
            output += &format!("{place} {count}\n");
        }
    }
    output
}

pub fn read_groups() -> Vec<ReadGroup> {
    let mut random = Random::new(4);
    let mut groups = vec![case_f_group(&mut random)];
    for kind in 1..=3 {
        groups.push(empty_group(kind));
        groups.push(one_group(kind));
        groups.push(full_group(kind, &mut random));
        groups.push(many_group(kind));
    }
    groups.extend(month_groups());
    groups.extend((0..20).map(|_| random_group(&mut random)));
    for (kind, month) in [(1, 3), (3, 10)] {
        groups.push(clock_change_group(kind, month));
    }
    groups
}

impl ReadGroup {
    fn new(base: Vec<u8>) -> ReadGroup {
        ReadGroup { base, cases: Vec::new(), changes: false }
    }

    fn of_rows(kind: u8, year: i64, month: i64, rows: &[[u64; 6]]) -> ReadGroup {
        let row = |six: &[u64; 6]| FileRow {
            partner: six[0],
            supply: six[1],
            direction: six[2],
            position: six[3],
            watts: six[4],
            last: six[5],
        };
        let rows: Vec<FileRow> = rows.iter().map(row).collect();
        ReadGroup::new(file_text(kind, 7, year, month, &rows, ID, MOMENT))
    }

    /// The length of rows that the base's answer has.
    fn rows_length(&self) -> usize {
        read(&self.base, usize::MAX).unwrap().numbers.len()
    }

    fn case(&mut self, what: impl Into<String>, edits: Vec<Edit>) {
        let rows_length = self.rows_length() + 60;
        self.cases.push(ReadCase { what: what.into(), rows_length, edits });
    }

    fn lent(&mut self) {
        let length = self.rows_length();
        for rows_length in [0, length.saturating_sub(1), length, length + 1] {
            let what = format!("the base, {rows_length} numbers lent for {length}");
            self.cases.push(ReadCase { what, rows_length, edits: Vec::new() });
        }
    }

    /// Where the text stands for the `nth` time, counted from 0.
    fn find(&self, text: &str, nth: usize) -> usize {
        let base = std::str::from_utf8(&self.base).unwrap();
        base.match_indices(text).nth(nth).unwrap_or_else(|| panic!("{text} {nth}")).0
    }

    fn replace(&self, old: &str, nth: usize, new: &[u8]) -> Edit {
        let start = self.find(old, nth);
        Edit { start, end: start + old.len(), bytes: new.to_vec() }
    }

    /// A place of the base written otherwise.
    fn instead(&mut self, old: &str, nth: usize, new: &str) {
        let edit = self.replace(old, nth, new.as_bytes());
        self.case(format!("{new:?} instead of {old:?}"), vec![edit]);
    }

    /// The content of the `nth` element of a name made another.
    fn content(&mut self, name: &str, nth: usize, new: &[u8]) {
        let open = format!("<{name}>");
        let start = self.find(&open, nth) + open.len();
        let length = self.base[start..].iter().position(|&byte| byte == b'<').unwrap();
        let what = format!("{name} {nth} with {:?}", String::from_utf8_lossy(new));
        self.case(what, vec![Edit { start, end: start + length, bytes: new.to_vec() }]);
    }

    fn contents(&mut self, name: &str, nth: usize, news: &[&str]) {
        for new in news {
            self.content(name, nth, new.as_bytes());
        }
    }

    /// Every byte of a part of the base changed, left out, or doubled.
    fn every_byte(&mut self, random: &mut Random, step: usize) {
        for place in (0..self.base.len()).step_by(step) {
            let old = self.base[place];
            let new = random.pick(&[old ^ 1, old ^ 32, old.wrapping_add(1), old.wrapping_sub(1), 0, b' ', b'0', 255]);
            let replaced = Edit { start: place, end: place + 1, bytes: vec![new] };
            let left_out = Edit { start: place, end: place + 1, bytes: Vec::new() };
            let doubled = Edit { start: place, end: place, bytes: vec![old] };
            for edit in [replaced, left_out, doubled] {
                self.case("a byte changed, left out or doubled", vec![edit]);
            }
        }
    }

    /// Every tag of the base left out, doubled, with a letter changed, or with its slash put in or taken out.
    fn every_tag(&mut self) {
        let places: Vec<usize> = (0..self.base.len()).filter(|&place| self.base[place] == b'<').collect();
        for start in places {
            let length = self.base[start..].iter().position(|&byte| byte == b'>').unwrap() + 1;
            let end = start + length;
            let tag = String::from_utf8(self.base[start..end].to_vec()).unwrap();
            let misspelt = tag.replace('e', "f").replace('D', "d");
            let turned = if tag.starts_with("</") { tag.replace("</", "<") } else { tag.replace('<', "</") };
            for (what, new) in
                [("left out", String::new()), ("doubled", tag.repeat(2)), ("misspelt", misspelt), ("turned", turned)]
            {
                self.case(format!("{tag} {what}"), vec![Edit { start, end, bytes: new.into_bytes() }]);
            }
        }
    }

    fn cut(&mut self, step: usize) {
        let length = self.base.len();
        for start in (0..length).step_by(step).chain([length - 1]) {
            self.case(format!("only the first {start} bytes"), vec![Edit { start, end: length, bytes: Vec::new() }]);
        }
        for bytes in [&b"\n"[..], b" ", b"\0", b"<", b"</", &self.base.clone()] {
            let edit = Edit { start: length, end: length, bytes: bytes.to_vec() };
            self.case(format!("{} bytes after the end", bytes.len()), vec![edit]);
        }
        let declaration = b"<?xml version=\"1.0\"?>".to_vec();
        for bytes in [b" ".to_vec(), b"\xef\xbb\xbf".to_vec(), declaration] {
            let what = format!("{} bytes before the start", bytes.len());
            self.case(what, vec![Edit { start: 0, end: 0, bytes }]);
        }
    }
}

const COUNTERS: &[&str] = &[
    "",
    "0",
    "00",
    "01",
    "1",
    "2",
    "3",
    "4",
    "5",
    "+1",
    "-1",
    " 1",
    "1 ",
    "1.0",
    "257",
    "65537",
    "4294967297",
    "18446744073709551617",
    "36893488147419103234",
    "0000000000000000000000001",
    "1000000000000000000000001",
    "a",
];

fn case_f_group(random: &mut Random) -> ReadGroup {
    let mut group = ReadGroup::new(crate::examples::CASE_F_FILE.as_bytes().to_vec());
    group.lent();
    let spoilt = group.replace("KWT", 0, b"KWt");
    group.cases.push(ReadCase { what: "13 before 10".into(), rows_length: 0, edits: vec![spoilt] });
    for id in ids() {
        group.content("TransactionID", 0, &id);
    }
    for moment in moments() {
        group.content("MessageCreateDateTime", 0, &moment);
    }
    let receivers = ["", "000000000", "00000000007", "000000000a", "9999999999", " 000000007", "+000000007"];
    group.contents("ReceiverID", 0, &receivers);
    group.contents("SupplierEnterpriseNumber", 0, &receivers);
    group.contents("SupplierEnterpriseNumber", 0, &["000000000000000003"]);
    for name in ["SupplierCounter", "DirectionCounter", "ObservationCounter"] {
        group.contents(name, 0, COUNTERS);
    }
    group.contents("SupplyDirection", 0, &["Injection", "Offtake", "off-take", "Off-take ", "", "Injectio", "0"]);
    group.contents("DeliveryDirection", 0, &["DeliveryDown", "Deliveryup", "DeliveryUpp", "Up", "", "Delivery"]);
    group.contents("UnitType", 0, &["KWh", "KW", "KWTT", "", "MWT"]);
    group.contents("PeriodResolution", 0, &["PT60M", "PT15", "PT15MM", "", "PT1H"]);
    group.contents("Position", 0, &["0", "00", "01", "", "2", "3", "1a", "+1", " 1", "18446744073709551617"]);
    group.contents(
        "Position",
        1,
        &["1", "0", "02", "3", "9", "10", "999", "2879", "2880", "2881", "9999", "4294967298", "18446744073709551618"],
    );
    for nth in 0..2 {
        group.contents(
            "Quantity",
            nth,
            &[
                "0.000",
                "0.001",
                "0.999",
                "1.000",
                "00.001",
                "01.000",
                "00.000",
                ".500",
                "2",
                "2.",
                "2.5",
                "2.50",
                "2.5000",
                "2,500",
                "-2.500",
                "+2.500",
                " 2.500",
                "2.500 ",
                "2.5 0",
                "2 .500",
                "2.-50",
                "2..500",
                "2.500.0",
                "999999999.999",
                "999999999.9999",
                "1000000000.000",
                "1000000000.001",
                "9999999999.999",
                "4294967298.500",
                "18446744073709551.616",
                "18446744073709551618.500",
                "",
                ".",
                "a.500",
                "2.50a",
                "2.5e3",
            ],
        );
    }
    periods(&mut group);
    forms(&mut group);
    group.cut(100);
    group.every_tag();
    group.every_byte(random, 1);
    group
}

/// The period of a file of June 2021 written otherwise.
fn periods(group: &mut ReadGroup) {
    let starts = [
        "2021-06-01T00:00:00.000+01:00",
        "2021-06-01T00:00:00.000+03:00",
        "2021-06-02T00:00:00.000+02:00",
        "2021-06-16T00:00:00.000+02:00",
        "2021-06-01T00:00:00.001+02:00",
        "2021-06-01T00:00:01.000+02:00",
        "2021-06-01T01:00:00.000+02:00",
        "2021-05-01T00:00:00.000+02:00",
        "2021-07-01T00:00:00.000+02:00",
        "2020-06-01T00:00:00.000+02:00",
        "2021-06-01T00:00:00.000Z",
        "2021-06-01",
        "",
    ];
    group.contents("PeriodStart", 0, &starts);
    let ends = [
        "2021-07-01T00:00:00.000+01:00",
        "2021-06-30T00:00:00.000+02:00",
        "2021-06-16T00:00:00.000+02:00",
        "2021-07-01T00:00:00.001+02:00",
        "2021-06-01T00:00:00.000+02:00",
        "2021-08-01T00:00:00.000+02:00",
        "2022-07-01T00:00:00.000+02:00",
        "",
    ];
    group.contents("PeriodEnd", 0, &ends);
    let both = [
        ("2018-01-01T00:00:00.000+01:00", "2018-02-01T00:00:00.000+01:00"),
        ("2017-12-01T00:00:00.000+01:00", "2018-01-01T00:00:00.000+01:00"),
        ("2017-06-01T00:00:00.000+02:00", "2017-07-01T00:00:00.000+02:00"),
        ("2099-12-01T00:00:00.000+01:00", "2100-01-01T00:00:00.000+01:00"),
        ("2100-01-01T00:00:00.000+01:00", "2100-02-01T00:00:00.000+01:00"),
        ("2021-03-01T00:00:00.000+01:00", "2021-04-01T00:00:00.000+02:00"),
        ("2021-03-01T00:00:00.000+02:00", "2021-04-01T00:00:00.000+02:00"),
        ("2021-03-01T00:00:00.000+01:00", "2021-04-01T00:00:00.000+01:00"),
        ("2021-10-01T00:00:00.000+02:00", "2021-11-01T00:00:00.000+01:00"),
        ("2021-10-01T00:00:00.000+02:00", "2021-11-01T00:00:00.000+02:00"),
        ("2021-10-01T00:00:00.000+01:00", "2021-11-01T00:00:00.000+01:00"),
        ("2021-12-01T00:00:00.000+01:00", "2022-01-01T00:00:00.000+01:00"),
        ("2021-12-01T00:00:00.000+01:00", "2021-01-01T00:00:00.000+01:00"),
        ("2021-12-01T00:00:00.000+01:00", "2021-13-01T00:00:00.000+01:00"),
        ("2021-13-01T00:00:00.000+01:00", "2022-01-01T00:00:00.000+01:00"),
        ("2021-00-01T00:00:00.000+01:00", "2021-01-01T00:00:00.000+01:00"),
        ("2021-06-01T00:00:00.000+02:00", "2021-08-01T00:00:00.000+02:00"),
    ];
    for (start, end) in both {
        let edits = vec![
            group.replace("2021-06-01T00:00:00.000+02:00", 0, start.as_bytes()),
            group.replace("2021-07-01T00:00:00.000+02:00", 0, end.as_bytes()),
        ];
        group.case(format!("period {start} to {end}"), edits);
    }
}

/// The same to an XML reader, or nearly, but not a file of our form.
fn forms(group: &mut ReadGroup) {
    group.instead("<Position>", 0, "<Position >");
    group.instead("<Position>", 0, "<position>");
    group.instead("<Position>", 0, "<Position>\n");
    group.instead("<Position>", 0, "<Position a=\"1\">");
    group.instead("</Position>", 0, "</Position >");
    group.instead("</Position>", 0, "<Position>");
    group.instead("</Position><Quantity>", 0, "</Position> <Quantity>");
    group.instead("</Position><Quantity>", 0, "</Position><!-- --><Quantity>");
    group.instead("2.500", 0, "2.5&#48;0");
    group.instead("<Observation>", 0, "<Observation><Observation>");
    group.instead("</Observation>", 1, "");
    group.instead(
        "<Position>1</Position><Quantity>2.500</Quantity>",
        0,
        "<Quantity>2.500</Quantity><Position>1</Position>",
    );
    group.instead("<Position>1</Position>", 0, "");
    group.instead("<Quantity>2.500</Quantity>", 0, "");
    group.instead("<Quantity>2.500</Quantity>", 0, "<Quantity/>");
    group.instead("<UnitType>KWT</UnitType>", 0, "");
    group.instead("<TransactionID>T-1</TransactionID>", 0, "");
    group.instead("<TransactionID>T-1</TransactionID>", 0, "<TransactionID/>");
    group.instead("<ReceiverID>0000000007</ReceiverID>", 0, "");
    let observation = "<Observation><Position>2</Position><Quantity>2.500</Quantity></Observation>";
    group.instead(observation, 0, "");
    group.instead(observation, 0, &observation.repeat(2));
    group.instead("<Observation><Position>1</Position><Quantity>2.500</Quantity></Observation>", 0, "");
    let edits =
        vec![group.replace("<ObservationCounter>2", 0, b"<ObservationCounter>1"), group.replace(observation, 0, b"")];
    group.case("one observation and its counter", edits);
    let edits = vec![
        group.replace("<ObservationCounter>2", 0, b"<ObservationCounter>3"),
        group.replace(observation, 0, observation.repeat(2).as_bytes()),
    ];
    group.case("a position twice, and the counter", edits);
    let edits = vec![
        group.replace("<ObservationCounter>2", 0, b"<ObservationCounter>3"),
        group.replace(observation, 0, (observation.to_string() + &observation.replace('2', "3")).as_bytes()),
    ];
    group.case("a third observation, and the counter", edits);
    let from = group.find("<Observation>", 0);
    let to = group.find("</TimeSeriesPeriod>", 0);
    let edits = vec![
        group.replace("<ObservationCounter>2", 0, b"<ObservationCounter>0"),
        Edit { start: from, end: to, bytes: Vec::new() },
    ];
    group.case("no observation, and the counter 0", edits);
    let from = group.find("<ToETimeSeries>", 0);
    let to = group.find("</SupplierSeries>", 0);
    let edits = vec![
        group.replace("<DirectionCounter>1", 0, b"<DirectionCounter>0"),
        Edit { start: from, end: to, bytes: Vec::new() },
    ];
    group.case("no time series, and the counter 0", edits);
    let series = group.base[from..to].to_vec();
    let edits = vec![
        group.replace("<DirectionCounter>1", 0, b"<DirectionCounter>2"),
        Edit { start: to, end: to, bytes: series.clone() },
    ];
    group.case("a time series twice, and the counter", edits);
    let down = String::from_utf8(series).unwrap().replace("DeliveryUp", "DeliveryDown").into_bytes();
    let edits = vec![
        group.replace("<DirectionCounter>1", 0, b"<DirectionCounter>2"),
        Edit { start: to, end: to, bytes: down.clone() },
    ];
    group.case("a second time series, and the counter", edits);
    let edits = vec![
        group.replace("<DirectionCounter>1", 0, b"<DirectionCounter>2"),
        Edit { start: from, end: from, bytes: down },
    ];
    group.case("down before up", edits);
    let from = group.find("<SupplierSeries>", 0);
    let to = group.find("</AggregatedToEVolumesForFSP>", 0);
    let edits = vec![
        group.replace("<SupplierCounter>1", 0, b"<SupplierCounter>0"),
        Edit { start: from, end: to, bytes: Vec::new() },
    ];
    group.case("no partner, and the counter 0", edits);
    let edits = vec![Edit { start: from, end: to, bytes: Vec::new() }];
    group.case("no partner, the counter 1", edits);
    let partner = String::from_utf8(group.base[from..to].to_vec()).unwrap();
    for (what, number, before) in [
        ("a partner twice", "0000000003", false),
        ("a higher partner after", "0000000004", false),
        ("a lower partner after", "0000000002", false),
        ("a lower partner before", "0000000002", true),
    ] {
        let bytes = partner.replace("0000000003", number).into_bytes();
        let place = if before { from } else { to };
        let edits = vec![
            group.replace("<SupplierCounter>1", 0, b"<SupplierCounter>2"),
            Edit { start: place, end: place, bytes },
        ];
        group.case(format!("{what}, and the counter"), edits);
    }
    for (what, old, new) in [
        ("another month", "2021-06-01T00:00:00.000+02:00", "2021-05-01T00:00:00.000+02:00"),
        ("a month of another year", "2021-", "2022-"),
    ] {
        let mut other = partner.replace("0000000003", "0000000004");
        if what == "another month" {
            other = other.replace("2021-07-01T00:00:00.000+02:00", "2021-06-01T00:00:00.000+02:00");
            other = other.replacen(old, new, 1);
        } else {
            other = other.replace(old, new);
        }
        let edits = vec![
            group.replace("<SupplierCounter>1", 0, b"<SupplierCounter>2"),
            Edit { start: to, end: to, bytes: other.into_bytes() },
        ];
        group.case(format!("a second partner with {what}"), edits);
    }
    for root in ["AggregatedToEVolumesForSupplier", "IndividualToEVolumesForSupplier", "Other"] {
        let name = "AggregatedToEVolumesForFSP";
        let both = vec![group.replace(name, 0, root.as_bytes()), group.replace(name, 1, root.as_bytes())];
        group.case(format!("root {root}"), both);
        let start = vec![group.replace(name, 0, root.as_bytes())];
        group.case(format!("root {root} at the start"), start);
        let end = vec![group.replace(name, 1, root.as_bytes())];
        group.case(format!("root {root} at the end"), end);
    }
}

fn empty_group(kind: u8) -> ReadGroup {
    let mut group = ReadGroup::of_rows(kind, 0, 0, &[]);
    group.lent();
    let counter = crate::message::names(kind).counter;
    group.contents(counter, 0, COUNTERS);
    group.contents("ReceiverID", 0, &["", "9999999999", "00000000000"]);
    group.cut(60);
    group.changes = true;
    group
}

/// One partner, one series, one observation.
fn one_group(kind: u8) -> ReadGroup {
    let mut group = ReadGroup::of_rows(kind, 2021, 6, &[[3, 1, 1, 2880, 12_345, 0]]);
    group.lent();
    group.every_tag();
    let names = crate::message::names(kind);
    for name in [names.counter, "DirectionCounter", "ObservationCounter"] {
        group.contents(name, 0, COUNTERS);
    }
    group.contents("SupplyDirection", 0, &["Off-take", "Injection", "injection", ""]);
    group.contents("DeliveryDirection", 0, &["DeliveryUp", "DeliveryDown", "deliveryDown", ""]);
    group.contents("Position", 0, &["0", "1", "2880", "2881", "02880", ""]);
    group.contents(
        "Quantity",
        0,
        &["0.000", "0.001", "12.34", "12.3456", "012.345", "999999999.999", "1000000000.000"],
    );
    group.changes = kind == 3;
    group
}

/// Several partners, supplies and directions.
fn full_group(kind: u8, random: &mut Random) -> ReadGroup {
    let mut rows = vec![[3, 0, 0, 5, 1, 0], [3, 0, 0, 6, 2, 0], [3, 0, 1, 5, 3, 0]];
    if kind != 3 {
        rows.extend([[3, 1, 0, 1, 4, 0], [3, 1, 1, 2688, 5, 0]]);
    }
    rows.extend([[12, 1, 0, 7, 123_456, 0], [12, 1, 1, 7, 999_999_999_999, 0]]);
    let mut group = ReadGroup::of_rows(kind, 2024, 2, &rows);
    group.lent();
    let names = crate::message::names(kind);
    group.contents(names.counter, 0, &["0", "1", "2", "3", "02"]);
    for nth in 0..2 {
        group.contents("DirectionCounter", nth, &["0", "1", "2", "3", "4", "5"]);
        group.contents(names.partner, nth, &["0000000002", "0000000003", "0000000012", "0000000013"]);
        group.contents(names.partner, nth, &["000000000000000002", "000000000000000003", "000000000000000012"]);
        group.contents(names.partner, nth, &["0000000000000000013", "999999999999999999", "00000000000000000x"]);
        group.contents("SupplyDirection", nth, &["Off-take", "Injection", ""]);
        group.contents("DeliveryDirection", nth, &["DeliveryUp", "DeliveryDown"]);
        group.contents("ObservationCounter", nth, &["0", "1", "2", "3"]);
        group.contents("Position", nth, &["5", "6", "7", "2784", "2785", "0"]);
    }
    for nth in 0..3 {
        group.contents("PeriodStart", nth, &["2024-01-01T00:00:00.000+01:00", "2023-02-01T00:00:00.000+01:00"]);
        group.contents("PeriodEnd", nth, &["2024-03-01T00:00:00.000+02:00", "2023-03-01T00:00:00.000+01:00"]);
    }
    let before = group.find(&format!("<{}>", names.series), 0);
    let between = group.find(&format!("<{}>", names.series), 1);
    let after = group.find(&format!("</{}>", names.root), 0);
    let (first, second) = (group.base[before..between].to_vec(), group.base[between..after].to_vec());
    group.case(
        "partners swapped",
        vec![Edit { start: before, end: after, bytes: [second.clone(), first.clone()].concat() }],
    );
    group.case("the first partner left out", vec![Edit { start: before, end: between, bytes: Vec::new() }]);
    group.case("the first partner twice", vec![Edit { start: before, end: before, bytes: first }]);
    let counter = group.replace(&format!("<{}>2", names.counter), 0, format!("<{}>1", names.counter).as_bytes());
    group.case(
        "the first partner left out, and the counter",
        vec![counter, Edit { start: before, end: between, bytes: Vec::new() }],
    );
    let from = group.find("<ToETimeSeries>", 0);
    let middle = group.find("<ToETimeSeries>", 1);
    let series = group.base[from..middle].to_vec();
    group.case("the first time series left out", vec![Edit { start: from, end: middle, bytes: Vec::new() }]);
    let directions = if kind == 3 { 2 } else { 4 };
    let counter = group.replace(
        &format!("<DirectionCounter>{directions}"),
        0,
        format!("<DirectionCounter>{}", directions - 1).as_bytes(),
    );
    group.case(
        "the first time series left out, and the counter",
        vec![counter, Edit { start: from, end: middle, bytes: Vec::new() }],
    );
    let end = group.find("</ToETimeSeries>", 1) + "</ToETimeSeries>".len();
    let swapped = [group.base[middle..end].to_vec(), series].concat();
    group.case("the first two time series swapped", vec![Edit { start: from, end, bytes: swapped }]);
    if kind == 3 {
        let edit =
            group.replace("<DeliveryDirection>", 0, b"<SupplyDirection>Off-take</SupplyDirection><DeliveryDirection>");
        group.case("a supply direction in the time series too", vec![edit]);
        let supply = group.replace("<SupplyDirection>Off-take</SupplyDirection>", 0, b"");
        group.case("no supply direction", vec![supply]);
        let second = group.find("<SDPSupply>000000000000000012", 0);
        let same = Edit { start: second + 11, end: second + 29, bytes: b"000000000000000003".to_vec() };
        group.case("an EAN twice, with two supply directions", vec![same]);
        let same = Edit { start: second + 11, end: second + 29, bytes: b"000000000000000003".to_vec() };
        let supply = group.replace("<SupplyDirection>Injection", 0, b"<SupplyDirection>Off-take");
        group.case("an EAN twice, with one supply direction", vec![same, supply]);
    }
    group.every_byte(random, 13);
    group
}

/// Counters of two and three digits.
fn many_group(kind: u8) -> ReadGroup {
    let mut rows: Vec<[u64; 6]> = (0..11).map(|i| [100 + i, 1, 0, 1 + i, 1 + i, 0]).collect();
    rows.extend((0..100).map(|i| [200, 0, 1, 1 + 7 * i, 1000 * i + 1, 0]));
    let mut group = ReadGroup::of_rows(kind, 2099, 12, &rows);
    group.lent();
    let counter = crate::message::names(kind).counter;
    group.contents(counter, 0, &["11", "12", "13", "012", "1", "2", "120"]);
    group.contents("ObservationCounter", 11, &["99", "100", "101", "0100", "10", "1000", "0"]);
    group.contents("Position", 110, &["686", "687", "688", "694", "2976", "2977"]);
    group
}

/// Files of March and October, which have a quarter-hour behind the clock change.
fn clock_change_group(kind: u8, month: i64) -> ReadGroup {
    let mut group = ReadGroup::of_rows(kind, 2021, month, &[[3, 0, 0, 1, 7, 0], [3, 0, 0, 2700, 8, 0]]);
    group.lent();
    for position in CLOCK_CHANGE_POSITIONS {
        group.content("Position", 1, position.to_string().as_bytes());
    }
    group
}

/// The last position of each month of a year, and of some others.
fn month_groups() -> Vec<ReadGroup> {
    let mut groups = Vec::new();
    let months = (1..=12).map(|month| (2023, month)).chain([(2018, 1), (2024, 2), (2098, 2), (2099, 12)]);
    for (year, month) in months {
        let last = last_position(year, month);
        let mut group = ReadGroup::of_rows(2, year, month, &[[3, 0, 0, last, 1, 0]]);
        group.case(format!("{year}-{month:02}, position {last}"), Vec::new());
        group.content("Position", 0, (last + 1).to_string().as_bytes());
        for (name, end) in [("<PeriodStart>", "start"), ("<PeriodEnd>", "end")] {
            let place = group.find(name, 0) + name.len() + 25;
            let other = if group.base[place] == b'1' { b'2' } else { b'1' };
            let what = format!("{year}-{month:02}, the other offset at the {end}");
            group.case(what, vec![Edit { start: place, end: place + 1, bytes: vec![other] }]);
        }
        groups.push(group);
    }
    groups
}

fn random_group(random: &mut Random) -> ReadGroup {
    let case = random_file(random);
    let file =
        write(case.kind, case.receiver, case.year, case.month, &case.numbers, &case.id, &case.moment, LONG_ENOUGH);
    let mut group = ReadGroup::new(file.unwrap());
    group.lent();
    for _ in 0..10 {
        let place = random.range(0, group.base.len() as i64 - 1) as usize;
        let byte = random.pick(b"0123456789<>/.-+: TabcDU");
        let end = place + random.range(0, 1) as usize;
        group.case("a random byte put in", vec![Edit { start: place, end, bytes: vec![byte] }]);
    }
    // Digits are where a damaged file may still be a file.
    let digits: Vec<usize> = (0..group.base.len()).filter(|&place| group.base[place].is_ascii_digit()).collect();
    for _ in 0..20 {
        let place = random.pick(&digits);
        let byte = random.pick(b"0123456789");
        group.case("a digit changed", vec![Edit { start: place, end: place + 1, bytes: vec![byte] }]);
    }
    group
}
