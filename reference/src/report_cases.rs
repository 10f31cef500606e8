//! Cases for the sheet call, the file call and the program.

use crate::book::{Book, MISSING};
use crate::case_text::{hex_word, read_hex_word, read_sparse, write_sparse};
use crate::clock_cases::{CHANGES, Change};
use crate::examples::*;
use crate::message_cases::{ids, moments};
use crate::program;
use crate::random::Random;
use crate::series::file_call;
use crate::settle::ROW_WIDTH;
use crate::settle_cases::{random_book, random_plain_book, rows_text};
use crate::sheet::sheet;
use crate::split_cases;

const FILE_LONG_ENOUGH: usize = 65_536;
const ROWS_LONG_ENOUGH: usize = 8_192;

/// Six points, transfer and pass-through, of several companies and parties, with engagements up and down.
fn pool() -> Book {
    let mut book = june(3, 6, 3, 3);
    for (point, (supplier, fsp, situation, supply)) in
        [(3, 7, 0, 0), (3, 7, 0, 0), (3, 8, 0, 1), (4, 7, 0, 0), (3, 7, 1, 0), (3, 8, 1, 0)].into_iter().enumerate()
    {
        let row = &mut book.register[point];
        (row.supplier, row.fsp, row.situation, row.supply) = (supplier, fsp, situation, supply);
        (row.source_party, row.fsp_party) = (10 + supplier as u16, 20 + fsp as u16);
        for (day, watts) in [(0, 1000), (1, 1000), (2, 1001), (3, 900)] {
            read(&mut book, point, day, 40, &[watts, watts + point as i32, watts]);
        }
    }
    // The two pass-through points are of one access point.
    book.register[5].access_ean = book.register[4].access_ean;
    for point in 0..6 {
        engage(&mut book, point, 3, 40, 3, 0, 50);
        engage(&mut book, point, 4, 41, 1, 1, 50);
        read(&mut book, point as usize, 4, 41, &[1200]);
        read(&mut book, point as usize, 5, 40, &[100; 3]);
        engage(&mut book, point, 5, 40, 3, 0, 50);
    }
    book
}

/// Case two: 180 heat pumps of three suppliers and two providers, three reference days, baselines that end in a third of a watt.
pub fn heat_pumps() -> Book {
    let mut book = june(3, 180, 3, 3);
    for point in 0..180 {
        let row = &mut book.register[point];
        (row.supplier, row.fsp) = (3 + point as u64 % 3, 7 + point as u64 % 2);
        (row.source_party, row.fsp_party) = (11 + point as u16 % 3, 21 + point as u16 % 2);
        let more = point as i32 % 7;
        for (day, watts) in [(0, 1000), (1, 1000), (2, 1001), (3, 900)] {
            read(&mut book, point, day, 40, &[watts + more]);
        }
        engage(&mut book, point as u16, 3, 40, 1, 0, 150);
    }
    book
}

/// Four points, two of them of one access point and two of another, each with engagements on days of its own, up and down,
/// so that which days its baselines look at differs from point to point.
pub fn busy_pool() -> Book {
    let mut book = june(4, 4, 2, 3);
    for (point, (fsp, situation)) in [(7, 0), (8, 0), (7, 0), (8, 1)].into_iter().enumerate() {
        let row = &mut book.register[point];
        (row.fsp, row.situation, row.method) = (fsp, situation, 1 + point as u8 % 2);
        (row.source_party, row.fsp_party) = (11, 20 + fsp as u16);
        row.access_ean = 500 + point as u64 / 2;
        for day in 0..14 {
            let watts = 3000 + 10 * (day as i32 * 7 % 13) + point as i32;
            read(&mut book, point, day, 36, &[watts / 2; 12]);
            read(&mut book, point, day, 60, &[watts, watts + 1, watts + 3]);
        }
    }
    for (point, days) in
        [vec![4, 5, 6, 13], vec![8, 9, 11, 12], vec![5, 7, 9, 11, 13], vec![12, 13]].into_iter().enumerate()
    {
        for day in days {
            read(&mut book, point, day as usize, 60, &[2500, 2600, 2700]);
            engage(&mut book, point as u16, day, 60, 3, day % 5 / 4, 400);
        }
    }
    book
}

/// Half a watt at each of three positions, far apart: a watt at the second, half a watt never written.
fn slow() -> Book {
    let mut book = june(2, 1, 2, 2);
    for day in [2, 12, 30] {
        read(&mut book, 0, day - 1, 10, &[1]);
        read(&mut book, 0, day - 2, 10, &[0]);
        engage(&mut book, 0, day as u8, 10, 1, 0, 1);
    }
    book
}

/// C-12: delivery just before the clock-change day, in its first and last quarter-hours, just after it and in the month's last quarter-hour. Two
/// points of one access point, one of transfer and one of pass-through.
fn through_the_change(change: Change) -> Book {
    let mut book = month(change.year, change.month, change.lead_days, 2, 1, 1);
    book.register[1].access_ean = book.register[0].access_ean;
    book.register[1].situation = 1;
    let (day, length, last) = (change.day, change.length, book.days() - 1);
    for point in 0..2 {
        book.register[point].method = 0;
        read(&mut book, point, day - 1, 94, &[5000, 4000, 1000 + point as i32]);
        read(&mut book, point, day, length - 2, &[3500, 3000, 1000]);
        read(&mut book, point, last, 94, &[700]);
        for (day, first) in [(day - 1, 95), (day, 0), (day, length - 1), (day + 1, 0), (last, 95)] {
            engage(&mut book, point as u16, day as u8, first as u8, 1, 0, 100);
        }
    }
    book
}

pub struct SheetCase {
    pub what: String,
    pub party: u16,
    pub sheet_length: usize,
    pub bytes: Vec<u8>,
}

/// One case a line: `PARTY SHEET LENGTH OFFSET HEX ...`.
pub fn sheet_cases_text() -> String {
    let line = |case: &SheetCase| format!("{} {} {}\n", case.party, case.sheet_length, write_sparse(&case.bytes));
    sheet_cases().iter().map(line).collect()
}

/// `sheet COUNT` and a line `PLACE GRAINS` for each number that isn't zero, places from 0; or
/// `refused NUMBER ITEM`.
pub fn sheet_answers(text: &str) -> String {
    let mut output = String::new();
    for line in text.lines() {
        let words: Vec<&str> = line.split(' ').collect();
        match sheet(&read_sparse(&words[2..]), words[0].parse().unwrap(), words[1].parse().unwrap()) {
            Err(refusal) => output += &format!("refused {} {}\n", refusal.number, refusal.item),
            Ok(numbers) => {
                output += &format!("sheet {}\n", numbers.len());
                for (place, grains) in numbers.into_iter().enumerate().filter(|&(_, grains)| grains != 0) {
                    output += &format!("{place} {grains}\n");
                }
            }
        }
    }
    output
}

pub fn sheet_cases() -> Vec<SheetCase> {
    let mut cases = Vec::new();
    let mut add = |what: &str, party: u16, sheet_length: usize, book: &Book| {
        cases.push(SheetCase { what: what.to_string(), party, sheet_length, bytes: book.encode() });
    };
    let pool = pool();
    for party in [13, 14, 27, 28] {
        add("a party of the pool", party, 2880, &pool);
    }
    for party in [0, 12, 15, 26, 65535] {
        add("a party in neither column", party, 2880, &pool);
        add("11 before 10", party, 0, &pool);
    }
    for length in [0, 1, 2879, 2880, 2881] {
        add("lengths of the sheet", 13, length, &pool);
    }
    let changed = |book: &Book, change: &dyn Fn(&mut Book)| {
        let mut book = book.clone();
        change(&mut book);
        book.lay_out();
        book
    };
    let both = changed(&pool, &|book| {
        for row in &mut book.register {
            (row.source_party, row.fsp_party) = (9, 9);
        }
    });
    add("one party in both columns of all points", 9, 2880, &both);
    let both = changed(&pool, &|book| book.register[0].fsp_party = 13);
    add("one party in both columns of one point", 13, 2880, &both);
    add("the other party of the others", 27, 2880, &both);
    let idle = changed(&pool, &|book| {
        book.engagements.retain(|row| row.point != 3);
        book.register[3].source_party = 77;
    });
    add("a party without engagements", 77, 2880, &idle);
    let party_edges = changed(&case_f(), &|book| {
        (book.register[0].source_party, book.register[0].fsp_party) = (65535, 0);
    });
    add("source party 65535", 65535, 2880, &party_edges);
    add("FSP party 0", 0, 2880, &party_edges);
    add("neither", 255, 2880, &party_edges);
    for situation in 0..4 {
        let book = changed(&case_f(), &|book| book.register[0].situation = situation);
        add("all situations have corrections", 1, 2880, &book);
        add("all situations have corrections", 2, 2880, &book);
    }
    let mut last = june(1, 1, 1, 1);
    read(&mut last, 0, 29, 95, &[700]);
    engage(&mut last, 0, 30, 95, 1, 0, 10);
    add("the last quarter-hour of the month", 1, 2880, &last);
    let february = {
        let mut book = Book::plain(2024, 2, 1, 1);
        engage(&mut book, 0, 29, 95, 1, 1, 10);
        book
    };
    for length in [2783, 2784] {
        add("February of a leap year", 0, length, &february);
    }
    let missing = changed(&case_f(), &|book| book.readings[0][96 * 3] = MISSING);
    add("8 before 11", 99, 0, &missing);
    let few = changed(&case_f(), &|book| book.readings[0][0] = MISSING);
    add("9 before 11", 99, 0, &few);
    let bad = changed(&case_f(), &|book| book.engagements[0].zero = 1);
    add("7 before 11", 99, 0, &bad);
    let bad = changed(&case_f(), &|book| book.readings[0][96] = 1_000_000_001);
    add("6 before 11", 99, 0, &bad);
    let bad = changed(&case_f(), &|book| book.register[0].situation = 4);
    add("5 before 11", 99, 0, &bad);
    let bad = changed(&case_f(), &|book| book.choices[3].x = 11);
    add("4 before 11", 99, 0, &bad);
    let mut bad = case_f();
    bad.pairs[4].0 += 1;
    add("2 before 11", 99, 0, &bad);
    let bad = changed(&case_f(), &|book| book.version = 3);
    add("1 before 11", 99, 0, &bad);
    add("October passes", 0, 3000, &Book::plain(2021, 10, 1, 1));
    for party in [1, 2] {
        add("P7", party, 2880, &limited_down());
        add("P8", party, 2880, &above_baseline());
    }
    let busy = busy_pool();
    for party in [11, 27, 28] {
        add(&format!("engagements on several days, party {party}"), party, 2880, &busy);
    }
    let pumps = heat_pumps();
    for party in [11, 12, 13, 21, 22] {
        add(&format!("case two: 180 points, party {party}"), party, 2880, &pumps);
    }
    let mut random = Random::new(7);
    for _ in 0..60 {
        let book = random_plain_book(&mut random);
        let party = random.range(1, 3) as u16;
        add("random book", party, 96 * book.month_days(), &book);
    }
    for change in CHANGES {
        let book = through_the_change(change);
        let quarters = book.month_quarters();
        for (party, length) in [(1, quarters), (2, quarters), (1, quarters - 1), (1, 2976), (1, quarters + 1), (9, 0)] {
            add(&format!("{}, party {party}, {length} numbers lent", change.name()), party, length, &book);
        }
    }
    for change in [Change::new(2019, 4, 1, 0, 92), Change::new(2021, 11, 1, 0, 100)] {
        let mut book = change.book(0, 1, 1);
        read(&mut book, 0, 0, change.length - 1, &[900]);
        engage(&mut book, 0, 1, 0, 1, 0, 100);
        for length in [2879, 2880] {
            add(&format!("{}, {length} numbers lent", change.name()), 1, length, &book);
        }
    }
    let mut random = Random::new(14);
    for _ in 0..12 {
        let book = random_book(&mut random);
        let party = random.range(1, 3) as u16;
        add("random book of any month", party, book.month_quarters(), &book);
    }
    cases.extend(split_cases::sheet_cases());
    cases
}

pub struct FileCase {
    pub what: String,
    pub kind: u8,
    pub receiver: u64,
    pub rows_length: usize,
    pub file_length: usize,
    pub id: Vec<u8>,
    pub moment: Vec<u8>,
    pub bytes: Vec<u8>,
}

/// One case a line: `KIND RECEIVER ROWS FILE ID MOMENT LENGTH OFFSET HEX ...`.
pub fn file_cases_text() -> String {
    let mut text = String::new();
    for case in file_cases() {
        text += &format!("{} {} {} {}", case.kind, case.receiver, case.rows_length, case.file_length);
        text += &format!(" {} {} {}\n", hex_word(&case.id), hex_word(&case.moment), write_sparse(&case.bytes));
    }
    text
}

/// `file ROWS BYTES`, a line of five numbers for each settlement row and a line with the file's bytes; or
/// `refused NUMBER ITEM`.
pub fn file_answers(text: &str) -> String {
    let mut output = String::new();
    for line in text.lines() {
        let words: Vec<&str> = line.split(' ').collect();
        let number = |index: usize| words[index].parse::<u64>().unwrap();
        let (id, moment) = (read_hex_word(words[4]), read_hex_word(words[5]));
        let book = read_sparse(&words[6..]);
        let answer = file_call(&book, number(0) as u8, number(1), &id, &moment, number(2) as usize, number(3) as usize);
        match answer {
            Err(refusal) => output += &format!("refused {} {}\n", refusal.number, refusal.item),
            Ok(filed) => {
                output += &format!("file {} {}\n", filed.rows.len() / ROW_WIDTH, filed.file.len());
                output += &rows_text(&filed.rows);
                output += std::str::from_utf8(&filed.file).unwrap();
                output += "\n";
            }
        }
    }
    output
}

pub struct FileCases(Vec<FileCase>);

impl FileCases {
    pub fn add(&mut self, what: &str, kind: u8, receiver: u64, book: &Book) {
        self.changed(what, kind, receiver, book, |_| ());
    }

    pub fn changed(&mut self, what: &str, kind: u8, receiver: u64, book: &Book, change: impl FnOnce(&mut FileCase)) {
        let mut case = FileCase {
            what: what.to_string(),
            kind,
            receiver,
            rows_length: ROWS_LONG_ENOUGH,
            file_length: FILE_LONG_ENOUGH,
            id: CASE_F_ID.to_vec(),
            moment: CASE_F_MOMENT.to_vec(),
            bytes: book.encode(),
        };
        change(&mut case);
        self.0.push(case);
    }
}

pub fn file_cases() -> Vec<FileCase> {
    let mut cases = FileCases(Vec::new());
    let f = case_f();
    cases.add("case F", 1, 7, &f);
    cases.add("case F for the supplier", 2, 3, &f);
    cases.add("case F, kind 3: no series", 3, 3, &f);
    for situation in 1..4 {
        let mut book = f.clone();
        book.register[0].situation = situation;
        for (kind, receiver) in [(1, 7), (2, 3), (3, 3)] {
            cases.add(&format!("situation {situation}, kind {kind}"), kind, receiver, &book);
        }
    }
    for kind in [0, 4, 255] {
        cases.add(&format!("kind {kind}"), kind, 7, &f);
        cases.add(&format!("kind {kind}, receiver in no role: 12"), kind, 99, &f);
    }
    for (kind, receiver) in
        [(1, 3), (2, 7), (3, 7), (1, 8), (1, 0), (1, 10_000_000_007), (2, u64::MAX), (1, (1 << 32) + 7)]
    {
        cases.add("receiver not in its role", kind, receiver, &f);
    }
    cases.add("P5: 100, 100, 101", 1, 7, &thirds());
    cases.add("P6: one watt of two halves, by FSP", 1, 7, &halves());
    cases.add("P6: one watt of two halves, for the supplier", 2, 3, &halves());
    cases.add("P7: down", 1, 7, &limited_down());
    cases.add("P8: no watts, no series", 1, 7, &above_baseline());
    cases.add("watts carry over the month", 1, 7, &slow());
    let pool = pool();
    for (kind, receiver) in [(1, 7), (1, 8), (2, 3), (2, 4), (3, 3), (3, 4)] {
        cases.add(&format!("the pool, kind {kind}, receiver {receiver}"), kind, receiver, &pool);
    }
    let busy = busy_pool();
    for (kind, receiver) in [(1, 7), (1, 8), (2, 3), (3, 3)] {
        let what = format!("engagements on several days, kind {kind}, receiver {receiver}");
        cases.add(&what, kind, receiver, &busy);
    }
    let mut order = pool.clone();
    for (row, fsp) in order.register.iter_mut().zip([9, 300, 8, 70_000, 2, 1]) {
        row.fsp = fsp;
    }
    cases.add("partners rise, not the register", 2, 3, &order);
    let mut access = pool.clone();
    for (row, ean) in access.register.iter_mut().zip([99, 98, 97, 96, 500, 5]) {
        row.access_ean = ean;
        row.situation = 1;
    }
    cases.add("access points rise, not the register", 3, 3, &access);
    let mut zero = f.clone();
    (zero.register[0].supplier, zero.register[0].fsp) = (0, 9_999_999_999);
    cases.add("supplier 0, for FSP 9999999999", 1, 9_999_999_999, &zero);
    cases.add("supplier 0 receives", 2, 0, &zero);
    let mut same = f.clone();
    (same.register[0].supplier, same.register[0].fsp) = (7, 7);
    for kind in 1..=3 {
        cases.add("one company is supplier and FSP", kind, 7, &same);
    }
    let mut empty = f.clone();
    empty.engagements.clear();
    empty.lay_out();
    cases.add("no engagement", 1, 7, &empty);
    cases.changed("no engagement, no rows lent", 1, 7, &empty, |case| case.rows_length = 0);
    for (year, month) in [(2024, 2), (2023, 12), (2099, 12), (2018, 1), (2021, 4), (2021, 9)] {
        let mut book = Book::plain(year, month, 1, 1);
        book.register[0].largest_up = 5000;
        let last = book.days() - 1;
        read(&mut book, 0, last, 94, &[1234]);
        engage(&mut book, 0, last as u8, 95, 1, 0, 1);
        cases.add(&format!("{year}-{month:02}, the last position"), 1, 0, &book);
    }
    for id in ids() {
        cases.changed(&format!("ID {:?}", String::from_utf8_lossy(&id)), 1, 7, &empty, |case| case.id = id);
    }
    for moment in moments().into_iter().step_by(3) {
        let what = format!("moment {:?}", String::from_utf8_lossy(&moment));
        cases.changed(&what, 1, 7, &empty, |case| case.moment = moment);
    }
    let length = CASE_F_FILE.len();
    for (rows_length, file_length) in
        [(10, length), (9, length), (10, length - 1), (9, length - 1), (0, 0), (11, length + 1), (10, 0), (0, length)]
    {
        let what = format!("case F, {rows_length} numbers and {file_length} of {length} bytes lent");
        cases.changed(&what, 1, 7, &f, |case| (case.rows_length, case.file_length) = (rows_length, file_length));
    }
    order_of_refusals(&mut cases, &f);
    let pumps = heat_pumps();
    for (kind, receiver) in [(1, 7), (1, 8), (2, 3), (2, 4), (2, 5)] {
        cases.add(&format!("case two: 180 points, kind {kind}, receiver {receiver}"), kind, receiver, &pumps);
    }
    let mut random = Random::new(8);
    for number in 1..=50 {
        let book = random_plain_book(&mut random);
        let kind = random.range(1, 3) as u8;
        let receiver = random.range(1, 2) as u64;
        cases.add(&format!("random book {number}"), kind, receiver, &book);
    }
    clock_change_files(&mut cases);
    split_cases::file_cases(&mut cases);
    cases.0
}

/// C-12: positions behind the clock change, and the last of March and of October.
fn clock_change_files(cases: &mut FileCases) {
    for change in CHANGES {
        let book = through_the_change(change);
        for (kind, receiver) in [(1, 7), (2, 3), (3, 3)] {
            cases.add(&format!("{}, kind {kind}", change.name()), kind, receiver, &book);
        }
        let mut whole = change.book(0, 1, 1);
        engage(&mut whole, 0, change.day as u8, 0, change.length as u8, 0, 1);
        let rows = ROW_WIDTH * change.length;
        for rows_length in [rows - 1, rows] {
            let what = format!("{}, a whole day, {rows_length} of {rows} numbers lent", change.name());
            cases.changed(&what, 1, 7, &whole, |case| case.rows_length = rows_length);
        }
    }
    let mut random = Random::new(15);
    for number in 1..=12 {
        let book = random_book(&mut random);
        let kind = random.range(1, 3) as u8;
        let receiver = random.range(1, 2) as u64;
        cases.add(&format!("random book {number} of any month"), kind, receiver, &book);
    }
}

/// 9, 12 for the kind, 11, 12 for ID or moment, 10 with item 0, 10 with item 1: all bad from each on.
fn order_of_refusals(cases: &mut FileCases, book: &Book) {
    let mut few = book.clone();
    few.readings[0][0] = MISSING;
    let mut missing = few.clone();
    missing.readings[0][96 * 3] = MISSING;
    for from in 0..6 {
        let book = [&missing, &few, book][from.min(2)];
        let what = ["8", "9", "12 for the kind", "11", "12 for the ID", "10 item 0"][from];
        cases.changed(&format!("all bad from {what} on"), 1, 7, book, |case| {
            if from <= 2 {
                case.kind = 4;
            }
            if from <= 3 {
                case.receiver = 99;
            }
            if from <= 4 {
                case.id.clear();
            }
            (case.rows_length, case.file_length) = (0, 0);
        });
    }
    cases.changed("11 before 12 for the moment", 1, 99, book, |case| case.moment.clear());
    cases.changed("12 for the moment before 10", 1, 7, book, |case| {
        case.moment.clear();
        case.rows_length = 0;
    });
}

pub struct ProgramCase {
    pub what: String,
    pub input: Vec<u8>,
}

/// One case a line: `LENGTH OFFSET HEX ...`, the input's bytes.
pub fn program_cases_text() -> String {
    program_cases().iter().map(|case| write_sparse(&case.input) + "\n").collect()
}

/// What the program prints, with a line feed after a file too.
pub fn program_answers(text: &str) -> String {
    let mut output = String::new();
    for line in text.lines() {
        let words: Vec<&str> = line.split(' ').collect();
        let printed = String::from_utf8(program::output(&read_sparse(&words))).unwrap();
        output += printed.trim_end_matches('\n');
        output += "\n";
    }
    output
}

pub const LINE: &str = "01 0000000007 T-1 2021-08-02T09:00:00.000+02:00\n";

pub fn program_cases() -> Vec<ProgramCase> {
    let mut cases = Vec::new();
    let mut add = |what: String, line: &[u8], book: &[u8]| {
        cases.push(ProgramCase { what, input: [line, book].concat() });
    };
    let f = case_f().encode();
    add("case F".into(), LINE.as_bytes(), &f);
    for line in [
        "02 0000000003 T-1 2021-08-02T09:00:00.000+02:00\n",
        "03 0000000003 T-1 2021-08-02T09:00:00.000+02:00\n",
        "01 0000000003 T-1 2021-08-02T09:00:00.000+02:00\n",
        "00 0000000007 T-1 2021-08-02T09:00:00.000+02:00\n",
        "04 0000000007 T-1 2021-08-02T09:00:00.000+02:00\n",
        "1 0000000007 T-1 2021-08-02T09:00:00.000+02:00\n",
        "001 0000000007 T-1 2021-08-02T09:00:00.000+02:00\n",
        "11 0000000007 T-1 2021-08-02T09:00:00.000+02:00\n",
        "0a 0000000007 T-1 2021-08-02T09:00:00.000+02:00\n",
        "01 000000007 T-1 2021-08-02T09:00:00.000+02:00\n",
        "01 00000000007 T-1 2021-08-02T09:00:00.000+02:00\n",
        "01 000000000a T-1 2021-08-02T09:00:00.000+02:00\n",
        "01 +000000007 T-1 2021-08-02T09:00:00.000+02:00\n",
        "01 9999999999 T-1 2021-08-02T09:00:00.000+02:00\n",
        "01  0000000007 T-1 2021-08-02T09:00:00.000+02:00\n",
        "01 0000000007  T-1 2021-08-02T09:00:00.000+02:00\n",
        "01 0000000007 T-1  2021-08-02T09:00:00.000+02:00\n",
        " 01 0000000007 T-1 2021-08-02T09:00:00.000+02:00\n",
        "01 0000000007 T-1 2021-08-02T09:00:00.000+02:00 \n",
        "01 0000000007 T-1 2021-08-02T09:00:00.000+02:00\r\n",
        "01\t0000000007 T-1 2021-08-02T09:00:00.000+02:00\n",
        "01 0000000007\u{a0}T-1 2021-08-02T09:00:00.000+02:00\n",
        "01 0000000007 T-1 2021-08-02T09:00:00.000+02:00 x\n",
        "01 0000000007 T-1\n",
        "01 0000000007\n",
        "01\n",
        "\n",
        "01 0000000007  2021-08-02T09:00:00.000+02:00\n",
        "01 0000000007 T_1 2021-08-02T09:00:00.000+02:00\n",
        "01 0000000007 abcdefghijklmnopqrstuvwxyzABCDEFGHIJ 2021-08-02T09:00:00.000+02:00\n",
        "01 0000000007 abcdefghijklmnopqrstuvwxyzABCDEFGHIJK 2021-08-02T09:00:00.000+02:00\n",
        "01 0000000007 T-1 2021-02-29T09:00:00.000+02:00\n",
        "01 0000000007 T-1 2021-08-02T09:00:00.000+01:00\n",
        "01 0000000007 T-1 2021-08-02T24:00:00.000+02:00\n",
        "01 0000000007 T-1 2021-08-02T09:00:00.000+02:00",
        "01 0000000007 T-1 2021-08-02T09:00:00.000+02:0",
        "\n01 0000000007 T-1 2021-08-02T09:00:00.000+02:00\n",
    ] {
        add(format!("line {line:?}"), line.as_bytes(), &f);
    }
    add("no input".into(), b"", b"");
    add("a line feed alone".into(), b"\n", b"");
    add("a good line and nothing after it".into(), LINE.as_bytes(), b"");
    add("a good line without line feed and nothing after it".into(), LINE.trim_end().as_bytes(), b"");
    add("a bad line and nothing after it".into(), b"01\n", b"");
    for length in [1, 55, 56, f.len() - 1] {
        add(format!("the first {length} bytes of the book"), LINE.as_bytes(), &f[..length]);
    }
    add("a byte after the book".into(), LINE.as_bytes(), &[&f[..], &[0]].concat());
    let zeros = |length: usize| vec![0; length - LINE.len()];
    for length in [65_535, 65_536, 65_537, 65_538, 131_072] {
        add(format!("{length} bytes, zeros after the line"), LINE.as_bytes(), &zeros(length));
        let mut long = f.clone();
        long.resize(length - LINE.len(), 0);
        add(format!("{length} bytes, the book and zeros"), LINE.as_bytes(), &long);
    }
    let bad_line = LINE.replace("01 ", "09 ");
    add("65537 bytes after a bad line".into(), bad_line.as_bytes(), &zeros(65_537));
    add("65537 zeros".into(), b"", &[0; 65_537]);
    longest(&mut add);
    large_answers(&mut add);
    let mut random = Random::new(9);
    for number in 1..=20 {
        let book = random_plain_book(&mut random).encode();
        let kind = random.range(1, 3);
        let receiver = random.range(1, 3);
        let line = format!("{kind:02} {receiver:010} r-{number} 2024-02-29T23:59:59.999+01:00\n");
        add(format!("random book {number}"), line.as_bytes(), &book);
    }
    for change in CHANGES {
        let mut book = through_the_change(change);
        for line in [LINE, "03 0000000003 T-1 2021-08-02T09:00:00.000+02:00\n"] {
            add(format!("{}, {line:?}", change.name()), line.as_bytes(), &book.encode());
        }
        book.engagements[2].first += 1;
        add(format!("{}, a quarter-hour that its day hasn't", change.name()), LINE.as_bytes(), &book.encode());
        book.resize_readings(96 * book.days());
        add(format!("{}, 96 readings a day", change.name()), LINE.as_bytes(), &book.encode());
    }
    split_cases::program_cases(&mut add);
    cases
}

/// A good book that makes the input 65,536 bytes with an ID of 34, and one more with an ID of 35.
fn longest(add: &mut impl FnMut(String, &[u8], &[u8])) {
    let mut book = june(3, 5, 1, 1);
    for number in 0..105 {
        engage(&mut book, 0, 3 + number / 7, 10 * (number % 7), 1, 0, 1);
    }
    for id_length in [33, 34, 35] {
        let id = "i".repeat(id_length);
        let line = format!("01 0000000007 {id} 2021-08-02T09:00:00.000+02:00\n");
        let bytes = book.encode();
        add(format!("a good book, {} bytes in all", line.len() + bytes.len()), line.as_bytes(), &bytes);
    }
}

/// A point that delivers `watts` in quarter-hours 1 to 95 of some days.
pub fn steady(days: u8, watts: i32) -> Book {
    let mut book = june(1, 1, 1, 1);
    book.register[0].method = 0;
    for day in 1..=days {
        read(&mut book, 0, day as usize, 0, &[watts]);
        engage(&mut book, 0, day, 1, 95, 0, 1);
    }
    book
}

/// The rows buffer of 10,240 numbers and the file buffer of 65,536 bytes, each at both sides of its edge.
fn large_answers(add: &mut impl FnMut(String, &[u8], &[u8])) {
    for rows in [2047, 2048, 2049] {
        let mut book = steady(21, 0);
        engage(&mut book, 0, 22, 0, (rows - 21 * 95) as u8, 0, 1);
        add(format!("{rows} rows, no watts"), LINE.as_bytes(), &book.encode());
    }
    add("2090 rows, too long a file too".into(), LINE.as_bytes(), &steady(22, 1000).encode());
    add("1995 rows, too long a file".into(), LINE.as_bytes(), &steady(21, 1000).encode());
    for length in [65_535, 65_536, 65_537] {
        add(format!("a file of {length} bytes"), LINE.as_bytes(), &file_of_length(length).encode());
    }
}

/// A book whose file for case F's line has exactly this length: ten days, the ninth and tenth shortened by
/// observations of 77 and 78 bytes.
fn file_of_length(length: usize) -> Book {
    let mut book = steady(10, 1000);
    book.register[0].largest_up = 10_000;
    read(&mut book, 0, 10, 0, &[10_000]);
    let file_length = |book: &Book| {
        let filed = file_call(&book.encode(), 1, 7, CASE_F_ID, CASE_F_MOMENT, usize::MAX, usize::MAX);
        filed.unwrap().file.len()
    };
    let excess = file_length(&book) - length;
    for ninth in 0..95 {
        for tenth in 0..95 {
            if 77 * ninth + 78 * tenth == excess {
                book.engagements[8].count -= ninth as u8;
                book.engagements[9].count -= tenth as u8;
                assert_eq!(file_length(&book), length);
                return book;
            }
        }
    }
    panic!("no file of {length} bytes");
}
