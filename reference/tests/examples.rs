//! Document 01's checked examples, the six "wrong though natural" ways told apart, C-11's days, C-12's clock change and C-14's
//! two source parties.

use reference::book::{Book, MISSING, judge};
use reference::calendar::{MONTHS, last_position};
use reference::examples::*;
use reference::program;
use reference::refusal::Refusal;
use reference::series::{file_call, file_rows};
use reference::settle::{GRAINS_PER_WATT, ROW_WIDTH, settle, settle_book};
use reference::sheet::sheet;

const WATT: i64 = GRAINS_PER_WATT as i64;

fn rows(book: &Book) -> Vec<i64> {
    settle(&book.encode(), usize::MAX).unwrap()
}

fn refusal(book: &Book) -> (u8, u32) {
    let Refusal { number, item } = settle(&book.encode(), usize::MAX).unwrap_err();
    (number, item)
}

/// Position and watts of the rows of a file.
fn watts(book: &Book, kind: u8, receiver: u64) -> Vec<(u64, u64)> {
    let quarters = settle_book(book).unwrap();
    file_rows(book, &quarters, kind, receiver).iter().map(|row| (row.position, row.watts)).collect()
}

#[test]
fn case_f_p1_to_p3() {
    let rows = rows(&case_f());
    assert_eq!(rows[0], 9500 * WATT);
    assert_eq!(rows[5], 287_295_120);
    assert_eq!((rows[1], rows[6]), (75_600_000, 75_615_120));
    assert_eq!((rows[2], rows[7]), (75_600_000, 75_615_120));
    assert_eq!((rows[3], rows[8]), (15_120_000, 15_104_880));
    assert_eq!((rows[4], rows[9]), (0, 0));
}

#[test]
fn case_f_file() {
    let bytes = case_f().encode();
    let filed = file_call(&bytes, 1, 7, CASE_F_ID, CASE_F_MOMENT, 10, CASE_F_FILE.len()).unwrap();
    assert_eq!(filed.file, CASE_F_FILE.as_bytes());
    assert_eq!(filed.rows, settle(&bytes, 10).unwrap());

    let mut input = b"01 0000000007 T-1 2021-08-02T09:00:00.000+02:00\n".to_vec();
    input.extend(&bytes);
    assert_eq!(program::output(&input), CASE_F_FILE.as_bytes());
}

#[test]
fn p4_and_p5_thirds() {
    let rows = rows(&thirds());
    assert_eq!((rows[0], rows[5], rows[10]), (30_250_080, 30_250_080, 30_250_080));
    assert_eq!((rows[1], rows[6], rows[11]), (3_034_080, 3_034_080, 3_034_080));
    assert_eq!(watts(&thirds(), 1, 7), [(41, 100), (42, 100), (43, 101)]);
}

/// Told apart: rounding each point would give nothing.
#[test]
fn p6_halves() {
    let rows = rows(&halves());
    assert_eq!((rows[1], rows[6]), (15_120, 15_120));
    assert_eq!(watts(&halves(), 1, 7), [(11, 1)]);
    assert_eq!(watts(&halves(), 2, 3), [(11, 1)]);
}

#[test]
fn p7_limited_down() {
    assert_eq!(rows(&limited_down()), [5000 * WATT, 400 * WATT, -400 * WATT, -100 * WATT, 0]);
}

#[test]
fn p8_above_baseline() {
    assert_eq!(rows(&above_baseline()), [5000 * WATT, 0, 0, 500 * WATT, 0]);
}

#[test]
fn p9_tie() {
    let rows = rows(&tie());
    assert_eq!((rows[0], rows[5]), (5 * WATT, 2 * WATT));
}

/// Told apart: scaling by 6100 / 6000, and a window that ends at the start.
#[test]
fn p10_window() {
    let baseline = rows(&window())[0];
    assert_eq!(baseline, 4100 * WATT);
    assert_ne!(baseline, 4000 * WATT * 6100 / 6000);
    assert_ne!(baseline, (4000 + 9000 - 1000) * WATT);
}

/// Told apart: ranking quarter-hour by quarter-hour would give 100 and 60.
#[test]
fn days_are_ranked_by_sum() {
    let rows = rows(&ranked_by_sum());
    assert_eq!((rows[0], rows[5]), (60 * WATT, 60 * WATT));
}

/// Told apart: limiting delivery to the request would give 1,000.
#[test]
fn delivery_is_not_limited_to_the_request() {
    assert_eq!(rows(&above_request()), [3000 * WATT, 3000 * WATT, 3000 * WATT, -2000 * WATT, 0]);
}

/// Told apart: if other categories used up Y, there would be no eligible day.
#[test]
fn other_categories_do_not_use_up_y() {
    assert_eq!(rows(&other_categories())[0], 90 * WATT);
    let mut book = other_categories();
    book.register[0].excluded_days = 1;
    assert_eq!(refusal(&book), (9, 0));
}

/// C-11, told apart: if a day with an engagement counted, day 5 would have 90; by its access point, the other point's day 5 would have 80.
#[test]
fn days_with_an_engagement_are_stepped_over() {
    let rising = |y: u8| {
        let mut book = june(3, 2, 1, y);
        book.register[1].access_ean = book.register[0].access_ean;
        for (point, day) in (0..2).flat_map(|point| (0..6).map(move |day| (point, day))) {
            read(&mut book, point, day, 0, &[50 + 10 * day as i32; 96]);
        }
        engage(&mut book, 0, 4, 60, 1, 0, 100);
        engage(&mut book, 0, 5, 10, 1, 0, 100);
        engage(&mut book, 1, 5, 10, 1, 0, 100);
        book
    };
    let rows = rows(&rising(2));
    assert_eq!((rows[0], rows[5], rows[10]), (80 * WATT, 80 * WATT, 90 * WATT));
    assert!(settle(&rising(4).encode(), 15).is_ok());
    assert_eq!(refusal(&rising(5)), (9, 0));
    let mut alone = rising(5);
    alone.engagements.remove(0);
    alone.lay_out();
    assert!(settle(&alone.encode(), 10).is_ok());
}

#[test]
fn y_eligible_days_pass_and_one_less_gives_9() {
    let mut book = case_f();
    assert!(settle(&book.encode(), 10).is_ok());
    book.readings[0][1] = MISSING;
    assert_eq!(refusal(&book), (9, 0));
}

#[test]
fn first_and_count_96_pass_and_97_gives_7() {
    let mut book = case_f();
    book.engagements[0].first = 94;
    assert!(settle(&book.encode(), 10).is_ok());
    book.engagements[0].first = 95;
    assert_eq!(refusal(&book), (7, 0));
}

/// C-12: "an otherwise good March book now passes", and one of any other month.
#[test]
fn every_month_passes() {
    for year in 2018..=2099 {
        for (month, lead_days) in MONTHS.into_iter().flat_map(|month| [1, 5, 33].map(|lead_days| (month, lead_days))) {
            let book = Book::plain(year, month, lead_days, 1);
            assert_eq!(settle(&book.encode(), 0), Ok(Vec::new()));
            assert_eq!(book.month_quarters() as u64, last_position(year as i64, month as i64));
        }
    }
}

/// C-12, told apart: with the reading that quarter-hours 8 and 12 look at counted once, day 34 would be taken.
#[test]
fn a_reading_looked_at_twice_counts_twice() {
    let rows = rows(&looked_at_twice());
    let baselines: Vec<i64> = rows.chunks(ROW_WIDTH).map(|row| row[0] / WATT).collect();
    assert_eq!(baselines, [10, 0, 0, 0, 10]);
}

/// C-12: on a day of 92 "quarter-hours from 8 up look at the reference day's quarter-hour 4 later", so it may miss its 8 to 11.
#[test]
fn quarter_hour_8_of_a_day_of_92_looks_at_12() {
    let mut book = month(2021, 3, 1, 1, 1, 1);
    read(&mut book, 0, 27, 7, &[70, MISSING, MISSING, MISSING, MISSING, 500]);
    engage(&mut book, 0, 28, 7, 2, 0, 100);
    let baselines = rows(&book);
    assert_eq!((baselines[0], baselines[5]), (70 * WATT, 500 * WATT));
    read(&mut book, 0, 27, 12, &[MISSING]);
    read(&mut book, 0, 26, 12, &[600]);
    assert_eq!(rows(&book)[5], 600 * WATT);
}

/// C-12: the own window of 29 March 2021 counts the quarter-hours that passed, 68 to 79 of the 28th; that of the 27th has 72 to 83 of the 26th.
#[test]
fn own_window_over_the_day_of_92() {
    let mut book = month(2021, 3, 1, 1, 1, 1);
    book.register[0].method = 2;
    read(&mut book, 0, 28, 0, &[1000; 92]);
    read(&mut book, 0, 28, 68, &[120; 12]);
    read(&mut book, 0, 26, 0, &[1000; 96]);
    read(&mut book, 0, 26, 72, &[20; 12]);
    engage(&mut book, 0, 29, 0, 1, 0, 100);
    assert_eq!(rows(&book)[0], 100 * WATT);
}

/// C-12: day 0's window lies in the calendar from place 24 on: first 20 of a day of 92, first 28 of a day of 100.
#[test]
fn window_of_day_0_before_a_clock_change() {
    for (year, number, day, first) in [(2021, 3, 28, 20), (2021, 10, 31, 28)] {
        let mut book = month(year, number, 1, 1, 1, 1);
        book.register[0].method = 2;
        book.register[0].excluded_days = (1 << book.days()) - 2;
        engage(&mut book, 0, day, first, 1, 0, 100);
        assert!(settle(&book.encode(), 5).is_ok());
        book.engagements[0].first -= 1;
        assert_eq!(refusal(&book), (9, 0));
    }
}

/// C-12: 31 March 2019 is day 0 and has 92 quarter-hours.
#[test]
fn notice_before_a_day_of_92() {
    let mut book = month(2019, 4, 1, 1, 1, 1);
    book.register[0].method = 0;
    read(&mut book, 0, 0, 0, &[900]);
    engage(&mut book, 0, 1, 0, 1, 0, 100);
    book.engagements[0].notice = 91;
    assert_eq!(rows(&book)[0], 900 * WATT);
    for notice in 92..=96 {
        book.engagements[0].notice = notice;
        assert_eq!(refusal(&book), (8, 0));
    }
}

#[test]
fn buffers() {
    let bytes = case_f().encode();
    assert_eq!(settle(&bytes, 9), Err(Refusal { number: 10, item: 0 }));
    let call =
        |rows, file| file_call(&bytes, 1, 7, CASE_F_ID, CASE_F_MOMENT, rows, file).map_err(|r| (r.number, r.item));
    assert_eq!(call(9, 0), Err((10, 0)));
    assert_eq!(call(10, CASE_F_FILE.len() - 1), Err((10, 1)));
}

/// Delivered, off-take, FSP and injection correction of one quarter-hour, in watts.
fn corrections(version: u16, direction: u8, baseline: i32, reading: i32, limit: u32) -> [i64; 4] {
    let rows = rows(&one_quarter_hour(version, direction, baseline, reading, limit, 20));
    assert_eq!(rows[0], baseline as i64 * WATT);
    [1, 2, 3, 4].map(|column| rows[column] / WATT)
}

/// C-14: "Our rule" holds where the limit cuts, too; source document 000, 13.2.2, would give the injection party 3.
#[test]
fn the_off_take_party_comes_first_where_the_limit_cuts() {
    assert_eq!(corrections(2, 0, 9, -3, 10), [10, 9, 10, 1]);
    assert_eq!(corrections(1, 0, 9, -3, 10), [10, 10, 10, 0]);
}

/// The example of 000's annex 2.
#[test]
fn annex_2() {
    assert_eq!(corrections(2, 1, -9, 3, 10), [10, -3, -10, -7]);
    assert_eq!(corrections(1, 1, -9, 3, 10), [10, -10, -10, 0]);
}

/// Told apart: the split in version 1 too; the sign of the baseline alone; differences of numbers that aren't raised to 0.
#[test]
fn injection_less_injection_is_the_injection_partys() {
    assert_eq!(corrections(1, 0, -2, -5, 1000), [3, 3, 17, 0]);
    assert_eq!(corrections(2, 0, -2, -5, 1000), [3, 0, 17, 3]);
    assert_eq!(corrections(2, 0, 4, -5, 1000), [9, 4, 11, 5]);
    assert_eq!(corrections(2, 0, -4, 1, 1000), [0, 0, 20, 0]);
}

/// 000, 13.2.2, where no limit cuts: both off-take, both injection, and the two crossings, in which the party of what was
/// measured gets as much as was measured.
#[test]
fn four_cases_of_13_2_2() {
    for (direction, sign) in [(0, 1), (1, -1)] {
        for baseline in -12..=12 {
            for reading in -12..=12 {
                let less = sign * (baseline - reading) as i64;
                let volume = less.max(0);
                let (off_take, injection) = match (baseline >= 0, reading >= 0) {
                    _ if volume == 0 => (0, 0),
                    (true, true) => (volume, 0),
                    (false, false) => (0, volume),
                    (false, true) => (reading as i64, volume - reading as i64),
                    (true, false) => (volume + reading as i64, -reading as i64),
                };
                let expected = [volume, sign * off_take, sign * (20 - volume), sign * injection];
                assert_eq!(corrections(2, direction, baseline, reading, 1000), expected);
            }
        }
    }
}

/// "The injection party gets the rest": both parts are at least 0 and add up to the delivered volume, whatever the limit.
#[test]
fn the_two_parts_add_up() {
    for direction in 0..=1 {
        let sign = if direction == 0 { 1 } else { -1 };
        for (baseline, reading) in (-6..=6).flat_map(|baseline| (-6..=6).map(move |reading| (baseline, reading))) {
            for limit in 0..=13 {
                let [delivered, source, fsp, injection] = corrections(2, direction, baseline, reading, limit);
                assert!(sign * source >= 0 && sign * injection >= 0);
                assert_eq!(sign * (source + injection), delivered);
                assert_eq!(corrections(1, direction, baseline, reading, limit), [delivered, sign * delivered, fsp, 0]);
            }
        }
    }
}

/// Party 0 of a version 2 book is a party like any other; in version 1 bytes 56 and 57 name none.
#[test]
fn party_0() {
    let f = case_f();
    assert_eq!(sheet(&f.encode(), 0, 2880), Err(Refusal { number: 11, item: 0 }));
    let mut second = f.clone();
    second.version = 2;
    assert_eq!(sheet(&second.encode(), 0, 2880), Ok(vec![0; 2880]));
    assert_eq!(rows(&second), rows(&f));
}

/// A party in one, two or three columns has the sum of these.
#[test]
fn columns_of_a_party() {
    let first = |source: u16, fsp: u16, injection: u16| {
        let mut book = one_quarter_hour(2, 0, 9, -3, 10, 30);
        let row = &mut book.register[0];
        (row.source_party, row.fsp_party, row.injection_party) = (source, fsp, injection);
        sheet(&book.encode(), 5, 2880).map(|sums| sums[50] / WATT).map_err(|refusal| refusal.number)
    };
    let sums = [(5, 6, 7), (6, 5, 7), (6, 7, 5), (5, 5, 6), (5, 6, 5), (6, 5, 5), (5, 5, 5), (6, 7, 8)];
    let expected = [Ok(9), Ok(20), Ok(1), Ok(29), Ok(10), Ok(21), Ok(30), Err(11)];
    assert_eq!(sums.map(|(source, fsp, injection)| first(source, fsp, injection)), expected);
}

/// Bytes 56 and 57, low byte first, from version 2 on; the other seven of the nine, and in version 1 all, are zero.
#[test]
fn nine_bytes() {
    for (version, byte) in (1..=2).flat_map(|version| (55..64).map(move |byte| (version, byte))) {
        let mut book = june(1, 2, 1, 1);
        book.version = version;
        let mut bytes = book.encode();
        bytes[book.pairs[2].0 as usize + 64 + byte] = 3;
        let party = version == 2 && (byte == 56 || byte == 57);
        assert_eq!(judge(&bytes), if party { None } else { Some((5, 1)) });
        if party {
            let (named, exchanged) = if byte == 56 { (3, 3 << 8) } else { (3 << 8, 3) };
            assert!(sheet(&bytes, named, 2880).is_ok());
            assert_eq!(sheet(&bytes, exchanged, 2880), Err(Refusal { number: 11, item: 0 }));
        }
    }
}

#[test]
fn versions() {
    for version in 0..=u16::MAX {
        let mut book = june(1, 1, 1, 1);
        book.version = version;
        let passes = version == 1 || version == 2;
        assert_eq!(judge(&book.encode()), if passes { None } else { Some((1, 0)) });
    }
}
