//! Demand 3 on random books of both versions: sheets sum to the requested volume, TOE01 and TOE02 agree, and every series
//! is rounded down once.

use reference::book::{Book, RegisterRow, decode};
use reference::message::read;
use reference::random::Random;
use reference::report_cases::{busy_pool, heat_pumps};
use reference::series::{file_call, series_grains};
use reference::settle::{GRAINS_PER_WATT, Quarter, settle_book};
use reference::settle_cases::random_book;
use reference::sheet::{parties, requested_volume, sheet};
use reference::split_cases::random_split_book;
use std::collections::{BTreeMap, BTreeSet};

/// Watts by (kind, receiver, partner, supply, direction, position), read from the written bytes.
type Watts = BTreeMap<(u8, u64, u64, u64, u64, u64), u64>;

fn all_files(book: &Book, bytes: &[u8]) -> Watts {
    let mut watts = Watts::new();
    for kind in 1..=3 {
        let receivers: BTreeSet<u64> =
            book.register.iter().map(|row| if kind == 1 { row.fsp } else { row.supplier }).collect();
        for receiver in receivers {
            let moment = b"2021-08-02T09:00:00.000+02:00";
            let filed = file_call(bytes, kind, receiver, b"T-1", moment, usize::MAX, usize::MAX).unwrap();
            let read = read(&filed.file, usize::MAX).unwrap();
            assert_eq!((read.kind, read.receiver), (kind, receiver));
            let month = if read.numbers.is_empty() { (0, 0) } else { (book.year as u64, book.month as u64) };
            assert_eq!((read.year, read.month), month);
            for six in read.numbers.chunks(6) {
                let place = (kind, receiver, six[0], six[1], six[2], six[3]);
                assert!(watts.insert(place, six[4]).is_none());
            }
        }
    }
    watts
}

/// Demand 3 of one accepted book.
fn holds(book: &Book, bytes: &[u8], quarters: &[Quarter]) {
    let positions = book.month_quarters();

    let mut sum = vec![0i128; positions];
    for party in parties(book) {
        for (place, grains) in sheet(bytes, party, positions).unwrap().into_iter().enumerate() {
            sum[place] += grains as i128;
        }
    }
    assert_eq!(sum, requested_volume(book, quarters));

    let watts = all_files(book, bytes);
    let pairs = |kind: u8| -> BTreeMap<(u64, u64, u64, u64, u64), u64> {
        let of_kind = watts.iter().filter(|(place, _)| place.0 == kind);
        of_kind
            .map(|(&(kind, receiver, partner, supply, direction, position), &watts)| {
                let (fsp, supplier) = if kind == 1 { (receiver, partner) } else { (partner, receiver) };
                ((fsp, supplier, supply, direction, position), watts)
            })
            .collect()
    };
    assert_eq!(pairs(1), pairs(2));

    for kind in 1..=3 {
        for receiver in 0..10 {
            for ((partner, supply, direction), grains) in series_grains(book, quarters, kind, receiver) {
                let (mut carried, mut exact) = (0, 0);
                for position in 1..=positions {
                    let place = (kind, receiver, partner, supply, direction, position as u64);
                    carried += watts.get(&place).copied().unwrap_or(0) as i128;
                    exact += grains[position - 1];
                    assert_eq!(carried, exact / GRAINS_PER_WATT);
                }
            }
        }
    }
}

#[test]
fn sheets_and_files_of_random_books() {
    let mut random = Random::new(6);
    let (mut accepted, mut several, mut clock_changes) = (0, 0, 0);
    for _ in 0..400 {
        let bytes = random_book(&mut random).encode();
        let book = decode(&bytes).unwrap();
        if let Ok(quarters) = settle_book(&book) {
            accepted += 1;
            several += several_days(&book) as usize;
            clock_changes += book.engagements.iter().any(|row| book.is_clock_change(row.day as usize)) as usize;
            holds(&book, &bytes, &quarters);
        }
    }
    assert!(accepted > 100 && several > 50 && clock_changes > 10);
}

/// C-14: "The sum over balance parties includes the new one": three columns, each party once.
#[test]
fn sheets_and_files_of_random_books_of_version_2() {
    let mut random = Random::new(16);
    let (mut accepted, mut shared, mut in_none, mut only_injection) = (0, 0, 0, 0);
    let mut split = [0; 4];
    for _ in 0..400 {
        let bytes = random_split_book(&mut random).encode();
        let book = decode(&bytes).unwrap();
        if let Ok(quarters) = settle_book(&book) {
            accepted += 1;
            let columns = |row: &RegisterRow| [row.source_party, row.fsp_party, row.injection_party];
            let all: BTreeSet<u16> = book.register.iter().flat_map(columns).collect();
            assert!(parties(&book).into_iter().eq(all.iter().copied()));
            shared += book.register.iter().any(|row| columns(row)[..2].contains(&row.injection_party)) as usize;
            in_none += !all.contains(&0) as usize;
            let others: BTreeSet<u16> =
                book.register.iter().flat_map(|row| [row.source_party, row.fsp_party]).collect();
            only_injection += (all != others) as usize;
            for quarter in &quarters {
                let parts = (quarter.source_correction != 0, quarter.injection_correction != 0);
                split[parts.0 as usize + 2 * parts.1 as usize] += 1;
            }
            holds(&book, &bytes, &quarters);
        }
    }
    assert!(accepted > 200 && shared > 50 && in_none > 50 && only_injection > 50);
    assert!(split.into_iter().all(|quarters| quarters > 30), "{split:?}");
}

/// A point has engagements on more than one day, so that the balance is over baselines that step over the earlier ones.
fn several_days(book: &Book) -> bool {
    book.engagements.windows(2).any(|two| two[0].point == two[1].point && two[0].day < two[1].day)
}

#[test]
fn sheets_and_files_of_engagements_on_several_days() {
    let book = busy_pool();
    assert!(several_days(&book));
    holds(&book, &book.encode(), &settle_book(&book).unwrap());
}

#[test]
fn sheets_and_files_of_case_two() {
    let book = heat_pumps();
    holds(&book, &book.encode(), &settle_book(&book).unwrap());
}
