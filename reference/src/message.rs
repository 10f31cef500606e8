//! The file: its text, writing from rows, and reading.

use crate::calendar::{Date, digits, is_moment, is_transaction_id, last_position, offset_hours};
use crate::refusal::{Refusal, refused};

/// "six u64 a row: partner, supply, delivery direction, position, watts, 0".
#[derive(Clone, Copy, Debug, PartialEq, Eq)]
pub struct FileRow {
    pub partner: u64,
    pub supply: u64,
    pub direction: u64,
    pub position: u64,
    pub watts: u64,
    pub last: u64,
}

impl FileRow {
    pub fn numbers(&self) -> [u64; 6] {
        [self.partner, self.supply, self.direction, self.position, self.watts, self.last]
    }

    fn from_numbers(six: &[u64]) -> FileRow {
        FileRow { partner: six[0], supply: six[1], direction: six[2], position: six[3], watts: six[4], last: six[5] }
    }
}

/// The names that differ by kind.
pub struct Names {
    pub root: &'static str,
    pub counter: &'static str,
    pub series: &'static str,
    pub partner: &'static str,
    pub partner_digits: usize,
}

pub fn names(kind: u8) -> Names {
    match kind {
        1 => Names {
            root: "AggregatedToEVolumesForFSP",
            counter: "SupplierCounter",
            series: "SupplierSeries",
            partner: "SupplierEnterpriseNumber",
            partner_digits: 10,
        },
        2 => Names {
            root: "AggregatedToEVolumesForSupplier",
            counter: "FSPCounter",
            series: "FspSeries",
            partner: "FSPEnterpriseNumber",
            partner_digits: 10,
        },
        3 => Names {
            root: "IndividualToEVolumesForSupplier",
            counter: "SDPSupplyCounter",
            series: "SDPSupplySeries",
            partner: "SDPSupply",
            partner_digits: 18,
        },
        _ => panic!("no kind {kind}"),
    }
}

const SUPPLIES: [&str; 2] = ["Off-take", "Injection"];
const DIRECTIONS: [&str; 2] = ["DeliveryUp", "DeliveryDown"];

fn element(name: &str, content: &str) -> String {
    format!("<{name}>{content}</{name}>")
}

/// The rows split where the key changes.
fn groups<K: PartialEq>(rows: &[FileRow], key: impl Fn(&FileRow) -> K) -> Vec<&[FileRow]> {
    rows.chunk_by(|a, b| key(a) == key(b)).collect()
}

/// Midnight of the first of a month, with its own offset.
fn period_moment(year: i64, month: i64) -> String {
    format!("{year:04}-{month:02}-01T00:00:00.000+0{}:00", offset_hours(Date::new(year, month, 1)))
}

fn next_month(year: i64, month: i64) -> (i64, i64) {
    if month == 12 { (year + 1, 1) } else { (year, month + 1) }
}

/// The file of good rows: "Elements as in case F, no white space".
pub fn file_text(
    kind: u8,
    receiver: u64,
    year: i64,
    month: i64,
    rows: &[FileRow],
    id: &[u8],
    moment: &[u8],
) -> Vec<u8> {
    let names = names(kind);
    let partners = groups(rows, |row| row.partner);
    let mut text = String::new();
    text += &element("TransactionID", std::str::from_utf8(id).unwrap());
    text += &element("MessageCreateDateTime", std::str::from_utf8(moment).unwrap());
    text += &element("ReceiverID", &format!("{receiver:010}"));
    text += &element(names.counter, &partners.len().to_string());
    for partner in partners {
        text += &element(names.series, &partner_text(kind, year, month, partner));
    }
    element(names.root, &text).into_bytes()
}

/// A partner's series. In kind 3 the supply direction stands with the partner, else with the time series.
fn partner_text(kind: u8, year: i64, month: i64, rows: &[FileRow]) -> String {
    let names = names(kind);
    let series = groups(rows, |row| (row.supply, row.direction));
    let supply = |rows: &[FileRow]| element("SupplyDirection", SUPPLIES[rows[0].supply as usize]);
    let mut text = element(names.partner, &format!("{:0width$}", rows[0].partner, width = names.partner_digits));
    if kind == 3 {
        text += &supply(rows);
    }
    text += &element("DirectionCounter", &series.len().to_string());
    for rows in series {
        let before = if kind == 3 { String::new() } else { supply(rows) };
        text += &element("ToETimeSeries", &(before + &time_series_text(year, month, rows)));
    }
    text
}

fn time_series_text(year: i64, month: i64, rows: &[FileRow]) -> String {
    let (next_year, next) = next_month(year, month);
    let mut period = String::new();
    period += &element("PeriodStart", &period_moment(year, month));
    period += &element("PeriodEnd", &period_moment(next_year, next));
    period += &element("PeriodResolution", "PT15M");
    for row in rows {
        let position = element("Position", &row.position.to_string());
        let quantity = element("Quantity", &format!("{}.{:03}", row.watts / 1000, row.watts % 1000));
        period += &element("Observation", &(position + &quantity));
    }
    element("DeliveryDirection", DIRECTIONS[rows[0].direction as usize])
        + &element("UnitType", "KWT")
        + &element("ObservationCounter", &rows.len().to_string())
        + &element("TimeSeriesPeriod", &period)
}

/// Writing from rows. "Writing from rows: 12 for the kind, 13, 12 for ID or moment, 10 with item 1."
#[allow(clippy::too_many_arguments)]
pub fn write(
    kind: u8,
    receiver: u64,
    year: u64,
    month: u64,
    numbers: &[u64],
    id: &[u8],
    moment: &[u8],
    file_length: usize,
) -> Result<Vec<u8>, Refusal> {
    if !(1..=3).contains(&kind) {
        return refused(12, 0);
    }
    if !good_rows(kind, receiver, year, month, numbers) {
        return refused(13, 0);
    }
    if !is_transaction_id(id) || !is_moment(moment) {
        return refused(12, 0);
    }
    let rows: Vec<FileRow> = numbers.chunks(6).map(FileRow::from_numbers).collect();
    let file = file_text(kind, receiver, year as i64, month as i64, &rows, id, moment);
    if file_length < file.len() {
        return refused(10, 1);
    }
    Ok(file)
}

/// "rows, receiver, year or month that no file has give 13, as does a length that isn't six numbers a row";
/// "writing from no rows takes these two [year 0 and month 0] and no others".
pub fn good_rows(kind: u8, receiver: u64, year: u64, month: u64, numbers: &[u64]) -> bool {
    if receiver >= 10u64.pow(10) || !numbers.len().is_multiple_of(6) {
        return false;
    }
    if numbers.is_empty() {
        return year == 0 && month == 0;
    }
    if !(2018..=2099).contains(&year) || !(1..=12).contains(&month) {
        return false;
    }
    let partner_limit = 10u64.pow(names(kind).partner_digits as u32);
    let positions = last_position(year as i64, month as i64);
    let rows: Vec<FileRow> = numbers.chunks(6).map(FileRow::from_numbers).collect();
    let good_row = |row: &FileRow| {
        row.partner < partner_limit
            && row.supply <= 1
            && row.direction <= 1
            && (1..=positions).contains(&row.position)
            && (1..=999_999_999_999).contains(&row.watts)
            && row.last == 0
    };
    let rises = |a: &FileRow, b: &FileRow| {
        (a.partner, a.supply, a.direction, a.position) < (b.partner, b.supply, b.direction, b.position)
    };
    let one_supply = |a: &FileRow, b: &FileRow| kind != 3 || a.partner != b.partner || a.supply == b.supply;
    rows.iter().all(good_row) && rows.windows(2).all(|pair| rises(&pair[0], &pair[1]) && one_supply(&pair[0], &pair[1]))
}

/// What the reader gives of an accepted file. Places count from the file's first byte.
#[derive(Clone, Debug, PartialEq, Eq)]
pub struct FileRead {
    pub kind: u8,
    pub receiver: u64,
    pub year: u64,
    pub month: u64,
    pub id: std::ops::Range<usize>,
    pub moment: std::ops::Range<usize>,
    pub numbers: Vec<u64>,
}

/// The reader. "Reader: 13, 10 with item 0."
pub fn read(file: &[u8], rows_length: usize) -> Result<FileRead, Refusal> {
    let read = match read_file(file) {
        None => return refused(13, 0),
        Some(read) => read,
    };
    if rows_length < read.numbers.len() {
        return refused(10, 0);
    }
    Ok(read)
}

/// The rest of the file, from a place on. Every step is none if the file doesn't go on as it must.
struct Reader<'a> {
    file: &'a [u8],
    place: usize,
}

impl<'a> Reader<'a> {
    fn text(&mut self, text: &str) -> Option<()> {
        let rest = &self.file[self.place..];
        if rest.starts_with(text.as_bytes()) {
            self.place += text.len();
            Some(())
        } else {
            None
        }
    }

    fn comes(&self, text: &str) -> bool {
        self.file[self.place..].starts_with(text.as_bytes())
    }

    fn open(&mut self, name: &str) -> Option<()> {
        self.text(&format!("<{name}>"))
    }

    fn close(&mut self, name: &str) -> Option<()> {
        self.text(&format!("</{name}>"))
    }

    /// The place of an element's content, up to the next `<`.
    fn content(&mut self, name: &str) -> Option<std::ops::Range<usize>> {
        self.open(name)?;
        let start = self.place;
        let length = self.file[start..].iter().position(|&byte| byte == b'<')?;
        self.place += length;
        self.close(name)?;
        Some(start..start + length)
    }

    /// An element's content as text; `None` also if it isn't ASCII.
    fn word(&mut self, name: &str) -> Option<&'a str> {
        let place = self.content(name)?;
        let content = &self.file[place];
        if content.is_ascii() { std::str::from_utf8(content).ok() } else { None }
    }

    /// Exactly so many digits.
    fn digits(&mut self, name: &str, count: usize) -> Option<u64> {
        let word = self.word(name)?;
        if word.len() == count && word.bytes().all(|byte| byte.is_ascii_digit()) { word.parse().ok() } else { None }
    }

    /// A whole number without leading zero, "a lone 0 is allowed".
    fn number(&mut self, name: &str) -> Option<u64> {
        plain_number(self.word(name)?)
    }

    /// Kilowatts with three decimals, in watts.
    fn quantity(&mut self) -> Option<u64> {
        let (whole, decimals) = self.word("Quantity")?.split_once('.')?;
        let kilowatts = plain_number(whole)?;
        if kilowatts >= 1_000_000_000 || decimals.len() != 3 || !decimals.bytes().all(|byte| byte.is_ascii_digit()) {
            return None;
        }
        let watts = 1000 * kilowatts + decimals.parse::<u64>().ok()?;
        if watts > 0 { Some(watts) } else { None }
    }

    /// One of two words, as 0 or 1.
    fn choice(&mut self, name: &str, words: [&str; 2]) -> Option<u64> {
        let word = self.word(name)?;
        words.iter().position(|&choice| choice == word).map(|index| index as u64)
    }
}

fn plain_number(word: &str) -> Option<u64> {
    let plain =
        !word.is_empty() && word.bytes().all(|byte| byte.is_ascii_digit()) && (word == "0" || !word.starts_with('0'));
    if plain { word.parse().ok() } else { None }
}

fn read_file(file: &[u8]) -> Option<FileRead> {
    let kind = (1..=3u8).find(|&kind| file.starts_with(format!("<{}>", names(kind).root).as_bytes()))?;
    let names = names(kind);
    let mut reader = Reader { file, place: 0 };
    reader.open(names.root)?;
    let id = reader.content("TransactionID")?;
    let moment = reader.content("MessageCreateDateTime")?;
    if !is_transaction_id(&file[id.clone()]) || !is_moment(&file[moment.clone()]) {
        return None;
    }
    let receiver = reader.digits("ReceiverID", 10)?;
    let counter = reader.number(names.counter)?;
    let mut month: Option<(u64, u64)> = None;
    let mut rows: Vec<FileRow> = Vec::new();
    let mut partners: Vec<u64> = Vec::new();
    while !reader.comes("</") {
        let partner = read_partner(&mut reader, kind, &mut month, &mut rows)?;
        if partners.last().is_some_and(|&last| last >= partner) {
            return None;
        }
        partners.push(partner);
    }
    reader.close(names.root)?;
    if reader.place != file.len() || counter != partners.len() as u64 {
        return None;
    }
    let (year, month) = month.unwrap_or((0, 0));
    let numbers = rows.iter().flat_map(FileRow::numbers).collect();
    Some(FileRead { kind, receiver, year, month, id, moment, numbers })
}

/// One partner with its series; gives the partner.
fn read_partner(reader: &mut Reader, kind: u8, month: &mut Option<(u64, u64)>, rows: &mut Vec<FileRow>) -> Option<u64> {
    let names = names(kind);
    reader.open(names.series)?;
    let partner = reader.digits(names.partner, names.partner_digits)?;
    let partner_supply = if kind == 3 { reader.choice("SupplyDirection", SUPPLIES)? } else { 0 };
    let counter = reader.number("DirectionCounter")?;
    let mut series: Vec<(u64, u64)> = Vec::new();
    while !reader.comes("</") {
        reader.open("ToETimeSeries")?;
        let supply = if kind == 3 { partner_supply } else { reader.choice("SupplyDirection", SUPPLIES)? };
        let direction = reader.choice("DeliveryDirection", DIRECTIONS)?;
        if series.last().is_some_and(|&last| last >= (supply, direction)) {
            return None;
        }
        series.push((supply, direction));
        for (position, watts) in read_time_series(reader, month)? {
            rows.push(FileRow { partner, supply, direction, position, watts, last: 0 });
        }
        reader.close("ToETimeSeries")?;
    }
    reader.close(names.series)?;
    // A partner without a series isn't written, so only the partner counter may be 0.
    if series.is_empty() || counter != series.len() as u64 {
        return None;
    }
    Some(partner)
}

/// From the unit on: the positions and watts of a series of the file's month.
fn read_time_series(reader: &mut Reader, month: &mut Option<(u64, u64)>) -> Option<Vec<(u64, u64)>> {
    if reader.word("UnitType")? != "KWT" {
        return None;
    }
    let counter = reader.number("ObservationCounter")?;
    reader.open("TimeSeriesPeriod")?;
    let (year, number) = read_period(reader)?;
    if month.is_some_and(|known| known != (year, number)) {
        return None;
    }
    *month = Some((year, number));
    if reader.word("PeriodResolution")? != "PT15M" {
        return None;
    }
    let positions = last_position(year as i64, number as i64);
    let mut observations: Vec<(u64, u64)> = Vec::new();
    while !reader.comes("</") {
        reader.open("Observation")?;
        let position = reader.number("Position")?;
        let watts = reader.quantity()?;
        reader.close("Observation")?;
        let last = observations.last().map_or(0, |&(last, _)| last);
        if position <= last || position > positions {
            return None;
        }
        observations.push((position, watts));
    }
    reader.close("TimeSeriesPeriod")?;
    if observations.is_empty() || counter != observations.len() as u64 {
        return None;
    }
    Some(observations)
}

/// "a whole month of 2018 to 2099", from its first to the next month's first, each with its own offset.
fn read_period(reader: &mut Reader) -> Option<(u64, u64)> {
    let start = reader.word("PeriodStart")?;
    let end = reader.word("PeriodEnd")?;
    let year = digits(start.get(0..4)?.as_bytes())?;
    let month = digits(start.get(5..7)?.as_bytes())?;
    if !(2018..=2099).contains(&year) || !(1..=12).contains(&month) {
        return None;
    }
    let (next_year, next) = next_month(year, month);
    if start == period_moment(year, month) && end == period_moment(next_year, next) {
        Some((year as u64, month as u64))
    } else {
        None
    }
}
