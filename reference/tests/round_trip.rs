//! The reader against another one: a file is of our form if what can loosely be taken out of it, written
//! again, gives the same bytes.

use reference::message::{read, write};
use reference::message_cases::{random_file, read_case_files, read_cases_text, write_cases};
use reference::random::Random;

/// Takes names and contents as they come, without judging their order or number.
fn written_again(file: &[u8]) -> Option<Vec<u8>> {
    let text = std::str::from_utf8(file).ok()?;
    let (mut kind, mut receiver, mut year, mut month) = (0, 0, 0, 0);
    let (mut id, mut moment) = ("", "");
    let (mut partner, mut supply, mut direction, mut position) = (0, 0, 0, 0);
    let mut numbers = Vec::new();
    for part in text.split('<') {
        let (name, content) = part.split_once('>').unwrap_or((part, ""));
        match name {
            "AggregatedToEVolumesForFSP" => kind = 1,
            "AggregatedToEVolumesForSupplier" => kind = 2,
            "IndividualToEVolumesForSupplier" => kind = 3,
            "TransactionID" => id = content,
            "MessageCreateDateTime" => moment = content,
            "ReceiverID" => receiver = content.parse().ok()?,
            "SupplierEnterpriseNumber" | "FSPEnterpriseNumber" | "SDPSupply" => partner = content.parse().ok()?,
            "SupplyDirection" => supply = (content == "Injection") as u64,
            "DeliveryDirection" => direction = (content == "DeliveryDown") as u64,
            "PeriodStart" => {
                year = content.get(0..4)?.parse().ok()?;
                month = content.get(5..7)?.parse().ok()?;
            }
            "Position" => position = content.parse().ok()?,
            "Quantity" => {
                let watts = content.replace('.', "").parse().ok()?;
                numbers.extend([partner, supply, direction, position, watts, 0]);
            }
            _ => (),
        }
    }
    write(kind, receiver, year, month, &numbers, id.as_bytes(), moment.as_bytes(), usize::MAX).ok()
}

fn agree(file: &[u8]) -> bool {
    let accepted = read(file, usize::MAX);
    let same = written_again(file).is_some_and(|again| again == file);
    assert_eq!(accepted.is_ok(), same, "{}", String::from_utf8_lossy(file));
    if let Ok(read) = accepted {
        let (id, moment) = (&file[read.id], &file[read.moment]);
        let again = write(read.kind, read.receiver, read.year, read.month, &read.numbers, id, moment, file.len());
        assert_eq!(again.unwrap(), file);
    }
    same
}

#[test]
fn stored_files_are_read_as_they_are_written() {
    let files = read_case_files(&read_cases_text());
    let accepted = files.iter().filter(|file| agree(file)).count();
    assert!(accepted > 300 && accepted < files.len() - 300);
}

#[test]
fn written_rows_are_read_back() {
    for case in write_cases() {
        let written =
            write(case.kind, case.receiver, case.year, case.month, &case.numbers, &case.id, &case.moment, usize::MAX);
        if let Ok(file) = written {
            let read = read(&file, case.numbers.len()).unwrap();
            assert_eq!((read.kind, read.receiver), (case.kind, case.receiver));
            assert_eq!((read.year, read.month), (case.year, case.month));
            assert_eq!((&file[read.id], &file[read.moment]), (&case.id[..], &case.moment[..]));
            assert_eq!(read.numbers, case.numbers);
        }
    }
}

#[test]
fn random_damages_of_random_files() {
    let mut random = Random::new(5);
    let mut accepted = 0;
    for _ in 0..300 {
        let case = random_file(&mut random);
        let file =
            write(case.kind, case.receiver, case.year, case.month, &case.numbers, &case.id, &case.moment, usize::MAX)
                .unwrap();
        assert!(agree(&file));
        for _ in 0..200 {
            let mut damaged = file.clone();
            let place = random.range(0, file.len() as i64 - 1) as usize;
            let byte = random.pick(b"0123456789012345678901234567890123456789<>/.-+: TabcDU");
            match random.range(0, 5) {
                0 => damaged.insert(place, byte),
                1 => drop(damaged.remove(place)),
                _ => damaged[place] = byte,
            }
            accepted += agree(&damaged) as usize;
        }
    }
    assert!(accepted > 1000);
}

/// The two other kinds, element by element.
#[test]
fn toe02_and_toe03_by_hand() {
    let moment = b"2018-08-31T16:04:53.848+02:00";
    let rows = [4, 1, 1, 96, 12, 0];
    let file = write(2, 12, 2023, 12, &rows, b"a-B", moment, 2000).unwrap();
    let expected = "<AggregatedToEVolumesForSupplier><TransactionID>a-B</TransactionID><MessageCreateDateTime>2018-08-31T16:04:53.848+02:00</MessageCreateDateTime><ReceiverID>0000000012</ReceiverID><FSPCounter>1</FSPCounter><FspSeries><FSPEnterpriseNumber>0000000004</FSPEnterpriseNumber><DirectionCounter>1</DirectionCounter><ToETimeSeries><SupplyDirection>Injection</SupplyDirection><DeliveryDirection>DeliveryDown</DeliveryDirection><UnitType>KWT</UnitType><ObservationCounter>1</ObservationCounter><TimeSeriesPeriod><PeriodStart>2023-12-01T00:00:00.000+01:00</PeriodStart><PeriodEnd>2024-01-01T00:00:00.000+01:00</PeriodEnd><PeriodResolution>PT15M</PeriodResolution><Observation><Position>96</Position><Quantity>0.012</Quantity></Observation></TimeSeriesPeriod></ToETimeSeries></FspSeries></AggregatedToEVolumesForSupplier>";
    assert_eq!(String::from_utf8(file).unwrap(), expected);

    let rows = [54, 1, 0, 1, 1_000_000, 0, 54, 1, 1, 2, 1, 0];
    let file = write(3, 12, 2023, 3, &rows, b"a-B", moment, 2000).unwrap();
    let expected = "<IndividualToEVolumesForSupplier><TransactionID>a-B</TransactionID><MessageCreateDateTime>2018-08-31T16:04:53.848+02:00</MessageCreateDateTime><ReceiverID>0000000012</ReceiverID><SDPSupplyCounter>1</SDPSupplyCounter><SDPSupplySeries><SDPSupply>000000000000000054</SDPSupply><SupplyDirection>Injection</SupplyDirection><DirectionCounter>2</DirectionCounter><ToETimeSeries><DeliveryDirection>DeliveryUp</DeliveryDirection><UnitType>KWT</UnitType><ObservationCounter>1</ObservationCounter><TimeSeriesPeriod><PeriodStart>2023-03-01T00:00:00.000+01:00</PeriodStart><PeriodEnd>2023-04-01T00:00:00.000+02:00</PeriodEnd><PeriodResolution>PT15M</PeriodResolution><Observation><Position>1</Position><Quantity>1000.000</Quantity></Observation></TimeSeriesPeriod></ToETimeSeries><ToETimeSeries><DeliveryDirection>DeliveryDown</DeliveryDirection><UnitType>KWT</UnitType><ObservationCounter>1</ObservationCounter><TimeSeriesPeriod><PeriodStart>2023-03-01T00:00:00.000+01:00</PeriodStart><PeriodEnd>2023-04-01T00:00:00.000+02:00</PeriodEnd><PeriodResolution>PT15M</PeriodResolution><Observation><Position>2</Position><Quantity>0.001</Quantity></Observation></TimeSeriesPeriod></ToETimeSeries></SDPSupplySeries></IndividualToEVolumesForSupplier>";
    assert_eq!(String::from_utf8(file).unwrap(), expected);
}
