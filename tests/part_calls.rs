//! Every call of the wrapper examples/pod1.rs, with answers known from docs/SPECIFICATION.md. Run
//! by tests/part.sh.
#[path = "../examples/pod1.rs"]
mod pod1;

use pod1::{
    Account, Comparison, Floats, Hour, Parameters, Refusal, Row, Stretch, TextRefusal, Verdict,
};

const HEADER: &[u8] = b"0106016D000100010208"; // the evergreen's day 1
const HOUR: Hour = Hour {
    day: 1,
    hour: 0,
    water: 0,
    ozone: 500,
    ppfd: 0,
    radiation: 0,
    temperature: 230,
    vapour: 1000,
    wind: 300,
    soil: 1000,
};
const FLOATS: Floats = Floats {
    ozone: 500.0,
    ppfd: 0.0,
    radiation: 0.0,
    temperature: 230.0,
    vpd: 1000.0,
    wind: 300.0,
    soil: 1000.0,
};
#[rustfmt::skip]
const BEECH: Parameters = Parameters {
    gmax: 155, fmin: 13, lighta: 60, tmin: 5, topt: 16, tmax: 33, vpdmax: 1000, vpdmin: 3100,
    soilmax: 50, soilmin: 1250, leaf: 70, a: 0, e: 40, f1: 20, f4: 20, y: 1,
};

fn refused(row: Row) -> Refusal {
    Refusal { row, field: 0 }
}

/// The hour's line; at noon it is counted.
fn hour_line(hour: u8, ozone: u16) -> Vec<u8> {
    let light = if hour == 12 { 500 } else { 0 };
    let mut buffer = [0; pod1::FRAME];
    let hour = Hour { hour, ozone, ppfd: light, radiation: light * 4 / 5, ..HOUR };
    pod1::write_hour(hour, &mut buffer).unwrap().to_vec()
}

/// The text of a day with this ozone at noon.
fn day(ozone: u16) -> Vec<u8> {
    let hours = (0..24).map(|hour| hour_line(hour, if hour == 12 { ozone } else { 500 }));
    let lines: Vec<Vec<u8>> =
        [HEADER.to_vec()].into_iter().chain(hours).chain([b"030018".to_vec()]).collect();
    lines.join(&b'\n')
}

fn accounts() {
    let mut account = Account::fresh();
    assert_eq!(account.read().unwrap().verdict, Verdict::None);
    assert_eq!(account.feed(b"0104"), Err(refused(Row::Length)));
    for line in day(500).split(|&b| b == b'\n') {
        account.feed(line).unwrap();
    }
    let seen = account.read().unwrap();
    assert_eq!(
        (seen.hours, seen.counted, seen.missing, seen.least, seen.most, seen.lower, seen.upper),
        (24, 1, 0, 100, 100, 28655, 28656)
    );
    assert_eq!(seen.verdict, Verdict::Below);
    let mut buffer = [0; pod1::LINE];
    assert_eq!(account.line(&mut buffer).unwrap(), b"24 1 28655 28656 100 100 below\n");
    assert_eq!(account.line(&mut buffer[..30]), Err(refused(Row::Buffer)));
    assert_eq!(Account::from_bytes(*account.bytes()), Ok(account));
    assert_eq!(Account::from_bytes([9; pod1::ACCOUNT]), Err(refused(Row::Impossible)));
}

fn trials_and_floats() {
    let mut account = Account::fresh();
    account.feed(HEADER).unwrap();
    let trial = account.trial(&hour_line(0, 500)).unwrap();
    assert_eq!(
        (trial.answer, trial.reading.unwrap().hours, account.read().unwrap().hours),
        (Ok(()), 1, 0)
    );
    let mut by_floats = account.clone();
    assert_eq!(
        by_floats.feed_floats(1, 0, Floats { wind: 0.5, ..FLOATS }),
        Err(Refusal { row: Row::Float, field: 6 })
    );
    by_floats.feed_floats(1, 0, FLOATS).unwrap();
    account.take(&trial).unwrap();
    assert_eq!(account, by_floats);
    assert_eq!(account.take(&trial), Err(refused(Row::Tried)));
    assert_eq!(
        account.trial(b"0200010113890000000000E603E8012C03E8").unwrap().answer,
        Err(Refusal { row: Row::Range, field: 1 })
    );
}

fn lists() {
    let opened = |tree: u8| {
        let (mut account, mut buffer) = (Account::fresh(), [0; pod1::FRAME]);
        account.feed(pod1::write_header(tree, 365, 1, 60, 520, &mut buffer).unwrap()).unwrap();
        account
    };
    let mut stand: Vec<Account> = (3..=6).map(opened).collect();
    let mut alone = stand.clone();
    pod1::feed_all(&mut stand, &hour_line(0, 500)).unwrap();
    alone.iter_mut().for_each(|account| account.feed(&hour_line(0, 500)).unwrap());
    assert_eq!(stand, alone);
    assert_eq!(pod1::feed_all(&mut stand, HEADER), Err(refused(Row::Turn)));
    assert_eq!(pod1::feed_all(&mut [], HEADER), Err(refused(Row::ListSize)));
    assert_eq!(
        pod1::feed_all(&mut [opened(4), opened(2)], &hour_line(0, 500)),
        Err(refused(Row::UnlikeAccounts))
    );
}

fn texts() {
    let (first, second) = (day(500), day(520));
    let mut buffer = [0; pod1::REPORT];
    assert_eq!(
        pod1::report(&first, &mut buffer).unwrap(),
        b"24 1 28655 28656 100 100 below\n1 1 28655 28656 100 100\n"
    );
    assert_eq!(pod1::report(b"", &mut buffer).unwrap(), b"refused 11 line 1\n");
    let line = hour_line(12, 520);
    assert_eq!(
        pod1::compare(&first, &second, 19),
        Ok(Comparison { hours: 1, sum: 20, line: Some(&line) })
    );
    assert_eq!(
        pod1::compare(&first, &second, 20),
        Ok(Comparison { hours: 0, sum: 20, line: None })
    );
    assert_eq!(
        pod1::compare(&first, HEADER, 0),
        Err(TextRefusal { refusal: refused(Row::Count), text: 2, line: 2 })
    );
    let mut scratch = [1; pod1::scratch(366)];
    assert_eq!(
        pod1::worst_stretch(&first, 1, &mut scratch),
        Ok(Some(Stretch { sum: 100, day: 1 }))
    );
    assert_eq!(pod1::worst_stretch(&first, 366, &mut scratch), Ok(None));
    assert_eq!(scratch, [0; pod1::scratch(366)]);
    assert_eq!(
        pod1::worst_stretch(HEADER, 1, &mut scratch),
        Err(TextRefusal { refusal: refused(Row::Count), text: 1, line: 2 })
    );
    assert_eq!(
        pod1::worst_stretch(&first, 0, &mut scratch),
        Err(TextRefusal { refusal: refused(Row::Days), text: 0, line: 0 })
    );
}

fn writers() {
    let mut b = [0; pod1::FRAME];
    assert_eq!(pod1::write_header(6, 365, 1, 1, 520, &mut b).unwrap(), HEADER);
    assert_eq!(pod1::write_place(4, 365, 520, 600, 0, &mut b).unwrap(), b"0104016D007801150208");
    assert_eq!(pod1::write_place(4, 365, 520, 900, 0, &mut b), Err(refused(Row::Place)));
    assert_eq!(
        pod1::write_hour(Hour { temperature: -35, ozone: pod1::MISSING, ..HOUR }, &mut b).unwrap(),
        b"02000100FFFF00000000FFDD03E8012C03E8"
    );
    assert_eq!(
        pod1::write_hour_pressure(HOUR, 10132, &mut b).unwrap(),
        b"0400010001F40000000000E603E8012C03E82794"
    );
    assert_eq!(
        pod1::write_hour_pressure(HOUR, 4999, &mut b),
        Err(Refusal { row: Row::Range, field: 8 })
    );
    assert_eq!(
        pod1::write_hour_humidity(HOUR, &mut b).unwrap(),
        b"0500010001F40000000000E603E8012C03E8"
    );
    assert_eq!(pod1::write_end(24, &mut b).unwrap(), b"030018");
    assert_eq!(pod1::write_end(24, &mut b[..5]), Err(refused(Row::Buffer)));
    assert_eq!(pod1::write_ceiling(5000, &mut b).unwrap(), b"061388");
    assert_eq!(
        pod1::write_parameters(BEECH, &mut b).unwrap(),
        b"07009B000D003C00050010002103E80C1C003204E2004600000028001400140001"
    );
    assert_eq!(pod1::write_warmth(100, 100, 200, &mut b).unwrap(), b"080064006400C8");
    assert_eq!(pod1::write_warmth(100, 100, 150, &mut b), Err(refused(Row::Warmth)));
}

fn main() {
    for (i, row) in Row::ALL.into_iter().enumerate() {
        assert_eq!(row as usize, i + 1);
    }
    accounts();
    trials_and_floats();
    lists();
    texts();
    writers();
}
