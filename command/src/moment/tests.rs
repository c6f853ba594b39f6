use super::Moment;
use trail::Time;

/// Every day from 1970 to the end of 2101, counted one by one with the lengths of the months written out.
#[test]
fn every_day_has_its_number() {
    let mut count = 0;
    for year in 1970..=2101 {
        let leap = year % 4 == 0 && year != 2100;
        let february = if leap { 29 } else { 28 };
        let lengths = [31, february, 31, 30, 31, 30, 31, 31, 30, 31, 30, 31];
        for (month, length) in (1..).zip(lengths) {
            for day in 1..=length {
                let text = format!("{year}-{month:02}-{day:02}");
                let moment = Moment::parse(&text).unwrap();
                assert_eq!(moment.hundredths(), count * 8_640_000, "{text}");
                assert_eq!(moment.to_string(), format!("{text}T00:00:00.00"));
                assert_eq!(moment.may_start(), year <= 2099, "{text}");
                count += 1;
            }
            let past_the_end = format!("{year}-{month:02}-{:02}", length + 1);
            assert_eq!(Moment::parse(&past_the_end), None, "{past_the_end}");
        }
    }
    assert_eq!(count, 132 * 365 + 32);
}

#[test]
fn each_form_is_read() {
    let whole = |text: &str| Moment::parse(text).map(|moment| moment.to_string());
    for (text, moment) in [
        ("2026-11-17", "2026-11-17T00:00:00.00"),
        ("2026-11-17T19:20", "2026-11-17T19:20:00.00"),
        ("2026-11-17 19:20", "2026-11-17T19:20:00.00"),
        ("2026-11-17T19:20:45", "2026-11-17T19:20:45.00"),
        ("2026-11-17T19:20:45.12", "2026-11-17T19:20:45.12"),
        ("2000-02-29 23:59:59.99", "2000-02-29T23:59:59.99"),
    ] {
        assert_eq!(whole(text).as_deref(), Some(moment), "{text}");
    }
}

#[test]
fn what_is_no_moment_is_not_read() {
    for text in [
        "",
        "2026",
        "2026-11",
        "2026-11-17T",
        "2026-11-17T19",
        "2026-11-17T19:20:4",
        "2026-11-17T19:20:45.1",
        "2026-11-17T19:20:45.123",
        "2026-11-17T19:20:45,12",
        "2026-11-17t19:20",
        "2026-11-17T19:20Z",
        "2026-1-17T19:20:45",
        "2026-11-17T24:00",
        "2026-11-17T19:60",
        "2026-11-17T19:20:60",
        "2026-00-17",
        "2026-13-17",
        "2026-11-00",
        "2100-02-29",
        "1969-12-31",
        "+026-11-17",
        "2026-11-1é",
    ] {
        assert_eq!(Moment::parse(text), None, "{text}");
    }
}

#[test]
fn times_lead_on_from_a_moment() {
    let start = Moment::parse("2099-12-31T23:59:59.99").unwrap();
    assert!(start.may_start());
    let last = start.plus(Time(u32::MAX));
    assert_eq!(last.to_string(), "2101-05-13T02:27:52.94");
    assert_eq!(last.since(start), i64::from(u32::MAX));
    assert_eq!(start.since(last), -i64::from(u32::MAX));
    assert_eq!(Moment::parse(&last.to_string()), Some(last));
}

#[test]
fn a_start_lies_in_its_years() {
    let last = Moment::parse("2099-12-31T23:59:59.99").unwrap();
    assert_eq!(Moment::start_from_hundredths(last.hundredths()), Some(last));
    assert_eq!(Moment::start_from_hundredths(last.hundredths() + 1), None);
    assert_eq!(Moment::start_from_hundredths(-1), None);
    assert_eq!(Moment::start_from_hundredths(i64::MIN), None);
}
