//! What the types add to the calls of the C interface.

use sindhopul::{raw, Calendar, OptionType, Origin, Refusal, Register, Series, SeriesFile};

/// Monday, 16 November 2026, and its month.
const MONDAY: u16 = 9_816;
const NOVEMBER: u32 = 322;
const CLOSE: u32 = 241_337;

fn weekdays() -> Calendar {
    Calendar::with_sessions((0..36_525).filter(|day| day % 7 >= 2)).expect("weekdays will do")
}

fn started() -> Register {
    let mut register = Register::new();
    let listed = register.start(&weekdays(), MONDAY.into(), CLOSE);
    listed.expect("the start is accepted");
    register
}

#[test]
fn a_calendar_knows_its_sessions() {
    let calendar = weekdays();
    let friday = MONDAY + 4;
    assert!(calendar.has_session(friday));
    assert!(!calendar.has_session(friday + 1));
    assert!(!calendar.has_session(36_525));
    assert!(!calendar.has_session(u16::MAX));
    assert_eq!(calendar.next_session(friday), Some(MONDAY + 7));
    assert_eq!(calendar.next_session(36_523), Some(36_524));
    assert_eq!(calendar.next_session(36_524), None);
    assert_eq!(calendar.next_session(u16::MAX), None);
    assert_eq!(Calendar::new(calendar.as_bytes()), Ok(calendar));
}

#[test]
fn a_calendar_ends_with_2099() {
    let one_too_many = Calendar::with_sessions(0..=36_525);
    assert_eq!(one_too_many, Err(Refusal::CalendarTail));
    let far_too_many = Calendar::with_sessions([u16::MAX]);
    assert_eq!(far_too_many, Err(Refusal::CalendarTail));
}

#[test]
fn a_register_tells_its_day() {
    assert_eq!(Register::new().day(), None);
    assert_eq!(started().day(), Some(MONDAY));
    assert_eq!(Register::default(), Register::new());
}

#[test]
fn rows_are_the_registers_own_bytes() {
    let (calendar, register) = (weekdays(), started());
    let rows = register
        .rows(&calendar, NOVEMBER)
        .expect("the month is live");
    assert!(register
        .as_bytes()
        .as_ptr_range()
        .contains(&rows.as_bytes().as_ptr()));
    assert_eq!(rows.as_bytes(), &register.as_bytes()[136..][..33 * 8]);
}

#[test]
fn rows_come_from_either_end() {
    let (calendar, register) = (weekdays(), started());
    let mut rows = register
        .rows(&calendar, NOVEMBER)
        .expect("the month is live");
    assert_eq!(rows.len(), 33);
    let first = rows.next().expect("there are rows");
    assert_eq!((first.month, first.price), (322, 2_025));
    assert_eq!((first.first_day, first.origin), (MONDAY, Origin::Start));
    let last = rows.next_back().expect("there are rows");
    assert_eq!(last.price, 2_825);
    assert_eq!(rows.nth(1).map(|row| row.price), Some(2_075));
    assert_eq!(rows.len(), 29);
    assert_eq!(rows.as_bytes().len(), 33 * 8);
    assert_eq!(rows.by_ref().count(), 29);
    assert_eq!(rows.next(), None);
}

#[test]
fn names_are_text() {
    let series = Series {
        month: 323,
        option_type: OptionType::Call,
        price: 2_400,
    };
    let name = series.name().expect("the series is on the grid");
    assert_eq!(name.as_bytes(), b"OW20L262400");
    assert_eq!(
        format!("{name:>12}|{name:?}"),
        " OW20L262400|\"OW20L262400\""
    );
}

#[test]
fn a_file_names_what_is_new() {
    let (calendar, mut register) = (weekdays(), started());
    let file = SeriesFile::read(&register.file(&calendar).expect("the register is running"));
    let file = file.expect("a register writes a file");
    assert_eq!((file.day(), file.len()), (MONDAY, 188));
    let mut series = file.series();
    let first = series.next().expect("there are series");
    assert_eq!(first.name.as_str(), "OW20A272000");
    let call = Series {
        month: 324,
        option_type: OptionType::Call,
        price: 2_000,
    };
    assert_eq!((first.series, first.origin), (call, Origin::Start));
    let last = series.next_back().expect("there are series");
    assert_eq!(last.name.as_str(), "OW20X262800");
    assert_eq!(last.series.option_type, OptionType::Put);
    assert_eq!(series.len(), 186);

    let next_day = u32::from(MONDAY) + 1;
    let listed = register.session(&calendar, next_day, CLOSE);
    assert_eq!(listed.map(|listed| listed.added), Ok(0));
    let file = register.file(&calendar).expect("the register is running");
    assert_eq!(file, [1, 2, 0, 0x59, 0x26]);
    assert!(SeriesFile::read(&file).is_ok_and(|file| file.is_empty()));
}

#[test]
fn what_is_no_file_is_refused_with_its_place() {
    let (calendar, register) = (weekdays(), started());
    let mut file = register.file(&calendar).expect("the register is running");
    let place = |file: &[u8]| match SeriesFile::read(file) {
        Err(Refusal::FileForm { place }) => place,
        other => panic!("{other:?}"),
    };
    assert_eq!(place(&[]), 0);
    assert_eq!(place(&file[..19]), 19);
    // The second series twice.
    file.copy_within(20..35, 35);
    assert_eq!(place(&file), 38);
    let refusal = SeriesFile::read(&file).unwrap_err().to_string();
    assert_eq!(
        refusal,
        "refused (31): the bytes are no file of series: at place 38"
    );
    assert_eq!(Register::new().file(&calendar), Err(Refusal::Empty));
}

/// The types lend what they hold as it is.
#[test]
fn the_raw_calls_do_the_same() {
    let calendar = weekdays();
    let mut bytes = [0; sindhopul::REGISTER_BYTES];
    let result = raw::start(calendar.as_bytes(), &mut bytes, MONDAY.into(), CLOSE);
    assert_eq!(result.number, 0);
    assert_eq!(Register::from_bytes(&bytes), Ok(started()));
}
