//! Minutes of the week as weekdays and times.

const DAYS: [&str; 7] = ["Mon", "Tue", "Wed", "Thu", "Fri", "Sat", "Sun"];

const HOUR: u32 = 60;
/// The minutes of a day.
pub const DAY: u32 = 24 * HOUR;

/// The minutes of a week.
pub const WEEK: u32 = 7 * DAY;

/// A minute of the week by its number, which may be out of range, or by a weekday and a time.
pub fn read_minute(text: &str) -> Option<u32> {
    match text.parse() {
        Ok(minute) => Some(minute),
        Err(_) => weekday_and(text, read_time),
    }
}

/// As `Mon 22:30`; a hyphen or nothing may stand for the blank, and small letters for capitals.
pub fn weekday_and(text: &str, read_time: fn(&str) -> Option<u32>) -> Option<u32> {
    let (weekday, time) = text.split_at_checked(3)?;
    let day = DAYS
        .iter()
        .position(|day| day.eq_ignore_ascii_case(weekday))?;
    let time = time.strip_prefix([' ', '-']).unwrap_or(time);
    Some(day as u32 * DAY + read_time(time)?)
}

/// As `22:30` or `7:30`, in minutes of the day.
pub fn read_time(text: &str) -> Option<u32> {
    let (hours, minutes) = text.split_once(':')?;
    let are_digits = [hours, minutes]
        .concat()
        .bytes()
        .all(|digit| digit.is_ascii_digit());
    if !are_digits || hours.len() > 2 || minutes.len() != 2 {
        return None;
    }
    let (hours, minutes): (u32, u32) = (hours.parse().ok()?, minutes.parse().ok()?);
    (hours < 24 && minutes < 60).then_some(hours * HOUR + minutes)
}

/// The weekday and time of a minute below [`WEEK`].
pub fn weekday_and_time(minute: u32) -> String {
    let (day, time) = (DAYS[(minute / DAY) as usize], minute % DAY);
    format!("{day} {:02}:{:02}", time / HOUR, time % HOUR)
}
