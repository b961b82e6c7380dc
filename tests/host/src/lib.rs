//! The archive `lookup`: inner functions of the proved crates, made total for the tests.
//!
//! Where nothing else is said, an argument out of range gives [`OUT_OF_RANGE`].

pub const OUT_OF_RANGE: u32 = 65_535;

#[repr(C)]
#[derive(Debug, Clone, Copy, PartialEq, Eq)]
pub struct Span {
    pub low: u16,
    pub high: u16,
}

// SAFETY: these take and return plain numbers.
unsafe extern "C" {
    /// The first day of a month up to 1,200.
    #[link_name = "lookup_first_day"]
    pub safe fn first_day(month: u32) -> u32;

    /// The third Friday of a month up to 1,199, by the rule.
    #[link_name = "lookup_third_friday"]
    pub safe fn third_friday(month: u32) -> u32;

    /// The third Friday of a month up to 1,199, from the constant table.
    #[link_name = "lookup_third_friday_table"]
    pub safe fn third_friday_in_table(month: u32) -> u32;

    /// The month of a day up to 36,524.
    #[link_name = "lookup_month_of"]
    pub safe fn month_of(day: u32) -> u32;

    /// The live month at a place 0 to 5, where `first`, up to 1,200, is the first.
    #[link_name = "lookup_live_month"]
    pub safe fn live_month(first: u32, place: u32) -> u32;

    /// The tier, N 0, M 1, F 2, of a live month where `first`, up to 1,200, is the first.
    #[link_name = "lookup_tier_of"]
    pub safe fn tier_of(first: u32, month: u32) -> u32;

    /// 1 where a price stands on a tier's grid, else 0; out of range too.
    #[link_name = "lookup_on_grid"]
    pub safe fn on_grid(tier: u32, price: u32) -> u32;

    /// The grid price nearest to a close from 9,000 to 954,999.
    #[link_name = "lookup_nearest"]
    pub safe fn nearest(tier: u32, close: u32) -> u32;

    /// The lowest and the highest price that such a close requires; out of range two zeros.
    #[link_name = "lookup_required"]
    pub safe fn required(tier: u32, close: u32) -> Span;
}

unsafe extern "C" {
    fn lookup_has_session(calendar: *const u8, length: usize, day: u32) -> u32;
    fn lookup_expiry(calendar: *const u8, length: usize, month: u32) -> u32;
    fn lookup_next_session(calendar: *const u8, length: usize, day: u32) -> u32;
    fn lookup_first_live(calendar: *const u8, length: usize, day: u32) -> u32;
}

/// 1 where a day has a session, else 0; out of range too.
pub fn has_session(calendar: &[u8], day: u32) -> u32 {
    // SAFETY: the call reads this slice and nothing else.
    unsafe { lookup_has_session(calendar.as_ptr(), calendar.len(), day) }
}

/// The expiry date of a month up to 1,199.
pub fn expiry(calendar: &[u8], month: u32) -> u32 {
    // SAFETY: the call reads this slice and nothing else.
    unsafe { lookup_expiry(calendar.as_ptr(), calendar.len(), month) }
}

/// The first session after a day up to 36,524; 36,525 where there is none.
pub fn next_session(calendar: &[u8], day: u32) -> u32 {
    // SAFETY: the call reads this slice and nothing else.
    unsafe { lookup_next_session(calendar.as_ptr(), calendar.len(), day) }
}

/// The first live month on a day up to 36,524; a calendar that does not pass is out of range.
pub fn first_live(calendar: &[u8], day: u32) -> u32 {
    // SAFETY: the call reads this slice and nothing else.
    unsafe { lookup_first_live(calendar.as_ptr(), calendar.len(), day) }
}
