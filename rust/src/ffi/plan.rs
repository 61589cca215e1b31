//! The plan.

#[repr(C)]
pub(crate) struct PlanAnswer {
    pub decline: u32,
    pub wait: u32,
}

extern "C" {
    fn yohrundel_plan_numbers(
        minute: u32,
        duration: u32,
        numbers: *const u32,
        count: usize,
    ) -> PlanAnswer;
}

/// The windows as their numbers: start, length, start, length, ..
pub(crate) fn plan_numbers(minute: u32, duration: u32, numbers: &[u32]) -> PlanAnswer {
    // SAFETY: the pointer and the count are a slice's; nothing is written.
    unsafe { yohrundel_plan_numbers(minute, duration, numbers.as_ptr(), numbers.len()) }
}

#[cfg(test)]
mod tests {
    use super::plan_numbers;
    use crate::Decline;

    /// What no list of pairs can be: a list that ends with a start alone.
    #[test]
    fn odd_lists_of_windows() {
        let numbers = [[0, 10_080]; 20];
        for count in 0..=numbers.as_flattened().len() {
            let decline = plan_numbers(0, 60, &numbers.as_flattened()[..count]).decline;
            let accepted = count % 2 == 0 && (1..=14).contains(&(count / 2));
            let expected = if accepted { 0 } else { Decline::Hours.number() };
            assert_eq!(decline, expected, "{count} numbers");
        }
    }
}
