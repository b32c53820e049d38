//! The C interface of the static library, and all the unsafe code that there is.

#![allow(unsafe_code)]

extern "C" {
    fn kz_read_words(bytes: *const u8, n: usize, words: *mut u32, room: usize, out: *mut [u64; 6]);
    fn kz_judge(day: *const u32, n: usize, out: *mut [u64; 6]);
    fn kz_check(day: *const u32, n: usize, plan: *const u32, m: usize, out: *mut [u64; 6]);
    fn kz_vehicle(
        day: *const u32,
        n: usize,
        plan: *const u32,
        m: usize,
        number: u64,
        out: *mut [u64; 6],
    );
    fn kz_same_rounds(
        day: *const u32,
        n: usize,
        first: *const u32,
        m: usize,
        second: *const u32,
        l: usize,
        out: *mut [u64; 6],
    );
    fn kz_build(day: *const u32, n: usize, plan: *mut u32, room: usize, out: *mut [u64; 6]);
    fn kz_plan(
        day: *const u32,
        n: usize,
        k: u64,
        budget: u64,
        plan: *mut u32,
        room: usize,
        work: *mut u32,
        work_room: usize,
        out: *mut [u64; 6],
    );
    fn kz_plan_growing(
        day: *const u32,
        n: usize,
        budget: u64,
        plan: *mut u32,
        room: usize,
        work: *mut u32,
        work_room: usize,
        out: *mut [u64; 6],
    );
    fn kz_import_solomon(
        text: *const u8,
        n: usize,
        words: *mut u32,
        room: usize,
        out: *mut [u64; 6],
    );
}

pub fn read_words(bytes: &[u8], words: &mut [u32], out: &mut [u64; 6]) {
    // SAFETY: each pointer comes with the length of its own slice, the slices live until the call
    // returns, and those that are written are borrowed alone. The library keeps no pointer.
    unsafe { kz_read_words(bytes.as_ptr(), bytes.len(), words.as_mut_ptr(), words.len(), out) }
}

pub fn judge(day: &[u32], out: &mut [u64; 6]) {
    // SAFETY: as above; `out` alone is written.
    unsafe { kz_judge(day.as_ptr(), day.len(), out) }
}

pub fn check(day: &[u32], plan: &[u32], out: &mut [u64; 6]) {
    // SAFETY: as above; `out` alone is written.
    unsafe { kz_check(day.as_ptr(), day.len(), plan.as_ptr(), plan.len(), out) }
}

pub fn vehicle(day: &[u32], plan: &[u32], number: u64, out: &mut [u64; 6]) {
    // SAFETY: as above; `out` alone is written.
    unsafe { kz_vehicle(day.as_ptr(), day.len(), plan.as_ptr(), plan.len(), number, out) }
}

pub fn same_rounds(day: &[u32], first: &[u32], second: &[u32], out: &mut [u64; 6]) {
    let (n, m, l) = (day.len(), first.len(), second.len());
    // SAFETY: as above; `out` alone is written.
    unsafe { kz_same_rounds(day.as_ptr(), n, first.as_ptr(), m, second.as_ptr(), l, out) }
}

pub fn build(day: &[u32], plan: &mut [u32], out: &mut [u64; 6]) {
    // SAFETY: as above; `plan` and `out` are written.
    unsafe { kz_build(day.as_ptr(), day.len(), plan.as_mut_ptr(), plan.len(), out) }
}

pub fn plan(
    day: &[u32],
    k: u64,
    budget: u64,
    plan: &mut [u32],
    work: &mut [u32],
    out: &mut [u64; 6],
) {
    let (n, room, work_room) = (day.len(), plan.len(), work.len());
    let (plan, work) = (plan.as_mut_ptr(), work.as_mut_ptr());
    // SAFETY: as above; `plan`, `work` and `out` are written.
    unsafe { kz_plan(day.as_ptr(), n, k, budget, plan, room, work, work_room, out) }
}

pub fn plan_growing(
    day: &[u32],
    budget: u64,
    plan: &mut [u32],
    work: &mut [u32],
    out: &mut [u64; 6],
) {
    let (n, room, work_room) = (day.len(), plan.len(), work.len());
    let (plan, work) = (plan.as_mut_ptr(), work.as_mut_ptr());
    // SAFETY: as above; `plan`, `work` and `out` are written.
    unsafe { kz_plan_growing(day.as_ptr(), n, budget, plan, room, work, work_room, out) }
}

pub fn import_solomon(text: &[u8], words: &mut [u32], out: &mut [u64; 6]) {
    // SAFETY: as above; `words` and `out` are written.
    unsafe { kz_import_solomon(text.as_ptr(), text.len(), words.as_mut_ptr(), words.len(), out) }
}

#[cfg(test)]
mod tests {
    use reference::worked::DAY_M;
    use reference::worked_plans::{PLAN_M, TWO_VEHICLES};
    use reference::worked_texts::TEXT;

    /// What `out` held before shows wherever a call leaves a number of it unwritten.
    const BEFORE: [u64; 6] = [u64::MAX; 6];

    #[test]
    fn reading_writes_all_of_out() {
        let mut words = [0; 7];
        let mut out = BEFORE;
        super::read_words(&[0; 28], &mut words, &mut out);
        assert_eq!(out, [0, 7, 0, 0, 0, 0]);
        let mut out = BEFORE;
        super::read_words(&[0; 27], &mut words, &mut out);
        assert_eq!(out, [1, 6, 0, 0, 0, 0]);
        let mut out = BEFORE;
        super::read_words(&[0; 32], &mut words, &mut out);
        assert_eq!(out, [14, 8, 0, 0, 0, 0]);
    }

    #[test]
    fn judging_writes_all_of_out() {
        let mut words = DAY_M;
        let mut out = BEFORE;
        super::judge(&words, &mut out);
        assert_eq!(out, [0, 2, 1, 0, 0, 0]);
        words[30] = 0x9000_0001;
        let mut out = BEFORE;
        super::judge(&words, &mut out);
        assert_eq!(out, [5, 30, 0, 0, 0, 0]);
    }

    #[test]
    fn checking_writes_all_of_out() {
        let mut out = BEFORE;
        super::check(&DAY_M, &PLAN_M, &mut out);
        assert_eq!(out, [0, 35, 1, 2, 0, 0]);
        let mut out = BEFORE;
        super::check(&DAY_M, &PLAN_M[..6], &mut out);
        assert_eq!(out, [7, 6, 0, 0, 0, 0]);
        let mut out = BEFORE;
        super::check(&DAY_M[..30], &PLAN_M, &mut out);
        assert_eq!(out, [4, 30, 0, 0, 0, 0]);
    }

    #[test]
    fn finding_a_vehicle_writes_all_of_out() {
        let mut out = BEFORE;
        super::vehicle(&DAY_M, &TWO_VEHICLES, 2, &mut out);
        assert_eq!(out, [0, 4, 4, 0, 0, 0]);
        let mut out = BEFORE;
        super::vehicle(&DAY_M, &TWO_VEHICLES, u64::MAX, &mut out);
        assert_eq!(out, [15, u64::MAX, 0, 0, 0, 0]);
        let mut out = BEFORE;
        super::vehicle(&DAY_M, &[], 0, &mut out);
        assert_eq!(out, [8, 0, 0, 0, 0, 0]);
    }

    #[test]
    fn comparing_rounds_writes_all_of_out() {
        let mut out = BEFORE;
        super::same_rounds(&DAY_M, &PLAN_M, &PLAN_M, &mut out);
        assert_eq!(out, [0, 1, 0, 0, 0, 0]);
        let mut out = BEFORE;
        super::same_rounds(&DAY_M, &PLAN_M, &TWO_VEHICLES, &mut out);
        assert_eq!(out, [0, 0, 0, 0, 0, 0]);
        let mut out = BEFORE;
        super::same_rounds(&DAY_M, &PLAN_M, &[], &mut out);
        assert_eq!(out, [8, 7, 0, 0, 0, 0]);
    }

    #[test]
    fn building_writes_all_of_out() {
        let mut plan = [0; 10];
        let mut out = BEFORE;
        super::build(&DAY_M, &mut plan, &mut out);
        assert_eq!(out, [0, 35, 0, 0, 0, 7]);
        let mut words = DAY_M;
        words[11] = 0x8000_0065; // 101 kg of 100 at stop 1, which is left out
        let mut out = BEFORE;
        super::build(&words, &mut plan, &mut out);
        assert_eq!(out, [0, 21, 0, 0, 1, 6]);
        let mut out = BEFORE;
        super::build(&DAY_M, &mut plan[..9], &mut out);
        assert_eq!(out, [14, 10, 0, 0, 0, 0]);
        let mut out = BEFORE;
        super::build(&DAY_M[..30], &mut [], &mut out);
        assert_eq!(out, [4, 30, 0, 0, 0, 0]);
    }

    #[test]
    fn planning_writes_all_of_out() {
        let (mut plan, mut work) = ([0; 10], [0; 10]);
        let mut out = BEFORE;
        super::plan(&DAY_M, 5, 6, &mut plan, &mut work, &mut out);
        assert_eq!(out, [0, 35, 6, 1, 0, 7]);
        let mut out = BEFORE;
        super::plan(&DAY_M, 5, 5, &mut plan, &mut work, &mut out);
        assert_eq!(out, [0, 35, 5, 0, 0, 7]);
        let mut out = BEFORE;
        super::plan(&DAY_M, u64::MAX, 6, &mut plan, &mut work, &mut out);
        assert_eq!(out, [13, u64::MAX, 0, 0, 0, 0]);
        let mut out = BEFORE;
        super::plan(&DAY_M, 5, 6, &mut plan, &mut work[..9], &mut out);
        assert_eq!(out, [14, 10, 0, 0, 0, 0]);
        let mut out = BEFORE;
        super::plan(&DAY_M[..30], 0, 6, &mut [], &mut [], &mut out);
        assert_eq!(out, [4, 30, 0, 0, 0, 0]);
    }

    #[test]
    fn planning_with_growing_sets_writes_all_of_out() {
        let (mut plan, mut work) = ([0; 10], [0; 10]);
        let mut out = BEFORE;
        super::plan_growing(&DAY_M, 24, &mut plan, &mut work, &mut out);
        assert_eq!(out, [0, 35, 24, 1, 0, 7]);
        let mut out = BEFORE;
        super::plan_growing(&DAY_M, 23, &mut plan, &mut work, &mut out);
        assert_eq!(out, [0, 35, 23, 0, 0, 7]);
        let mut out = BEFORE;
        super::plan_growing(&DAY_M, 24, &mut plan[..9], &mut work, &mut out);
        assert_eq!(out, [14, 10, 0, 0, 0, 0]);
        let mut out = BEFORE;
        super::plan_growing(&DAY_M, 24, &mut plan, &mut work[..9], &mut out);
        assert_eq!(out, [14, 10, 0, 0, 0, 0]);
        let mut out = BEFORE;
        super::plan_growing(&DAY_M[..30], 24, &mut [], &mut [], &mut out);
        assert_eq!(out, [4, 30, 0, 0, 0, 0]);
    }

    #[test]
    fn importing_writes_all_of_out() {
        let text = TEXT.as_bytes();
        let mut words = [0; 31];
        let mut out = BEFORE;
        super::import_solomon(text, &mut words, &mut out);
        assert_eq!(out, [0, 31, 0, 0, 0, 0]);
        let mut out = BEFORE;
        super::import_solomon(text, &mut words[..30], &mut out);
        assert_eq!(out, [14, 31, 0, 0, 0, 0]);
        let mut out = BEFORE;
        super::import_solomon(&text[..3], &mut [], &mut out);
        assert_eq!(out, [17, 3, 0, 0, 0, 0]);
        let no_capacity = TEXT.replace("25 200", "25 0");
        let mut out = BEFORE;
        super::import_solomon(no_capacity.as_bytes(), &mut words, &mut out);
        assert_eq!(out, [18, 30, 0, 0, 0, 0]);
    }
}
