//! The C interface of the library: one declaration for this package and for the tests.

/// What a plan check writes.
pub type CheckOut = [usize; 5];
/// What a run writes.
pub type RunOut = [usize; 6];
/// What the sweeps write.
pub type SweepsOut = [usize; 2];
/// What tells the part that holds the last sweep.
pub type LastSweepOut = [usize; 3];

extern "C" {
    pub fn tinshrew_version() -> usize;
    pub fn tinshrew_cells(buffer: usize) -> usize;
    pub fn tinshrew_check_plan(plan: *const u8, plan_len: usize, out: *mut CheckOut);
    pub fn tinshrew_run_turns(
        plan: *const u8,
        plan_len: usize,
        turns: *const u8,
        turns_len: usize,
        work: *mut u16,
        work_len: usize,
        lists: *mut u16,
        lists_len: usize,
        out: *mut RunOut,
    );
    pub fn tinshrew_run_round(
        plan: *const u8,
        plan_len: usize,
        work: *mut u16,
        work_len: usize,
        lists: *mut u16,
        lists_len: usize,
        out: *mut RunOut,
    );
    pub fn tinshrew_run_sweeps(
        plan: *const u8,
        plan_len: usize,
        first: *mut u16,
        first_len: usize,
        second: *mut u16,
        second_len: usize,
        out: *mut SweepsOut,
    );
    pub fn tinshrew_last_sweep(
        first: *const u16,
        first_len: usize,
        second: *const u16,
        second_len: usize,
        sweeps: usize,
        count: usize,
        out: *mut LastSweepOut,
    );
}
