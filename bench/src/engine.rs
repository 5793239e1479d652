//! The proved planner, linked.

#[repr(C)]
#[derive(Default)]
pub struct Outcome {
    pub cost: u64,
    pub steps: u32,
    pub settled: bool,
    pub held: bool,
}

extern "C" {
    fn engine_run(
        book: *const u8,
        book_len: usize,
        budget: u32,
        plan: *mut u8,
        plan_len: usize,
        outcome: *mut Outcome,
    ) -> u8;
}

/// A run over a book of bytes: the outcome and the best's plan, or the number of the fault.
pub fn run(book: &[u8], budget: u32) -> Result<(Outcome, [u8; 64]), u8> {
    let mut plan = [0u8; 64];
    let mut outcome = Outcome::default();
    let fault = unsafe {
        engine_run(
            book.as_ptr(),
            book.len(),
            budget,
            plan.as_mut_ptr(),
            plan.len(),
            &mut outcome,
        )
    };
    if fault == 0 {
        Ok((outcome, plan))
    } else {
        Err(fault)
    }
}
