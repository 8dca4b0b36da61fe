//! The three C calls of the library, over slices.

extern "C" {
    fn jolvente_write_plan(
        wiring: *const u8,
        wiring_len: usize,
        plan: *mut u8,
        plan_len: usize,
        record: *mut u8,
        record_len: usize,
    ) -> u32;
    fn jolvente_read_plan(
        plan: *const u8,
        plan_len: usize,
        record: *mut u8,
        record_len: usize,
    ) -> u32;
    fn jolvente_walk(
        plan: *const u8,
        plan_len: usize,
        from: u32,
        to: u32,
        caller: u32,
        met: *mut u8,
        met_len: usize,
        record: *mut u8,
        record_len: usize,
    ) -> u32;
}

pub fn write_plan(wiring: &[u8], plan: &mut [u8], record: &mut [u8]) -> u32 {
    unsafe {
        jolvente_write_plan(
            wiring.as_ptr(),
            wiring.len(),
            plan.as_mut_ptr(),
            plan.len(),
            record.as_mut_ptr(),
            record.len(),
        )
    }
}

pub fn read_plan(plan: &[u8], record: &mut [u8]) -> u32 {
    unsafe { jolvente_read_plan(plan.as_ptr(), plan.len(), record.as_mut_ptr(), record.len()) }
}

pub fn walk(
    plan: &[u8],
    from: u32,
    to: u32,
    caller: u32,
    met: &mut [u8],
    record: &mut [u8],
) -> u32 {
    unsafe {
        jolvente_walk(
            plan.as_ptr(),
            plan.len(),
            from,
            to,
            caller,
            met.as_mut_ptr(),
            met.len(),
            record.as_mut_ptr(),
            record.len(),
        )
    }
}
