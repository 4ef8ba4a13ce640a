//! The functions of the static library, declared as `delunkpawi.h` declares them.
//!
//! None asks anything of its arguments but what a Rust reference or slice is.

extern "C" {
    pub fn delunkpawi_order(
        image: *const u8,
        image_length: usize,
        granule: usize,
        spt0: usize,
        spt1: usize,
        row: *mut u32,
        row_length: usize,
        count: *mut usize,
    ) -> u8;
    pub fn delunkpawi_slot_count(
        image: *const u8,
        image_length: usize,
        granule: usize,
        spt0: usize,
        spt1: usize,
        count: *mut usize,
    ) -> u8;
    pub fn delunkpawi_slot_facts(
        image: *const u8,
        image_length: usize,
        granule: usize,
        spt0: usize,
        spt1: usize,
        slot: u32,
        entry: *mut usize,
        start: *mut u64,
        size: *mut u64,
        flags: *mut u64,
    ) -> u8;
    pub fn delunkpawi_slot_name(
        image: *const u8,
        image_length: usize,
        granule: usize,
        spt0: usize,
        spt1: usize,
        slot: u32,
        name: *mut u8,
        name_length: usize,
        count: *mut usize,
    ) -> u8;
    pub fn delunkpawi_view(
        image: *const u8,
        image_length: usize,
        granule: usize,
        spt0: usize,
        spt1: usize,
        cpb0: *mut usize,
        cpb1: *mut usize,
        table: *mut usize,
        pointers: *mut usize,
    ) -> u8;
    pub fn delunkpawi_table_faults(
        image: *const u8,
        image_length: usize,
        granule: usize,
        spt0: usize,
        spt1: usize,
        spt0_rule: *mut u8,
        spt0_entry: *mut usize,
        spt1_rule: *mut u8,
        spt1_entry: *mut usize,
    ) -> u8;
    pub fn delunkpawi_copies(
        image: *const u8,
        image_length: usize,
        granule: usize,
        spt0: usize,
        spt1: usize,
        spt0_stands: *mut u8,
        spt1_stands: *mut u8,
        cpb0_stands: *mut u8,
        cpb1_stands: *mut u8,
        tables_agree: *mut u8,
        pointers_agree: *mut u8,
    ) -> u8;
    pub fn delunkpawi_entry_count(
        image: *const u8,
        image_length: usize,
        granule: usize,
        spt0: usize,
        spt1: usize,
        count: *mut usize,
    ) -> u8;
    pub fn delunkpawi_entry(
        image: *const u8,
        image_length: usize,
        granule: usize,
        spt0: usize,
        spt1: usize,
        entry: usize,
        name: *mut u8,
        name_length: usize,
        name_count: *mut usize,
        start: *mut u64,
        size: *mut u64,
        flags: *mut u64,
    ) -> u8;
    pub fn delunkpawi_place_count(
        image: *const u8,
        image_length: usize,
        granule: usize,
        spt0: usize,
        spt1: usize,
        count: *mut usize,
    ) -> u8;
    pub fn delunkpawi_place(
        image: *const u8,
        image_length: usize,
        granule: usize,
        spt0: usize,
        spt1: usize,
        place: usize,
        kind: *mut u8,
        slot: *mut u32,
        value: *mut u64,
    ) -> u8;
    pub fn delunkpawi_job_size() -> usize;
    pub fn delunkpawi_enable(
        image: *const u8,
        image_length: usize,
        granule: usize,
        spt0: usize,
        spt1: usize,
        slot: u32,
        job: *mut u8,
        job_length: usize,
    ) -> u8;
    pub fn delunkpawi_disable(
        image: *const u8,
        image_length: usize,
        granule: usize,
        spt0: usize,
        spt1: usize,
        slot: u32,
        job: *mut u8,
        job_length: usize,
    ) -> u8;
    pub fn delunkpawi_rename(
        image: *const u8,
        image_length: usize,
        granule: usize,
        spt0: usize,
        spt1: usize,
        slot: u32,
        name: *const u8,
        name_length: usize,
        job: *mut u8,
        job_length: usize,
    ) -> u8;
    pub fn delunkpawi_create(
        image: *const u8,
        image_length: usize,
        granule: usize,
        spt0: usize,
        spt1: usize,
        name: *const u8,
        name_length: usize,
        length: u32,
        job: *mut u8,
        job_length: usize,
    ) -> u8;
    pub fn delunkpawi_delete(
        image: *const u8,
        image_length: usize,
        granule: usize,
        spt0: usize,
        spt1: usize,
        slot: u32,
        job: *mut u8,
        job_length: usize,
    ) -> u8;
    pub fn delunkpawi_repair(
        image: *const u8,
        image_length: usize,
        granule: usize,
        spt0: usize,
        spt1: usize,
        job: *mut u8,
        job_length: usize,
    ) -> u8;
    pub fn delunkpawi_run(
        job: *mut u8,
        job_length: usize,
        image: *mut u8,
        image_length: usize,
        budget: usize,
        done: *mut usize,
    ) -> u8;
    pub fn delunkpawi_remaining(job: *const u8, job_length: usize, count: *mut usize) -> u8;
    pub fn delunkpawi_next_step(
        job: *const u8,
        job_length: usize,
        kind: *mut u8,
        address: *mut usize,
        byte: *mut u8,
    ) -> u8;
    pub fn delunkpawi_advance(
        job: *mut u8,
        job_length: usize,
        steps: usize,
        count: *mut usize,
    ) -> u8;
}

/// The type of enable and disable.
pub type SlotStart =
    unsafe extern "C" fn(*const u8, usize, usize, usize, usize, u32, *mut u8, usize) -> u8;
