//! The functions of the static library as C has them; `include/ipm.h` says what each is.

unsafe extern "C" {
    pub fn ipm_sizes(
        m: usize,
        n: usize,
        s: usize,
        offsets: *const u32,
        offsets_len: usize,
        columns: *const u32,
        columns_len: usize,
        e: &mut u64,
        s_count: &mut u64,
        d: &mut u64,
        w: &mut u64,
        f: &mut u64,
    ) -> u64;

    pub safe fn ipm_costliest(m: usize, e: &mut u64, d: &mut u64) -> u64;

    pub fn ipm_plan(
        m: usize,
        n: usize,
        offsets: *const u32,
        offsets_len: usize,
        columns: *const u32,
        columns_len: usize,
        index: *mut u32,
        index_len: usize,
    ) -> u64;

    pub fn ipm_write_plan(
        m: usize,
        n: usize,
        offsets: *const u32,
        offsets_len: usize,
        columns: *const u32,
        columns_len: usize,
        index: *mut u32,
        index_len: usize,
        file: *mut u8,
        file_len: usize,
    ) -> u64;

    pub fn ipm_read_plan(
        m: usize,
        n: usize,
        offsets: *const u32,
        offsets_len: usize,
        columns: *const u32,
        columns_len: usize,
        file: *const u8,
        file_len: usize,
        index: *mut u32,
        index_len: usize,
    ) -> u64;

    pub fn ipm_solve(
        m: usize,
        n: usize,
        s: usize,
        offsets: *const u32,
        offsets_len: usize,
        columns: *const u32,
        columns_len: usize,
        values: *const f64,
        values_len: usize,
        b: *const f64,
        b_len: usize,
        c: *const f64,
        c_len: usize,
        tolerances: *const f64,
        tolerances_len: usize,
        limit: usize,
        centring: f64,
        damping: f64,
        filed: usize,
        file: *const u8,
        file_len: usize,
        output: *mut f64,
        output_len: usize,
        prices: *mut f64,
        prices_len: usize,
        index: *mut u32,
        index_len: usize,
        work: *mut f64,
        work_len: usize,
    ) -> u64;

    pub safe fn ipm_root_bits(bits: u64) -> u64;
}
