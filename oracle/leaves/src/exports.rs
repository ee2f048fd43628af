//! The functions of crates/test_arith_exports. None but the sort takes a pointer.

unsafe extern "C" {
    pub safe fn hookyellow_sqrt(x: f64) -> f64;
    pub safe fn hookyellow_half_root(d: u64) -> u64;
    pub safe fn hookyellow_abs(x: f64) -> f64;
    pub safe fn hookyellow_min(a: f64, b: f64) -> f64;
    pub safe fn hookyellow_max(a: f64, b: f64) -> f64;
    pub safe fn hookyellow_clamp(x: f64) -> f64;
    pub safe fn hookyellow_is_finite(x: f64) -> bool;
    pub safe fn hookyellow_is_sign_negative(x: f64) -> bool;
    pub safe fn hookyellow_nearer(a: f64, b: f64) -> bool;
    pub safe fn hookyellow_floor_usize(x: f64) -> usize;
    pub safe fn hookyellow_ceil_usize(x: f64) -> usize;
    pub safe fn hookyellow_bits(n: u64) -> u64;
    pub safe fn hookyellow_turns_before(dx: f64, dy: f64, ex: f64, ey: f64) -> bool;
    fn hookyellow_sort(
        dx: *const f64,
        dx_length: usize,
        dy: *const f64,
        dy_length: usize,
        places: *mut usize,
        places_length: usize,
    ) -> bool;
}

/// The sort, on slices of any lengths: it tests them itself and requires nothing.
pub fn sort(dx: &[f64], dy: &[f64], places: &mut [usize]) -> bool {
    unsafe {
        hookyellow_sort(
            dx.as_ptr(),
            dx.len(),
            dy.as_ptr(),
            dy.len(),
            places.as_mut_ptr(),
            places.len(),
        )
    }
}
