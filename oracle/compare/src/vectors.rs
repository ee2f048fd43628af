//! Points and vectors of the generators.

pub type P3 = [f64; 3];

pub fn dot(a: P3, b: P3) -> f64 {
    a[0] * b[0] + a[1] * b[1] + a[2] * b[2]
}

pub fn cross(a: P3, b: P3) -> P3 {
    [a[1] * b[2] - a[2] * b[1], a[2] * b[0] - a[0] * b[2], a[0] * b[1] - a[1] * b[0]]
}

pub fn sub(a: P3, b: P3) -> P3 {
    std::array::from_fn(|k| a[k] - b[k])
}

/// a + b * t
pub fn along(a: P3, b: P3, t: f64) -> P3 {
    std::array::from_fn(|k| a[k] + b[k] * t)
}

pub fn mix(a: P3, b: P3, t: f64) -> P3 {
    along(a, sub(b, a), t)
}

pub fn unit(a: P3) -> Option<P3> {
    let n = dot(a, a).sqrt();
    (n > 1e-9 && n.is_finite()).then(|| a.map(|x| x / n))
}

/// The float next to x, upward or downward.
pub fn beside(x: f64, up: bool) -> f64 {
    if x == 0.0 || !x.is_finite() {
        return x;
    }
    f64::from_bits(if (x > 0.0) == up { x.to_bits() + 1 } else { x.to_bits() - 1 })
}
