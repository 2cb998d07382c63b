//! The functions on floats that the modules call, which std has. Its `log2` and `powf` are those of the C library that
//! the program is linked to, glibc's mostly, and not those of the crate `libm`: the last bit of `log2` may be another
//! there.

pub trait FloatExt {
    fn floor(self) -> Self;
    fn ceil(self) -> Self;
    fn log2(self) -> Self;
    fn powf(self, exponent: Self) -> Self;
}

impl FloatExt for f64 {
    fn floor(self) -> f64 {
        f64::floor(self)
    }

    fn ceil(self) -> f64 {
        f64::ceil(self)
    }

    fn log2(self) -> f64 {
        f64::log2(self)
    }

    fn powf(self, exponent: f64) -> f64 {
        f64::powf(self, exponent)
    }
}
