//! The matrix that is measured, number for number the one that `pace` makes.
use tst_core::klv::st1010::SdccFlp;

// (7919k mod 2001 - 1000) / 1000.5, nearly.
fn correlation(k: u32) -> f64 {
    let spread = 7919 * (k % 2001) % 2001;
    let over_1000_5 = |size: u32| f64::from(size * 1_073_205) / f64::from(1 << 30);
    if spread < 1000 {
        -over_1000_5(1000 - spread)
    } else {
        over_1000_5(spread - 1000)
    }
}

pub fn made(rows: usize, sparse: bool) -> SdccFlp {
    let slots = rows * (rows - 1) / 2;
    let slot = |k| {
        if sparse && k % 4 != 3 {
            0.0
        } else {
            correlation(k)
        }
    };
    SdccFlp {
        matrix_size: rows as u64,
        std_devs: (0..rows).map(|i| i as f64 / 2.0).collect(),
        correlations: (0..slots as u32).map(slot).collect(),
        correlation_present: vec![false; slots],
    }
}
