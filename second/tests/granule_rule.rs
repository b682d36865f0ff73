//! The granule rule worked by hand where a rounding goes either way.

use second::exact::Fraction;
use second::exact::Whole;
use second::granule::Granule;

const H: i64 = 1_000_000_000;

fn granule(coefficients: &[i64]) -> Granule<'_> {
    Granule {
        start: 0,
        length: H,
        coefficients,
    }
}

/// s = −1/2 gives u = −2^29, so that u·b_1/2^30 is half of −b_1.
#[test]
fn v_rounds_halves_to_the_greater() {
    let tick = H / 4;
    assert_eq!(granule(&[0, 1]).u(tick), -(1 << 29));
    assert_eq!(granule(&[0, 1]).value(tick), 0);
    assert_eq!(granule(&[0, -1]).value(tick), 1);
    assert_eq!(granule(&[7, 3]).value(tick), 6);
    assert_eq!(granule(&[7, -3]).value(tick), 9);
}

/// s = −1/4 gives u = −2^28, so that u·b/2^29 is half of −b.
#[test]
fn b_rounds_halves_to_the_greater() {
    let tick = 3 * H / 8;
    assert_eq!(granule(&[0]).u(tick), -(1 << 28));
    // b_2 = 1, b_1 = rounded(−1/2) = 0, v = 0 − b_2.
    assert_eq!(granule(&[0, 0, 1]).value(tick), -1);
    // b_2 = −1, b_1 = rounded(1/2) = 1, v = rounded(−1/4) − b_2.
    assert_eq!(granule(&[0, 0, -1]).value(tick), 1);
    // b_3 = 1, b_2 = rounded(−1/2) = 0, b_1 = −b_3, v = rounded(1/4) − b_2.
    assert_eq!(granule(&[0, 0, 0, 1]).value(tick), 0);
    // b_3 = −1, b_2 = 1, b_1 = rounded(−1/2) + 1 = 1, v = rounded(−1/4) − 1.
    assert_eq!(granule(&[0, 0, 0, -1]).value(tick), -1);
    // b_3 = 5, b_2 = 2 + rounded(−5/2) = 0, b_1 = −7 + 0 − 5 = −12,
    // v = 100 + rounded(12/4) − 0.
    assert_eq!(granule(&[100, -7, 2, 5]).value(tick), 103);
}

/// With H = 2^50 the tick 2^18 past the start is half a unit of u past −2^30.
#[test]
fn u_rounds_halves_to_the_greater() {
    let u = |past: i64| {
        let long = Granule {
            start: -5,
            length: 1 << 50,
            coefficients: &[0],
        };
        long.u(past - 5)
    };
    let low = -(1 << 30);
    assert_eq!(u(0), low);
    assert_eq!(u((1 << 18) - 1), low);
    assert_eq!(u(1 << 18), low + 1);
    assert_eq!(u(3 << 18), low + 2);
    assert_eq!(u((1 << 50) - (1 << 18)), -low);
    assert_eq!(u((1 << 50) - (1 << 18) - 1), -low - 1);
    assert_eq!(u(1 << 50), -low);
}

/// "D = v/65536 rounded", by degree 0 where v = c_0.
#[test]
fn d_rounds_halves_to_the_greater() {
    for (c_0, d) in [
        (32_767, 0),
        (32_768, 1),
        (-32_768, 0),
        (-32_769, -1),
        (98_303, 1),
        (98_304, 2),
        (-98_304, -1),
        (-98_305, -2),
    ] {
        assert_eq!(granule(&[c_0]).d(123), d, "c_0 = {c_0}");
    }
}

/// T_0..T_3 at s = −1/4 are 1, −1/4, −7/8 and 11/16.
#[test]
fn the_exact_sum_by_hand() {
    let sum = granule(&[100, -7, 2, 5]).exact_sum(3 * H / 8);
    let sixteenths = 1600 + 28 - 28 + 55;
    assert_eq!(sum, Fraction::new(Whole::from(sixteenths), Whole::from(16)));
}

/// "Call the sum of k²·|c_k| the weight"; plain and alternating sums.
#[test]
fn weight_and_sums_by_hand() {
    let granule = granule(&[100, -7, 2, 5]);
    assert_eq!(granule.weight(), 7 + 4 * 2 + 9 * 5);
    assert_eq!(granule.plain_sum(), 100);
    assert_eq!(granule.alternating_sum(), 100 + 7 + 2 - 5);
}
