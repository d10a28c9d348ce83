//! Exact numbers: of whole numbers and of parts, in order, up to their limits.

use crate::asserts::check;
use jsonpath_paths::Decimal;

const ONE: i128 = 1_000_000_000_000_000_000;

const HALF: u64 = 500_000_000_000_000_000;

#[test]
fn decimals(rt: HostRuntime) {
    check!(rt; Decimal::of_i64(-3).units() == -3 * ONE);
    check!(rt; Decimal::of_u64(18446744073709551615).units() == 18446744073709551615 * ONE);
    check!(rt; Decimal::of_parts(false, 1, 0) == Some(Decimal::of_u64(1)));
}

#[test]
fn decimals_around_zero(rt: HostRuntime) {
    let half = Decimal::of_parts(false, 0, HALF).expect(&rt, "half");
    let below = Decimal::of_parts(true, 0, HALF).expect(&rt, "half below zero");
    check!(rt; below.units() == -ONE / 2);
    check!(rt; below < Decimal::of_i64(0));
    check!(rt; Decimal::of_i64(0) < half);
    check!(rt; half < Decimal::of_u64(1));
}

#[test]
fn decimals_at_their_limits(rt: HostRuntime) {
    for (is_negative, whole, fraction, is_some) in [
        (false, 0, 1_000_000_000_000_000_000, false),
        (true, 9223372036854775809, 0, false),
        (true, 9223372036854775808, 1, true),
        (false, 18446744073709551615, 999_999_999_999_999_999, true),
    ] {
        check!(rt; Decimal::of_parts(is_negative, whole, fraction).is_some() == is_some);
    }
}
