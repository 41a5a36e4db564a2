//! Repeated measurements, as the tables show them.

use plain_terminal::spread::Spread;

#[test]
fn median_smallest_and_largest() {
    let spread = |numbers: &[f64]| Spread::of(numbers.to_vec()).to_string();
    assert_eq!(spread(&[1.5]), "1.50|1.50|1.50");
    assert_eq!(spread(&[3.0, 1.0, 2.25, 0.5, 9.0]), "2.25|0.50|9.00");
}
