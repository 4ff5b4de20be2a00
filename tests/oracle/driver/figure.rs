//! The figure: a Float's exact product with 1,000, rounded once to a whole number of thousandths.

const MOST_THOUSANDTHS: u128 = 999_999_999;
const FRACTION_BITS: u32 = 52;

/// The printed figure, or `None` where question 15 gets a no.
pub fn figure(number: f64) -> Option<String> {
    let thousandths = thousandths(number.to_bits()).filter(|&count| count <= MOST_THOUSANDTHS)?;
    let sign = if number.is_sign_negative() && thousandths > 0 { "-" } else { "" };
    Some(format!("{sign}{}.{:03}", thousandths / 1000, thousandths % 1000))
}

/// Of the number's magnitude; `None` if it is not finite or far beyond the limit.
fn thousandths(bits: u64) -> Option<u128> {
    let fraction = bits & ((1 << FRACTION_BITS) - 1);
    let exponent = (bits >> FRACTION_BITS) & 0x7FF;
    // the magnitude is whole × 2^(scale − 1075)
    let (whole, scale) = match exponent {
        0 => (fraction, 1),
        _ => (fraction | 1 << FRACTION_BITS, exponent),
    };
    let product = u128::from(whole) * 1000;
    match 1075_u64.checked_sub(scale) {
        None | Some(0) => None, // whole is at least 2^52 here
        Some(places) => Some(rounded(product, places)),
    }
}

/// product / 2^places to the nearest whole number, of two equally near to the even one. A product is below 2^63.
fn rounded(product: u128, places: u64) -> u128 {
    if places > 64 {
        return 0;
    }
    let below = product >> places;
    // adds one to an odd quotient from a half on, to an even one above a half
    (product + (1 << (places - 1)) - 1 + below % 2) >> places
}
