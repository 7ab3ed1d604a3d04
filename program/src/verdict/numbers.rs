//! Numbers as a reader has them: thousands apart, ratios, parts per million with their sign.

/// A number with its thousands apart.
pub fn grouped(number: u64) -> String {
    let figures = number.to_string();
    let mut text = String::new();
    for (k, figure) in figures.chars().enumerate() {
        if k > 0 && (figures.len() - k) % 3 == 0 {
            text.push(',');
        }
        text.push(figure);
    }
    text
}

/// So many of a thing, which is said in the plural but for one.
pub fn so_many(number: u64, thing: &str) -> String {
    let plural = if number == 1 { "" } else { "s" };
    format!("{} {thing}{plural}", grouped(number))
}

/// A share of all as test sets say it, such as 1.07e-3; 0 where there is none.
pub fn ratio(part: u64, all: u64) -> String {
    if part == 0 || all == 0 {
        return "0".into();
    }
    format!("{:.2e}", part as f64 / all as f64)
}

/// A share of all in words: one in so many.
pub fn one_in(part: u64, all: u64) -> String {
    if part == 0 {
        return "none".into();
    }
    match (all + part / 2) / part {
        0..=9 => format!("1 in {:.1}", all as f64 / part as f64),
        many => format!("1 in {}", grouped(many)),
    }
}

/// Tenths of a part per million, without a sign.
pub fn tenths(tenths: u64) -> String {
    format!("{}.{}", grouped(tenths / 10), tenths % 10)
}

/// How far a rate is off, in tenths of a part per million, with its sign.
pub fn ppm(off: i64) -> String {
    let sign = match off {
        0 => "",
        off if off > 0 => "+",
        _ => "-",
    };
    format!("{sign}{} ppm", tenths(off.unsigned_abs()))
}

/// A list in words: one, one and two, one, two and three.
pub fn listed(items: &[String]) -> String {
    match items {
        [] => String::new(),
        [one] => one.clone(),
        [first @ .., last] => format!("{} and {last}", first.join(", ")),
    }
}

#[cfg(test)]
mod tests {
    use super::*;

    #[test]
    fn numbers_are_said_as_people_say_them() {
        assert_eq!(grouped(0), "0");
        assert_eq!(grouped(999), "999");
        assert_eq!(grouped(1_234_567), "1,234,567");
        assert_eq!(so_many(1, "frame"), "1 frame");
        assert_eq!(so_many(2_000, "slip"), "2,000 slips");
        assert_eq!(ratio(66, 61_649), "1.07e-3");
        assert_eq!(ratio(0, 61_649), "0");
        assert_eq!(one_in(66, 61_649), "1 in 934");
        assert_eq!(one_in(2, 5), "1 in 2.5");
        assert_eq!(ppm(-123), "-12.3 ppm");
        assert_eq!(ppm(5), "+0.5 ppm");
        assert_eq!(listed(&["1".into(), "2".into(), "4".into()]), "1, 2 and 4");
    }
}
