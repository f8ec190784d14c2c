//! Times of a settings packet within their limits: any, at the limits, or with a
//! lateness that is asked for.

use crate::generator::Rng;
use crate::settings_check::{LIMIT, SECOND};

/// How old a packet is by both clocks, and its delay. Any of them may be negative, or
/// past its limit.
#[derive(Clone, Copy, Debug, PartialEq, Eq)]
pub struct Times {
    pub ntp_age: i128,
    pub rtp_age: i128,
    pub delay: i128,
}

/// Each is often at a limit or next to it.
pub fn any_times(rng: &mut Rng, rate: i128) -> Times {
    Times {
        ntp_age: within(rng, 0, LIMIT),
        rtp_age: within(rng, 0, most_rtp_age(rate)),
        delay: within(rng, 1, LIMIT),
    }
}

/// 60 seconds of media clock, or all of 32 bits.
pub fn most_rtp_age(rate: i128) -> i128 {
    (60 * rate).min(SECOND - 1)
}

/// The distance of two values of lateness that times can have: lateness is a multiple
/// of the greatest power of two that divides rate and 2^32, and no rate forbids others.
pub fn unit(rate: i128) -> i128 {
    1 << rate.trailing_zeros().min(32)
}

/// Times with this lateness, if there are any: rate × (delay − NTP age) + RTP age ×
/// 2^32. With the rate's power of two taken out, the RTP age is known modulo the odd
/// rest of the rate.
pub fn times_of(rng: &mut Rng, rate: i128, lateness: i128) -> Option<Times> {
    if rate == 0 {
        let times = any_times(rng, rate);
        return (lateness == 0).then_some(times);
    }
    let unit = unit(rate);
    if lateness.rem_euclid(unit) != 0 {
        return None;
    }
    let odd = rate / unit;
    let residue = (lateness / unit).rem_euclid(odd) * inverse(SECOND / unit, odd) % odd;
    // The delay less the NTP age is from 1 - LIMIT to LIMIT.
    let low = -(rate * LIMIT - lateness).div_euclid(SECOND);
    let high = (lateness + rate * (LIMIT - 1)).div_euclid(SECOND);
    let (low, high) = (low.max(0), high.min(most_rtp_age(rate)));
    let first = low + (residue - low).rem_euclid(odd);
    if first > high {
        return None;
    }
    let rtp_age = first + odd * within(rng, 0, (high - first) / odd);
    let after = (lateness - rtp_age * SECOND) / rate;
    let ntp_age = within(rng, (1 - after).max(0), (LIMIT - after).min(LIMIT));
    Some(Times {
        ntp_age,
        rtp_age,
        delay: after + ntp_age,
    })
}

/// The inverse of a power of two modulo an odd number.
fn inverse(power: i128, odd: i128) -> i128 {
    let half = (odd + 1) / 2;
    let mut inverse = 1 % odd;
    let mut power = power;
    while power > 1 {
        inverse = inverse * half % odd;
        power /= 2;
    }
    inverse
}

/// From `low` to `high`, both included, and often one of them or next to it.
pub fn within(rng: &mut Rng, low: i128, high: i128) -> i128 {
    let any = low + i128::from(rng.number()) % (high - low + 1);
    let edge = match rng.below(12) {
        0..=1 => low,
        2..=3 => high,
        4 => low + 1,
        5 => high - 1,
        _ => any,
    };
    edge.clamp(low, high)
}

#[cfg(test)]
mod tests {
    use super::*;
    use crate::generator;

    const RATES: [i128; 9] = [
        1,
        2,
        3,
        44_100,
        90_000,
        192_000,
        191_999,
        1 << 31,
        u32::MAX as i128,
    ];

    fn lateness(rate: i128, times: &Times) -> i128 {
        rate * (times.delay - times.ntp_age) + times.rtp_age * SECOND
    }

    /// That of any times is met again, and so is its neighbour.
    #[test]
    fn every_lateness_of_times_has_times() {
        let mut rng = Rng::new(generator::seed());
        for rate in RATES {
            let mut found = 0;
            for _ in 0..2_000 {
                let wanted = lateness(rate, &any_times(&mut rng, rate));
                let times = times_of(&mut rng, rate, wanted).expect("times with it");
                assert_eq!(lateness(rate, &times), wanted);
                assert!((0..=LIMIT).contains(&times.ntp_age));
                assert!((0..=most_rtp_age(rate)).contains(&times.rtp_age));
                assert!((1..=LIMIT).contains(&times.delay));
                let beside = times_of(&mut rng, rate, wanted + unit(rate));
                found += usize::from(beside.is_some());
            }
            assert!(found > 1_000, "rate {rate}: {found} neighbours");
        }
    }

    #[test]
    fn no_times_have_a_lateness_between() {
        let mut rng = Rng::new(generator::seed());
        assert_eq!(times_of(&mut rng, 90_000, 1), None);
        assert_eq!(times_of(&mut rng, 0, 1), None);
        assert_eq!(times_of(&mut rng, 1, 1 << 80), None);
    }
}
