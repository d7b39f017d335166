//! A whole hall: every correct node from its opening to the signers of its log.
use super::for_good;
use crate::contest::Contest;
use crate::hall::{Hall, Proved, Second};
use std::hint::black_box;

pub fn hall(faulty: usize, name: &str) -> Contest {
    let hall: &Hall = for_good(Hall::new(faulty));
    let outcome = hall.run::<Proved>();
    assert!(outcome == hall.run::<Second>(), "{name}: the two halls differ");
    outcome.check(faulty);
    Contest::new(
        name,
        move || {
            black_box(black_box(hall).run::<Proved>());
        },
        move || {
            black_box(black_box(hall).run::<Second>());
        },
    )
}
