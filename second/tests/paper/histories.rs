//! Made-up histories and lent states: accepted calls keep the conditions, refused ones the state but for
//! the packets turned away.

use std::collections::BTreeMap;

use second::admission::admit;
use second::standing::stands;
use second::state::{first_window, State};
use second::step::{begin, step, Event};
use second::totals::totals;

use crate::worlds::{fresh, played};

/// A plain generator of numbers, the same ones at every run.
struct Numbers(u64);

impl Numbers {
    fn below(&mut self, end: u64) -> u64 {
        self.0 = self
            .0
            .wrapping_mul(6_364_136_223_846_793_005)
            .wrapping_add(1_442_695_040_888_963_407);
        (self.0 >> 33) % end
    }
}

fn made_up(numbers: &mut Numbers, discipline: u32) -> State {
    let d = 8 + numbers.below(9) as u32;
    let a = 8 + numbers.below(9) as u32;
    let q = if discipline == 1 {
        1 + numbers.below(5) as u32
    } else {
        1
    };
    let n = 1 + numbers.below(8) as u32;
    let pairs: Vec<(u32, u32)> = (0..n)
        .map(|i| ((i * 3) % 8, if discipline == 2 { (i * 5) % 8 } else { 0 }))
        .collect();
    fresh(discipline, d, a, q, &pairs)
}

fn value(numbers: &mut Numbers, state: &State) -> u32 {
    match state.settings.discipline {
        0 => numbers.below(u64::from(state.settings.d)) as u32,
        1 => (state.clock + numbers.below(40) as u32).saturating_sub(2),
        _ => 0,
    }
}

/// The most probes that one contention may take.
fn most_probes(state: &State) -> u32 {
    let l = first_window(state.settings.d).trailing_zeros();
    let m = first_window(state.settings.a).trailing_zeros();
    match state.settings.discipline {
        0 => 2 * l + 2 * m + 1,
        1 => 2 * l + 2 * m + 2,
        _ => 2 * l,
    }
}

#[test]
fn histories_stand_and_count_right() {
    let mut numbers = Numbers(1);
    let mut crowded = [0; 3];
    for history in 0..300 {
        let mut state = made_up(&mut numbers, history % 3);
        let (mut sent, mut lost, mut turned_away, mut probes) = (0, 0, 0, 0);
        let addresses = if history % 2 == 0 { 9 } else { 2 };
        let mut slots = BTreeMap::new();
        for _ in 0..120 {
            if numbers.below(3) > 0 {
                let address = numbers.below(addresses) as u32;
                let value = value(&mut numbers, &state);
                let lent = state.clone();
                match admit(&mut state, address, value, 1 + numbers.below(6) as u32) {
                    Ok(number) => drop(slots.insert(number, lent.clock)),
                    Err(refusal) => {
                        turned_away += u64::from(matches!(refusal.number(), 14 | 15));
                        let expected = State {
                            turned_away,
                            ..lent
                        };
                        assert!(state == expected);
                    }
                }
            } else {
                if numbers.below(2) > 0 && !state.contention.begun {
                    lost += begin(&mut state).expect("accepted").drops;
                    assert!(stands(&state));
                    continue;
                }
                let answer = step(&mut state).expect("accepted");
                lost += answer.drops;
                sent += u64::from(answer.ended && state.sent > sent);
                probes += 1;
                assert!(probes <= most_probes(&state));
                if answer.ended {
                    probes = 0;
                }
                if let Event::Success { number, wait, .. } = answer.event {
                    assert_eq!(Some(answer.slot - wait), slots.remove(&number));
                }
            }
            assert!(stands(&state));
            let totals = totals(&state).expect("accepted");
            assert_eq!((totals.sent, totals.lost), (sent, lost));
            assert_eq!(totals.turned_away, turned_away);
            assert_eq!(totals.admitted, sent + lost + totals.waiting);
        }
        crowded[history as usize % 3] += turned_away;
    }
    assert!(crowded.iter().all(|&turned_away| turned_away > 0));
}

#[test]
fn scripts_of_any_content_are_played() {
    let mut numbers = Numbers(2);
    let values = [
        "0",
        "1",
        "2",
        "3",
        "4",
        "5",
        "8",
        "16",
        "17",
        "63",
        "64",
        "4096",
        "65536",
        "1073741824",
        "4294967295",
        "4294967296",
        "18446744073709551615",
    ];
    for _ in 0..200 {
        let mut script = String::from("U 1 8 8 3 3 3 3 1 0 2 0 3 0 A 1 9 2 A 2 9 1 A 3 30 4 ");
        for _ in 0..60 {
            match numbers.below(9) {
                0 => script += "S ",
                1 => script += "T ",
                2 => script += "A 1 50 2 ",
                3 => script += "R 9 3 2 0 1 50 2 12 2 60 1 ",
                4 => script += "B ",
                5 => script += "O ",
                _ => {
                    let field = 1 + numbers.below(32);
                    let index = numbers.below(4);
                    let value = values[numbers.below(values.len() as u64) as usize];
                    script += &format!("E {field} {index} {value} S ");
                }
            }
        }
        assert!(played(&script).ends_with("end\n"));
    }
}
