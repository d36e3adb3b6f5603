//! The soak, on few inputs: a seed decides them, whatever the threads, and a
//! difference is told by its kind and its number.

use compare::soak::{portions, run, Answer, Case, Difference, Kind, Tally, KINDS};

const COUNT: usize = 200;

fn soaked(seed: u64, threads: usize) -> Vec<Tally> {
    run(&KINDS, COUNT, seed, threads).expect("both programs answer alike")
}

#[test]
fn a_seed_decides_the_inputs() {
    let [first, second] = [1, 2].map(|seed| soaked(seed, 2));
    assert_eq!(first, soaked(1, 1));
    assert_eq!(first.iter().map(|tally| tally.inputs).sum::<usize>(), COUNT);
    for ((kind, one), other) in KINDS.iter().zip(&first).zip(&second) {
        assert!(one.inputs > 0, "{}", kind.name);
        assert_ne!(one.checksum, other.checksum, "{}", kind.name);
    }
}

#[test]
fn portions_are_all_the_inputs() {
    for count in [0, 1, KINDS.len() - 1, KINDS.len(), 100, COUNT, 12_345] {
        let portions = portions(&KINDS, count);
        assert_eq!(portions.iter().sum::<usize>(), count);
        let some = portions.iter().filter(|&&portion| portion > 0).count();
        assert_eq!(some, count.min(KINDS.len()), "{count}");
    }
    let weights: Vec<usize> = KINDS.iter().map(|kind| kind.weight).collect();
    assert_eq!(portions(&KINDS, 1_000_000), weights);
}

/// Of 20 inputs one is refused by 4, and four are by 5.
fn alike(number: usize) -> Answer {
    match number % 20 {
        0 => Answer::Refused(4),
        1..=4 => Answer::Refused(5),
        _ => Answer::Told("alike"),
    }
}

#[test]
fn a_difference_is_told() {
    let kinds = [
        Kind {
            name: "alike",
            weight: 3,
            compare: |_, number| Case::new(vec![number as u8], alike(number)),
        },
        Kind {
            name: "not alike",
            weight: 1,
            compare: |_, number| match number {
                1..=6 => Case::new(Vec::new(), Answer::Refused(5)),
                _ => panic!("input {number}"),
            },
        },
    ];
    let difference = Difference {
        kind: "not alike",
        number: 7,
        said: "input 7".to_string(),
    };
    assert_eq!(run(&kinds, COUNT, 1, 2), Err(difference));
    let tallies = run(&kinds[..1], COUNT, 1, 2).expect("all are alike");
    let told = "alike 150, refused 50 (4: 10, 5: 40)";
    assert_eq!(tallies[0].to_string(), told);
}
