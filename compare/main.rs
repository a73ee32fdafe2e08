//! Compares the proved code, through its C face, with a second implementation that shares nothing with it (reference.rs), on many inputs.
//! Usage: compare [--quick | --speed] [SEED]

mod answers;
mod cases;
mod fast;
mod numbers;
mod ours;
mod plans;
mod reference;
mod speed;

use cases::{Comparison, CALLS};
use plans::Scale;

/// The worked example of the block in docs/ALGORITHMS.md, there and back, on the reference.
fn example() -> bool {
    let f = reference::Belt::new(&reference::H[128..160]);
    let image = 0x69CC_A1C9_3557_C9E3_D66B_C3E0_FA88_FA6E_u128.to_be_bytes();
    f.forward(&reference::H[..16]) == image && f.backward(&image) == reference::H[..16]
}

fn main() {
    let mut scale = Scale { quick: false };
    let mut seed = 1;
    let mut times = false;
    for word in std::env::args().skip(1) {
        match (word.as_str(), word.parse()) {
            ("--quick", _) => scale.quick = true,
            ("--speed", _) => times = true,
            (_, Ok(number)) => seed = number,
            _ => {
                eprintln!("usage: compare [--quick | --speed] [SEED]");
                std::process::exit(2);
            }
        }
    }
    if !example() {
        eprintln!("DIFFERS: the reference from the worked example of the block");
        std::process::exit(1);
    }
    if times {
        return speed::run(seed);
    }

    let mut comparison = Comparison::new(seed);
    let plans: [(&str, fn(&mut Comparison, Scale)); 7] = [
        ("lengths 0 to 600", Comparison::lengths),
        ("long messages", Comparison::long),
        ("short outputs", Comparison::short_outputs),
        ("key lengths", Comparison::key_lengths),
        ("tags", Comparison::tags),
        ("damaged texts", Comparison::damaged),
        ("carries in CTR", Comparison::carries),
    ];
    for (name, plan) in plans {
        let before = comparison.all();
        plan(&mut comparison, scale);
        println!("{name:18} {:>9} cases agreed", comparison.all() - before);
    }
    println!();
    for call in CALLS {
        let counts = comparison.agreed[call as usize];
        let answers: Vec<String> =
            counts.iter().enumerate().filter(|(_, n)| **n > 0).map(|(number, n)| format!("{number}: {n}")).collect();
        println!("{:12} {:>9} cases agreed, by answer {}", call.name(), counts.iter().sum::<u64>(), answers.join(", "));
    }
    println!("{} cases agreed, 0 differed (seed {seed})", comparison.all());
}
