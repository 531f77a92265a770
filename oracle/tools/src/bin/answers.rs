//! answers N SEED: N cases of version 1 and then a seventh as many of version 2 with the texts' answers, as the program `replay`
//! takes them: `0 mask out_len request file => 0 length 0 out`.
//! Inside document 01's domain of equality; version 2 without keys. Left out: plans on which the texts are known to differ
//! (docs/DIFFERENCES.md, a stale schema over an Empty leaf) and plans that document 01 refuses for their size. The room is the
//! result's length, one more, or much more.
use generator::{Mix, Random, case, hex, line};

/// `n` cases of the first mix, every twentieth of the other, larger one.
fn answers(r: &mut Random, n: u64, [small, large]: [Mix; 2]) {
    let mut written = 0;
    while written < n {
        let mix = if written % 20 == 19 { large } else { small };
        let case = case(r, mix);
        let Ok(result) = tools::texts(&case) else {
            panic!("the texts refuse {}", line(&case, 0, 0));
        };
        let request = case.request.as_deref();
        let here = model::answer(0, case.mask, &case.file, request, usize::MAX);
        let there = model::answer_with(model::Ways::ALL, case.mask, &case.file, request);
        if here.is_err() || here != there || result.len() > 1400 {
            continue;
        }
        let room = result.len() + *r.pick(&[0, 1, 100]);
        println!("{} => 0 {} 0 {}", line(&case, 0, room), result.len(), hex(&result));
        written += 1;
    }
}

fn main() {
    let mut words = std::env::args().skip(1).map(|a| a.parse::<u64>().expect("N SEED"));
    let (n, seed) = (words.next().expect("N"), words.next().expect("SEED"));
    tools::on_deep_stack(move || {
        let mut r = Random::new(seed);
        let mix = |second, most_nodes, most_bytes| Mix { wide: false, second, keys: 0, most_nodes, most_bytes };
        answers(&mut r, n, [mix(0, 24, 360), mix(0, 80, 1400)]);
        // of version 2 the files may be four times as long
        answers(&mut r, n / 7, [mix(100, 24, 100), mix(100, 80, 400)]);
    });
}
