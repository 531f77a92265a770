//! The four forms that are measured. Mask 0, all fields.
use crate::sets::{Set, in_the_rust};
use simmerroof::{Pruner, prune_all};
use std::hint::black_box;
use std::mem::forget;
use std::time::Instant;

pub const FORMS: [Which; 4] = [Which::Pass, Which::Rust, Which::Lent, Which::Plain];
pub const NAMES: [&str; 4] = ["Rust, pass alone", "Rust, with file codec", "library, lent form", "library, plain form"];

#[derive(Clone, Copy)]
pub enum Which {
    Pass,
    Rust,
    Lent,
    Plain,
    /// reading alone, only counted: it is taken off what the pass costs together with it
    Read,
}

pub struct Form<'a> {
    which: Which,
    set: &'a Set,
    pruner: Pruner,
    /// the output buffer, made once; nobody clears it between calls
    out: Vec<u8>,
}

const OUT: usize = 1 << 16;

impl<'a> Form<'a> {
    pub fn new(which: Which, set: &'a Set) -> Self {
        rig::set_mask(0);
        Form { which, set, pruner: Pruner::new(), out: vec![0; OUT] }
    }

    /// Does this form have the set's mode?
    pub fn applies(&self) -> bool {
        matches!(self.which, Which::Lent | Which::Plain) || in_the_rust(self.set.mode)
    }

    /// Nanoseconds a call, over the set's files and as many repetitions as make a run of some milliseconds.
    pub fn nanoseconds(&mut self) -> f64 {
        let repetitions = 4000 / (self.set.nodes * self.set.files.len()) + 2;
        let mut total = 0;
        for file in &self.set.files {
            total += self.run(file, repetitions);
        }
        total as f64 / (repetitions * self.set.files.len()) as f64
    }

    fn run(&mut self, file: &[u8], repetitions: usize) -> u128 {
        if let Which::Pass = self.which {
            // each plan is read before the clock starts, and its result dropped after it stops
            let mut time = 0;
            for _ in 0..repetitions {
                let plan = rig::read(black_box(file)).expect("accepted").plan;
                let clock = Instant::now();
                let result = rig::pass(black_box(plan));
                time += clock.elapsed().as_nanos();
                black_box(result).expect("rewritten");
            }
            return time;
        }
        let clock = Instant::now();
        for _ in 0..repetitions {
            black_box(self.call(black_box(file)));
        }
        clock.elapsed().as_nanos()
    }

    fn call(&mut self, file: &[u8]) -> usize {
        match self.which {
            Which::Pass | Which::Read => unreachable!("by itself"),
            Which::Rust => {
                let rig::File { head, version, plan } = rig::read(file).expect("accepted");
                self.out.clear();
                self.out.extend_from_slice(&head);
                rig::write_plan(&mut self.out, version, &rig::pass(plan).expect("rewritten"));
                self.out.len()
            }
            Which::Lent => self.pruner.prune_all(self.set.mode, 0, file, &mut self.out).expect("accepted"),
            Which::Plain => prune_all(self.set.mode, 0, file, &mut self.out).expect("accepted"),
        }
    }

    /// `calls` calls on each file, to be counted. Nobody drops what reading and the pass give.
    pub fn counted(&mut self, calls: usize) {
        let set = self.set;
        for file in set.files.iter().flat_map(|file| std::iter::repeat_n(file, calls)) {
            match self.which {
                Which::Read => forget(black_box(rig::read(black_box(file)).expect("accepted").plan)),
                Which::Pass => {
                    let plan = black_box(rig::read(black_box(file)).expect("accepted").plan);
                    forget(black_box(rig::pass(plan)).expect("rewritten"));
                }
                _ => {
                    black_box(self.call(black_box(file)));
                }
            }
        }
    }
}
