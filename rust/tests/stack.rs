//! The files that need the most stack of those tried: 254 limits over one item whose expression is 4,090 deep, in both versions.
//! How much they need is measured by bench/stack; here only that it is enough.
use simmerroof::{Mode, Pruner, Refusal, check, prune_all};
use std::thread;

fn deepest(version: u8) -> Vec<u8> {
    let (late, wide): (&[u8], &[u8]) = if version == 1 { (&[], &[1]) } else { (&[0], &[1, 0]) };
    let mut file = [&[b'C', b'P', b'L', version, 0, 0], late].concat();
    (0..254).for_each(|_| file.extend([4, 0, 0, 0, 0, 3, 0, 0, 0]));
    file.extend([&[1], wide, &[12, 0, 0, 1, 0]].concat());
    file.extend([3; 4090]);
    file.extend([0, 0, 0, 1, 0]);
    file.extend([&[12, 0], wide, &[0, 0, 1, 0]].concat());
    file
}

fn on_stack(bytes: usize, version: u8, call: fn(&[u8], &mut [u8]) -> Result<usize, Refusal>) {
    let work = move || {
        let (file, mut out) = (deepest(version), vec![0; 8192]);
        let written = call(&file, &mut out);
        // nothing can be left out of it
        assert_eq!(written, Ok(file.len()));
        assert_eq!(&out[..file.len()], file);
    };
    thread::Builder::new().stack_size(bytes).spawn(work).unwrap().join().unwrap();
}

#[test]
fn lent_form_on_a_thread_of_3_mib() {
    for version in [1, 2] {
        on_stack(3 << 20, version, |file, out| Pruner::new().prune_all(Mode::House, 0, file, out));
    }
}

#[test]
fn plain_form_on_a_thread_of_4_mib() {
    on_stack(4 << 20, 1, |file, out| prune_all(Mode::House, 0, file, out));
}

#[test]
fn plain_form_of_version_2_on_a_thread_of_8_mib() {
    on_stack(8 << 20, 2, |file, out| prune_all(Mode::House, 0, file, out));
}

#[test]
fn check_on_the_same_threads() {
    for (version, mib) in [(1, 4), (2, 8)] {
        let work = move || assert!(check(&deepest(version)).is_ok());
        thread::Builder::new().stack_size(mib << 20).spawn(work).unwrap().join().unwrap();
    }
}
