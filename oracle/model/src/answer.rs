//! The whole call: code, length, place and result.
use crate::accept::accept;
use crate::plan::File;
use crate::read::Fault;
use crate::read_nodes::read;
use crate::rewrite::{Setting, rewrite};
use crate::ways::Ways;
use crate::write::{nodes_in, tags_in, write};

/// The result's bytes, or a code and a place.
pub type Answer = Result<Vec<u8>, Fault>;

/// `request`: `None` asks for all fields. `room`: the length of the output buffer.
pub fn answer(mode: u8, mask: u16, file: &[u8], request: Option<&[u16]>, room: usize) -> Answer {
    run(mode, mask, file, request, room, Ways::NONE, true)
}

/// Crate mode with the Rust's ways and without limits: with all ways what the texts give.
pub fn answer_with(ways: Ways, mask: u16, file: &[u8], request: Option<&[u16]>) -> Answer {
    run(0, mask, file, request, usize::MAX, ways, false)
}

fn run(mode: u8, mask: u16, file: &[u8], request: Option<&[u16]>, room: usize, ways: Ways, limits: bool) -> Answer {
    let refuse = |code, place: usize| Err(Fault { code, place: place as u64 });
    if mode > 1 || mask > 4095 {
        return refuse(1, 0);
    }
    let File { catalogue, plan } = read(file)?;
    let width = accept(&plan, &catalogue)?.len();
    let request: Vec<usize> = match request {
        None => (0..width).collect(),
        Some(r) => {
            let bad = |i: &usize| r[*i] as usize >= width || (*i > 0 && r[*i] <= r[*i - 1]);
            if let Some(i) = (0..r.len()).find(bad) {
                return refuse(11, i);
            }
            r.iter().map(|i| *i as usize).collect()
        }
    };
    let set = Setting { catalogue: &catalogue, mask, house: mode == 1, limits, ways };
    let Ok(plan) = rewrite(&plan, &request, &set) else {
        return refuse(12, 0);
    };
    if limits && (nodes_in(&plan) > 256 || tags_in(&plan) > 4096) {
        return refuse(12, 0);
    }
    let bytes = write(&File { catalogue, plan });
    if bytes.len() > room { refuse(13, bytes.len()) } else { Ok(bytes) }
}
