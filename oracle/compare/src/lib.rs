//! The library's answer to a case, by both of its forms, as the model gives its own.
use generator::Case;
use model::{Answer, Fault};
use simmerroof::{Mode, Pruner};

pub struct Library {
    slip: bool,
    pruner: Pruner,
    plain: Vec<u8>,
    lent: Vec<u8>,
}

/// The length of the output buffer, more than any result has here.
pub const ROOM: usize = 1 << 17;
const UNTOUCHED: u8 = 0xA5;

impl Library {
    /// `slip`: a byte of each longer result is changed, so that a comparison can be seen to fail.
    pub fn new(slip: bool) -> Self {
        Library { slip, pruner: Pruner::new(), plain: vec![UNTOUCHED; ROOM], lent: vec![UNTOUCHED; ROOM] }
    }

    pub fn answer(&mut self, mode: Mode, case: &Case) -> Answer {
        self.answer_in(mode, case, ROOM)
    }

    /// Calls the plain and the lent form with an output of `room` bytes and holds them to each other, and to leaving the rest
    /// of the output alone.
    pub fn answer_in(&mut self, mode: Mode, case: &Case, room: usize) -> Answer {
        let Case { mask, file, request } = case;
        let (out, lent_out) = (&mut self.plain[..room], &mut self.lent[..room]);
        let (plain, lent) = match request {
            Some(r) => {
                (simmerroof::prune(mode, *mask, file, r, out), self.pruner.prune(mode, *mask, file, r, lent_out))
            }
            None => (simmerroof::prune_all(mode, *mask, file, out), self.pruner.prune_all(mode, *mask, file, lent_out)),
        };
        assert_eq!(plain, lent, "the plain and the lent form differ");
        let n = plain.unwrap_or(0);
        assert!(self.plain[..n] == self.lent[..n], "the plain and the lent form write different results");
        for out in [&mut self.plain, &mut self.lent] {
            // results are short; looking a little past them keeps the run quick
            let past = &out[n..(n + 64).min(ROOM)];
            assert!(past.iter().all(|b| *b == UNTOUCHED), "bytes past the result changed");
        }
        if self.slip && n > 80 {
            self.plain[80] ^= 1;
        }
        let answer = plain.map(|n| self.plain[..n].to_vec());
        let answer = answer.map_err(|f| Fault { code: f.kind.code() as u64, place: f.place as u64 });
        self.plain[..n].fill(UNTOUCHED);
        self.lent[..n].fill(UNTOUCHED);
        answer
    }
}
