//! A plan file with a mask and a request.
use crate::plans::{Maker, catalogue};
use crate::random::Random;
use model::{File, accept, nodes_in, tags_in, write};

#[derive(Clone, Debug)]
pub struct Case {
    pub mask: u16,
    /// `None` asks for all fields
    pub request: Option<Vec<u16>>,
    pub file: Vec<u8>,
}

#[derive(Clone, Copy)]
pub struct Mix {
    /// also plans outside the domain of equality that the texts can still be run on
    pub wide: bool,
    /// how many of a hundred files are of version 2
    pub second: usize,
    /// how many of a hundred tables of version 2 have a key, and how many of the plans over keys have an Aggregate at or near the root
    pub keys: usize,
    pub most_nodes: usize,
    /// of version 2 four times as many
    pub most_bytes: usize,
}

/// Of a hundred cases some 20 are chains of projections, one of them doubling its list; 25 have Empties among their leaves;
/// 8 have broad tables, of version 2 20; half refer to fields by their names alone too; half ask for all fields, with keys 15. Where no file of version 2 is
/// wanted nothing is drawn for it, so that a seed gives the cases that it gave.
pub fn case(r: &mut Random, mix: Mix) -> Case {
    loop {
        let second = mix.second > 0 && r.percent(mix.second);
        let broad = r.percent(if second { 20 } else { 8 });
        let catalogue = catalogue(r, broad, second, mix);
        let empties = if r.percent(25) { 30 } else { 0 };
        let shape = r.below(100);
        let depth = *r.pick(&[1, 2, 3, 4, 5, 6, 7, 9, 12, 16]);
        let alone = r.percent(50);
        let keyed = !catalogue.keys.is_empty();
        let mut maker = Maker { r, catalogue, empties, alone, keyed, wide: mix.wide };
        let (plan, _) = match shape {
            _ if keyed && maker.r.percent(mix.keys) => maker.grouped(depth),
            0 => maker.doubling(),
            1..20 => maker.chain(),
            _ => maker.plan(depth, false),
        };
        let file = File { catalogue: maker.catalogue, plan };
        let bytes = write(&file);
        let most = if second { 4 * mix.most_bytes } else { mix.most_bytes };
        if nodes_in(&file.plan) > mix.most_nodes || bytes.len() > most || tags_in(&file.plan) > 4096 {
            continue;
        }
        let Ok(fields) = accept(&file.plan, &file.catalogue) else {
            continue;
        };
        let mask = match r.below(7) {
            0 | 1 => 0,
            2 => 1,
            3 => 32,
            4 => 4095,
            _ => r.below(4096) as u16,
        };
        let some = r.percent(if keyed { 85 } else { 50 });
        let request = some.then(|| r.subset(fields.len()).into_iter().map(|i| i as u16).collect());
        return Case { mask, request, file: bytes };
    }
}
