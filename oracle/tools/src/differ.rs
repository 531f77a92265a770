//! N random accepted plans through the unchanged texts and through something of ours, crate mode, results compared byte by byte.
use crate::shrink::shrink;
use crate::{Verdict, texts, verdict};
use generator::{Case, Mix, Random, case, hex, line};
use model::{Answer, Catalogue, File, Plan, Ways, fields, names_alone, nodes_in, read, write};
use std::collections::BTreeMap;

#[derive(Clone, Copy)]
pub struct Words {
    pub n: usize,
    pub seed: u64,
    /// leaves the domain of equality where the stand-ins can
    pub wide: bool,
    /// version 2 alone, with keys
    pub keys: bool,
}

#[derive(Default)]
struct Counts {
    changed: usize,
    asking: usize,
    alone: usize,
    second: usize,
    keyed: usize,
    by_key: usize,
    by_key_equal: usize,
    filtered: usize,
    largest: usize,
    most_nodes: usize,
    broadest: usize,
    kinds: BTreeMap<&'static str, usize>,
    joins: [usize; 8],
}

impl Counts {
    fn plan(&mut self, plan: &Plan) {
        *self.kinds.entry(plan.kind()).or_default() += 1;
        match plan {
            Plan::Join(join, ..) => self.joins[join.kind as usize] += 1,
            Plan::Scan { filters, .. } => self.filtered += !filters.is_empty() as usize,
            _ => {}
        }
        plan.children().into_iter().for_each(|p| self.plan(p));
    }
    fn case(&mut self, case: &Case, texts: &Result<Vec<u8>, String>, ours: &Answer, equal: bool) {
        let file = read(&case.file).expect("accepted");
        self.plan(&file.plan);
        self.most_nodes = self.most_nodes.max(nodes_in(&file.plan));
        self.broadest = self.broadest.max(fields(&file.plan, &file.catalogue).len());
        self.asking += case.request.is_some() as usize;
        self.alone += (names_alone(&file.plan, &file.catalogue) > 0) as usize;
        self.second += (file.catalogue.version.number == 2) as usize;
        self.keyed += !file.catalogue.keys.is_empty() as usize;
        let by_key = key_matters(case, file, ours);
        self.by_key += by_key as usize;
        self.by_key_equal += (by_key && equal) as usize;
        self.largest = self.largest.max(case.file.len());
        self.changed += (texts.as_ref() != Ok(&case.file)) as usize;
    }
    fn show(&self) {
        println!("  asking for some fields only: {}; changed by the pass: {}", self.asking, self.changed);
        println!("  of version 2: {}; scans with filters: {}", self.second, self.filtered);
        let by_key = (self.by_key, self.by_key_equal);
        println!("  with keys: {}; a group of ours goes by one: {}, {} of them equal", self.keyed, by_key.0, by_key.1);
        println!("  with a name alone that finds a field with a qualifier: {}", self.alone);
        let most = (self.largest, self.most_nodes, self.broadest);
        println!("  longest file {} bytes, most nodes {}, most fields of a root {}", most.0, most.1, most.2);
        println!("  nodes: {}", self.kinds.iter().map(|(k, n)| format!("{k} {n}")).collect::<Vec<_>>().join(", "));
        println!("  joins by type 0 to 7: {:?}", self.joins);
    }
}

/// Without the keys our answer has another plan.
fn key_matters(case: &Case, file: File, ours: &Answer) -> bool {
    let (false, Ok(ours)) = (file.catalogue.keys.is_empty(), ours) else { return false };
    let bare = write(&File { catalogue: Catalogue { keys: vec![], ..file.catalogue }, plan: file.plan });
    let bare = model::answer(0, case.mask, &bare, case.request.as_deref(), usize::MAX);
    let plan = |bytes: &[u8]| read(bytes).ok().map(|f| f.plan);
    bare.is_ok_and(|bare| plan(&bare) != plan(ours))
}

/// The shortest twenty, made smaller; the shortest of what is left.
fn smallest(cases: &[Case], same: &mut dyn FnMut(&Case) -> bool) -> Case {
    let mut cases: Vec<&Case> = cases.iter().collect();
    cases.sort_by_key(|c| c.file.len());
    let shrunk = cases.into_iter().take(20).map(|c| shrink(c, same));
    shrunk.min_by_key(|c| c.file.len()).expect("one at least")
}

/// In hex, or its length where it is long.
fn shown(bytes: &[u8]) -> String {
    if bytes.len() > 1000 { format!("{} bytes", bytes.len()) } else { hex(bytes) }
}

fn name(verdict: Verdict) -> String {
    match verdict {
        Verdict::Known(ways) => ways.list().iter().map(|w| format!("{w:?}")).collect::<Vec<_>>().join(" and "),
        other => format!("{other:?}"),
    }
}

/// The smallest case of a class, with what each side says.
fn example(wanted: Verdict, cases: &[Case], ours: &mut dyn FnMut(&Case) -> Answer) {
    let least = smallest(cases, &mut |x| verdict(x, &texts(x), &ours(x)) == wanted);
    println!("smallest {}: {}", name(wanted), line(&least, 0, 65536));
    match texts(&least) {
        Ok(b) => println!("  texts    {}", shown(&b)),
        Err(words) => println!("  texts    refuse: {words}"),
    }
    let request = least.request.as_deref();
    let mut said = vec![("ours     ", ours(&least))];
    if wanted == Verdict::Unexplained {
        said.push(("model    ", model::answer(0, least.mask, &least.file, request, usize::MAX)));
        said.push(("foretold ", model::answer_with(Ways::ALL, least.mask, &least.file, request)));
    }
    for (who, answer) in said {
        match answer {
            Ok(b) => println!("  {who}{}", shown(&b)),
            Err(fault) => println!("  {who}refuses: code {}, place {}", fault.code, fault.place),
        }
    }
}

/// `who`: what the texts are compared with. False if a difference is not explained.
pub fn differ(words: Words, who: &str, mut ours: impl FnMut(&Case) -> Answer) -> bool {
    let Words { n, seed, wide, keys } = words;
    let mut r = Random::new(seed);
    let (second, keyed) = if keys { (100, 85) } else { (50, 0) };
    let mix = Mix { wide, second, keys: keyed, most_nodes: 256, most_bytes: 12000 };
    let (mut c, mut classes) = (Counts::default(), BTreeMap::<Verdict, Vec<Case>>::new());
    let mut equal = 0;
    for _ in 0..n {
        let case = case(&mut r, mix);
        let (texts, answer) = (texts(&case), ours(&case));
        let class = verdict(&case, &texts, &answer);
        c.case(&case, &texts, &answer, class == Verdict::Equal);
        match class {
            Verdict::Equal => equal += 1,
            known => classes.entry(known).or_default().push(case),
        }
    }
    let said = [if wide { ", wide" } else { "" }, if keys { ", keys" } else { "" }].concat();
    println!("{n} plans, seed {seed}{said}, texts and {who}: {equal} equal, {} differ", n - equal);
    c.show();
    for (class, cases) in &classes {
        println!("  differ, {}: {}", name(*class), cases.len());
    }
    for (class, cases) in &classes {
        // where several ways are needed, each has its own example
        if !matches!(class, Verdict::Known(ways) if ways.list().len() > 1) {
            example(*class, cases, &mut ours);
        }
    }
    let count = |v: Verdict| classes.get(&v).map_or(0, Vec::len);
    let (limit, unexplained) = (count(Verdict::Limit), count(Verdict::Unexplained));
    let known = n - equal - limit - unexplained;
    println!(
        "{}: {n} plans, seed {seed}{said}: {equal} equal, {known} in known classes, {limit} over the limits, {unexplained} unexplained",
        if unexplained == 0 { "passed" } else { "failed" },
    );
    unexplained == 0
}
