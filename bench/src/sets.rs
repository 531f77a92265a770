//! The plans, and the mode that they are pruned in.
use generator::{Case, broad, random_of, sized};
use model::{VERSION1, VERSION2};
use simmerroof::{Mode, Pruner};

pub struct Set {
    pub name: String,
    pub nodes: usize,
    pub mode: Mode,
    pub files: Vec<Vec<u8>>,
    pub paths: Vec<String>,
    /// a point of the plot
    pub plotted: bool,
}

/// The Rust has no house mode.
pub fn in_the_rust(mode: Mode) -> bool {
    mode == Mode::Crate
}

impl Set {
    fn of(name: &str, nodes: usize, files: Vec<Vec<u8>>, dir: &str) -> Set {
        let path = |i: usize| format!("{dir}/{}-{i}.cpl", name.replace([' ', ','], "-"));
        let paths: Vec<String> = (0..files.len()).map(path).collect();
        paths.iter().zip(&files).for_each(|(p, f)| std::fs::write(p, f).expect("a plan is written"));
        Set { name: name.into(), nodes, mode: Mode::Crate, files, paths, plotted: false }
    }
    fn in_house_mode(self) -> Set {
        Set { name: format!("{}, house", self.name), mode: Mode::House, ..self }
    }
    fn plotted(self) -> Set {
        Set { plotted: true, ..self }
    }
    pub fn of_paths(mode: Mode, paths: &[String]) -> Set {
        let files = paths.iter().map(|p| std::fs::read(p).expect("a plan file")).collect();
        Set { name: String::new(), nodes: 1, mode, files, paths: paths.to_vec(), plotted: false }
    }
    /// What must come out: in crate mode what the Rust gives, in house mode what the model gives.
    fn wanted(&self, file: &[u8]) -> Vec<u8> {
        if in_the_rust(self.mode) {
            let case = Case { mask: 0, request: None, file: file.to_vec() };
            return tools::texts(&case).expect("the texts accept it");
        }
        model::answer(self.mode as u8, 0, file, None, usize::MAX).unwrap_or_else(|f| panic!("code {}", f.code))
    }
    /// Sizes before and after, and whether the wanted results are the library's, byte by byte.
    pub fn compared(&self) -> String {
        let (mut bytes, mut after, mut nodes, mut same) = (0, 0, 0, 0);
        for file in &self.files {
            let wanted = self.wanted(file);
            let library = Pruner::new().prune_to_vec(self.mode, 0, file, None);
            same += (library.as_ref() == Ok(&wanted)) as usize;
            bytes += file.len();
            after += wanted.len();
            nodes += model::nodes_in(&model::read(&wanted).expect("a result").plan);
        }
        let n = self.files.len();
        format!(
            "{}: {} file(s), {} nodes, {} bytes; after the pass {} nodes, {} bytes (means); {same} of {n} results the same as {}",
            self.name,
            n,
            self.nodes,
            bytes / n,
            nodes / n,
            after / n,
            if in_the_rust(self.mode) { "the Rust's" } else { "the model's" },
        )
    }
}

/// Plans of 5, 20, 80 and 256 nodes; 40 random ones of 20 nodes; 20 nodes over tables of 4 to 64 columns; and house mode. Then files
/// of version 2: two of these plans, and 20 nodes over tables of up to 512 columns, without and with filters on the scans.
pub fn all(dir: &str) -> Vec<Set> {
    std::fs::create_dir_all(dir).expect("a directory for the plans");
    let nodes = |n: usize| Set::of(&format!("{n} nodes"), n, vec![sized(VERSION1, n)], dir);
    let columns = |w: u16| Set::of(&format!("{w} columns"), 20, vec![broad(VERSION1, w, false)], dir);
    let mut sets: Vec<Set> = [5, 20, 80, 256].map(|n| nodes(n).plotted()).into();
    sets.push(Set::of("20 nodes random", 20, random_of(20, 40, 20), dir));
    sets.extend([4, 16, 32, 64].map(columns));
    sets.extend([nodes(20), nodes(256), columns(4), columns(64)].map(Set::in_house_mode));
    let second = |n: usize| Set::of(&format!("v2, {n} nodes"), n, vec![sized(VERSION2, n)], dir);
    let wide = |w: u16| Set::of(&format!("v2, {w} columns"), 20, vec![broad(VERSION2, w, false)], dir);
    let filtered = |w: u16| Set::of(&format!("v2, {w}, filters"), 20, vec![broad(VERSION2, w, true)], dir);
    sets.extend([second(20), second(256)]);
    sets.extend([4, 64, 256, 512].map(wide));
    sets.push(filtered(512));
    sets.extend([wide(512), filtered(512)].map(Set::in_house_mode));
    sets
}
