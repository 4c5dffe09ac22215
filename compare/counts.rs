//! Counts of what was compared, and the print of what should not be.
use crate::answers::Answer;
use std::collections::BTreeMap;
use std::fmt::Debug;

#[derive(Clone, Copy, Debug, PartialEq, Eq)]
pub(crate) enum Verdict {
    Equal,
    Listed(&'static str),
    Unlisted,
}

#[derive(Default)]
pub(crate) struct Counts {
    equal: BTreeMap<(&'static str, usize), usize>,
    listed: BTreeMap<(&'static str, &'static str), usize>,
    among: BTreeMap<&'static str, usize>,
    pub(crate) unlisted: usize,
}

// Enough of a long case to make it again.
const SHOWN: usize = 4000;

impl Counts {
    pub(crate) fn settle(&mut self, what: &'static str, verdict: Verdict, answer: &Answer) {
        match verdict {
            Verdict::Equal => *self.equal.entry((what, answer.number)).or_default() += 1,
            Verdict::Listed(class) => *self.listed.entry((what, class)).or_default() += 1,
            Verdict::Unlisted => self.unlisted += 1,
        }
    }

    pub(crate) fn among(&mut self, what: &'static str) {
        *self.among.entry(what).or_default() += 1;
    }

    pub(crate) fn print(&self, what: &str, case: impl Debug, port: impl Debug, rust: impl Debug) -> Verdict {
        if self.unlisted < 20 {
            let case: String = format!("{case:?}").chars().take(SHOWN).collect();
            println!("UNLISTED DIFFERENCE in {what}: {case}\n  port {port:?}\n  Rust {rust:?}");
        }
        Verdict::Unlisted
    }

    // Of each operation, whatever came of it.
    fn compared(&self) -> BTreeMap<&'static str, usize> {
        let equal = self.equal.iter().map(|((what, _), n)| (*what, *n));
        let listed = self.listed.iter().map(|((what, _), n)| (*what, *n));
        let mut sums = BTreeMap::new();
        equal.chain(listed).for_each(|(what, n)| *sums.entry(what).or_default() += n);
        sums
    }

    pub(crate) fn show(&self) {
        println!("equal on both sides");
        for ((what, number), n) in &self.equal {
            let answer = if *number == 0 { "granted".into() } else { format!("refused {number}") };
            println!("{n:8}  {what}, {answer}");
        }
        println!("differences that docs/DIFFERENCES.md lists, each as said there");
        for ((what, class), n) in &self.listed {
            println!("{n:8}  {what}: {class}");
        }
        println!("among the granted calls");
        for (what, n) in &self.among {
            println!("{n:8}  {what}");
        }
        println!("compared in all");
        for (what, n) in self.compared() {
            println!("{n:8}  {what}");
        }
        println!("{:8}  differences that docs/DIFFERENCES.md does not list", self.unlisted);
    }
}
