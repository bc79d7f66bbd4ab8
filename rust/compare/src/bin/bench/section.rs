//! A section: cases that are measured beside each other, their figures, and the table of them.
use crate::measure::{Figures, Runs};
use compare::states::Case;

pub struct Section {
    /// the state, as a sentence has it
    pub place: String,
    pub cases: Vec<Case>,
    pub times: Vec<Figures>,
    pub runs: Vec<Runs>,
    pub counts: Vec<Option<Figures>>,
}

impl Section {
    /// The row of the case whose name begins so.
    fn of(&self, name: &str) -> usize {
        self.cases.iter().position(|c| c.name.starts_with(name)).expect("a case of the section")
    }

    pub fn runs(&self, name: &str) -> &Runs {
        &self.runs[self.of(name)]
    }

    pub fn time(&self, name: &str) -> Figures {
        self.times[self.of(name)]
    }

    pub fn count(&self, name: &str) -> Option<Figures> {
        self.counts[self.of(name)]
    }

    /// The row of the shape alone on a row's state: the last that is no further down.
    pub fn alone(&self, row: usize) -> usize {
        self.cases[..=row].iter().rposition(Case::is_alone).expect("the shape alone of the state")
    }

    /// A case with its place.
    pub fn named(&self, row: usize) -> String {
        format!("\"{}\" {}", self.cases[row].name, self.place)
    }

    pub fn table(&self) {
        print!("| Call | Rattle ns | Rust ns | ratio | pass ns | Rattle to the pass |");
        println!(" Rattle instructions | Rust instructions | ratio | pass instructions |");
        println!("|---|---|---|---|---|---|---|---|---|---|");
        for (row, c) in self.cases.iter().enumerate() {
            let (t, runs) = (self.times[row], &self.runs[row]);
            print!("| {} | {:.0} | {:.0} | {:.2} |", c.name, t.linked, t.model, runs.ratio(Figures::ratio));
            print!(" {:.0} | {:.2} |", t.pass, runs.ratio(Figures::to_the_pass));
            match self.counts[row] {
                Some(n) => println!(" {:.0} | {:.0} | {:.2} | {:.0} |", n.linked, n.model, n.ratio(), n.pass),
                None => println!(" | | | |"),
            }
        }
    }
}
