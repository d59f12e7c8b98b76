//! Two heaps that play the same actions. After every call their answers, records and regions are compared.

use crate::case::Stage;
use crate::side::{Action, Answers, Side};
use kruzhvela::flat::Answer;

pub struct Duel {
    first: Side,
    other: Side,
    pub calls: u64,
    pub differences: u64,
    /// Print each action as it is played.
    pub verbose: bool,
    over: bool,
}

impl Duel {
    pub fn new(first: Answers, other: Answers) -> Duel {
        Duel { first: Side::new(first), other: Side::new(other), calls: 0, differences: 0, verbose: false, over: false }
    }

    fn agree(&self, answers: (Option<Answer>, Option<Answer>)) -> bool {
        answers.0 == answers.1 && self.first.record == self.other.record && self.first.region == self.other.region
    }

    /// Begins the next case.
    pub fn begin(&mut self) {
        self.over = false;
    }

    fn print(&self, action: &Action, answers: (Option<Answer>, Option<Answer>), agree: bool) {
        println!("{action:?}");
        if let (Some(first), Some(other)) = answers {
            println!("    {first:?}");
            if !agree {
                println!("    {other:?} by the other");
                self.print_words("record", &self.first.record, &self.other.record);
                self.print_words("region", &self.first.region, &self.other.region);
            }
        }
    }

    fn print_words(&self, name: &str, first: &[u32], other: &[u32]) {
        for (index, (a, b)) in first.iter().zip(other).enumerate().filter(|(_, (a, b))| a != b) {
            println!("    {name} word {index}: {a}, by the other {b}");
        }
    }
}

impl Stage for Duel {
    fn play(&mut self, action: Action) -> Option<Answer> {
        if self.over {
            return None;
        }
        let answers = (self.first.play(&action), self.other.play(&action));
        let is_call = answers.0.is_some();
        let agree = !is_call || self.agree(answers);
        if self.verbose {
            self.print(&action, answers, agree);
        }
        self.calls += u64::from(is_call);
        if !agree {
            self.differences += 1;
            self.over = true;
        }
        answers.0
    }

    fn side(&self) -> &Side {
        &self.first
    }

    fn is_over(&self) -> bool {
        self.over
    }
}
