//! How many inputs have reached what, with everything listed, so that what never occurs is seen.
use crate::aims::Aims;

/// Names in the order of printing, each with how many inputs have reached it.
pub struct Counters {
    counts: Vec<(&'static str, u64)>,
    /// Which names the input at hand has reached: each counts it once.
    reached: Vec<bool>,
    inputs: u64,
    impossible: &'static [(&'static str, &'static str)],
}

impl Counters {
    pub fn new(aims: &Aims) -> Counters {
        let names = aims.names.iter().copied().flatten();
        let counts: Vec<_> = names.map(|name| (*name, 0)).collect();
        Counters {
            reached: vec![false; counts.len()],
            counts,
            inputs: 0,
            impossible: aims.impossible,
        }
    }

    /// What is not listed to be reached cannot occur, and the run ends where it does.
    pub fn reach(&mut self, name: &str) {
        let at = self.counts.iter().position(|(listed, _)| *listed == name);
        self.reached[at.unwrap_or_else(|| panic!("impossible, and yet: {name}"))] = true;
    }

    pub fn reach_if(&mut self, is_reached: bool, name: &str) {
        if is_reached {
            self.reach(name);
        }
    }

    /// The input at hand is done.
    pub fn next(&mut self) {
        self.inputs += 1;
        for ((_, count), reached) in self.counts.iter_mut().zip(&mut self.reached) {
            *count += u64::from(std::mem::take(reached));
        }
    }

    /// Prints all, and gives how many names no input has reached.
    pub fn print(&self, call: &str) -> usize {
        println!("{:>9}  {call}", self.inputs);
        for (name, count) in &self.counts {
            let never = if *count == 0 { "   NEVER" } else { "" };
            println!("{count:>13}  {name}{never}");
        }
        for (name, reason) in self.impossible {
            println!("   impossible  {name}: {reason}");
        }
        self.counts.iter().filter(|(_, count)| *count == 0).count()
    }
}
