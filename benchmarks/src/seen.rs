//! What the self-check has seen.

/// What was seen: how many calls, and each returned number and rule.
#[derive(Default)]
pub struct Seen {
    pub calls: usize,
    pub numbers: [usize; 19],
    pub rules: Vec<(char, usize)>,
}

impl Seen {
    pub fn number(&mut self, number: u32) {
        self.calls += 1;
        self.numbers[number as usize] += 1;
    }

    pub fn rule(&mut self, rule: u32) {
        let letter = char::from(rule as u8);
        match self.rules.iter_mut().find(|(seen, _)| *seen == letter) {
            Some((_, times)) => *times += 1,
            None => self.rules.push((letter, 1)),
        }
    }

    /// Numbers 0 to 14 and 18, all nine rules and a refusal occurred.
    pub fn is_whole(&self) -> bool {
        let mut wanted = (0..15).chain([18]);
        wanted.all(|k: usize| self.numbers[k] > 0) && self.rules.len() == 10
    }

    /// One line on what was seen.
    pub fn line(&self) -> String {
        let counted = self.numbers.iter().enumerate().filter(|(_, &n)| n > 0);
        let numbers: Vec<String> = counted.map(|(k, n)| format!("{k}: {n}")).collect();
        let mut rules = self.rules.clone();
        rules.sort();
        let rules: Vec<String> = rules.iter().map(|(r, n)| format!("{r}: {n}")).collect();
        format!(
            "self-check: {} calls alike; numbers {}; rules {}",
            self.calls,
            numbers.join(", "),
            rules.join(", ")
        )
    }
}
