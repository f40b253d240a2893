//! Files for a solver, read back and solved by plain means.

/// What a file says.
#[derive(Clone, Debug, PartialEq, Eq)]
pub struct Cnf {
    /// How many variables there are: they are numbered from 1.
    pub variables: usize,
    /// The clauses; a literal is a variable, negative if it is negated.
    pub clauses: Vec<Vec<i32>>,
}

impl Cnf {
    /// Reads a file that is spelled as `docs/SOLVERS.md` says: so many clauses as it
    /// announces, and no other variables.
    pub fn read(file: &[u8]) -> Option<Cnf> {
        let mut lines = std::str::from_utf8(file).ok()?.split_terminator('\n');
        let counts = lines.next()?.strip_prefix("p cnf ")?;
        let variables = counts.split(' ').next()?.parse().ok()?;
        let clause = |line: &str| {
            let literals = line.strip_suffix(" 0")?.split(' ');
            literals.map(|literal| literal.parse().ok()).collect()
        };
        let cnf = Cnf { variables, clauses: lines.map(clause).collect::<Option<_>>()? };
        let is_literal = |literal: &i32| (1..=variables).contains(&of_literal(*literal));
        let is_right = cnf.clauses.iter().flatten().all(is_literal) && cnf.spelled() == file;
        is_right.then_some(cnf)
    }

    /// The file that says this: said a second time beside `dimacs`, so that tests of it do
    /// not rest on it.
    pub fn spelled(&self) -> Vec<u8> {
        let mut file = format!("p cnf {} {}\n", self.variables, self.clauses.len());
        for clause in &self.clauses {
            clause.iter().for_each(|literal| file += &format!("{literal} "));
            file += "0\n";
        }
        file.into_bytes()
    }

    /// Does an assignment, of each variable from 1 on, make a literal of each clause true?
    pub fn is_satisfied_by(&self, assignment: &[bool]) -> bool {
        let is_true = |&literal: &i32| assignment[of_literal(literal) - 1] == (literal > 0);
        self.clauses.iter().all(|clause| clause.iter().any(is_true))
    }

    /// What each variable must be where the first ones are as in a request of so many
    /// predicates, as far as single clauses tell; nothing if a clause has no literal left
    /// that could be true.
    pub fn forced_by(&self, predicates: u32, yes: u32) -> Option<Vec<Option<bool>>> {
        let mut forced = vec![None; self.variables];
        for predicate in 0..predicates {
            forced[predicate as usize] = Some(yes >> predicate & 1 == 1);
        }
        loop {
            let mut is_done = true;
            for clause in &self.clauses {
                let value = |&literal: &i32| {
                    forced[of_literal(literal) - 1].map(|value: bool| value == (literal > 0))
                };
                if clause.iter().any(|literal| value(literal) == Some(true)) {
                    continue;
                }
                let mut left: Vec<i32> =
                    clause.iter().copied().filter(|literal| value(literal).is_none()).collect();
                left.dedup();
                match left[..] {
                    [] => return None,
                    [literal] => {
                        forced[of_literal(literal) - 1] = Some(literal > 0);
                        is_done = false;
                    }
                    _ => {}
                }
            }
            if is_done {
                return Some(forced);
            }
        }
    }
}

/// The variable of a literal.
fn of_literal(literal: i32) -> usize {
    literal.unsigned_abs() as usize
}
