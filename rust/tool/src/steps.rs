//! The open steps of a proof, each on one of its branches.

/// An open step, and what is kept for it.
pub struct Open<T> {
    pub branch: usize,
    branches: usize,
    pub kept: T,
}

pub struct Steps<T>(Vec<Open<T>>);

impl<T> Default for Steps<T> {
    fn default() -> Steps<T> {
        Steps(Vec::new())
    }
}

impl<T> Steps<T> {
    pub fn open(&mut self, branches: usize, kept: T) {
        self.0.push(Open {
            branch: 0,
            branches,
            kept,
        });
    }

    /// A close ends its branch, and each step of which that was the last.
    pub fn close(&mut self) {
        while let Some(open) = self.0.last_mut() {
            open.branch += 1;
            if open.branch < open.branches {
                return;
            }
            self.0.pop();
        }
    }

    pub fn innermost(&self) -> Option<&Open<T>> {
        self.0.last()
    }

    pub fn depth(&self) -> usize {
        self.0.len()
    }
}
