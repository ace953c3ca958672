//! What `wontirje count` does with a file, and the words for it on standard error. The lines of a file that is
//! counted and then withdrawn must differ.

#[derive(Clone, Copy, PartialEq, Eq)]
pub enum Task {
    Add,
    Withdraw,
}

impl Task {
    /// What progress says meanwhile.
    pub fn doing(self) -> &'static str {
        match self {
            Task::Add => "counting",
            Task::Withdraw => "withdrawing",
        }
    }

    /// What stands before the file's numbers.
    pub fn done(self) -> &'static str {
        match self {
            Task::Add => "",
            Task::Withdraw => "withdrawn: ",
        }
    }

    /// What stands before a refusal.
    pub fn refused(self) -> &'static str {
        match self {
            Task::Add => "",
            Task::Withdraw => "not withdrawn: ",
        }
    }

    /// What is said of a file that could not be read.
    pub fn unread(self, reason: &str) -> String {
        match self {
            Task::Add => format!("not read: {reason}; nothing of it is counted"),
            Task::Withdraw => format!("not withdrawn: not read: {reason}"),
        }
    }
}
