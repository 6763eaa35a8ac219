//! In place of clap: there are no command lines, so no value of this type exists.

pub enum ArgMatches {}

impl ArgMatches {
    pub fn value_of(&self, _: &str) -> Option<&str> {
        match *self {}
    }

    pub fn occurrences_of(&self, _: &str) -> u64 {
        match *self {}
    }
}
