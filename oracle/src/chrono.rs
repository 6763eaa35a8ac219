//! In place of chrono: no time stamps.

pub mod prelude {
    pub struct Local;

    impl Local {
        pub fn now() -> Local {
            Local
        }

        pub fn format(&self, _: &str) -> &'static str {
            ""
        }
    }
}
