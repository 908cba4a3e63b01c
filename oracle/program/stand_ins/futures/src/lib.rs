pub mod channel {
    pub mod mpsc {
        #[derive(Debug)]
        pub struct SendError;

        impl std::fmt::Display for SendError {
            fn fmt(&self, f: &mut std::fmt::Formatter) -> std::fmt::Result {
                f.write_str("an error of futures")
            }
        }

        impl std::error::Error for SendError {}
    }
}
