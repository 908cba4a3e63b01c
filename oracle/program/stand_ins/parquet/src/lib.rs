pub mod errors {
    #[derive(Debug)]
    pub struct ParquetError;

    impl std::fmt::Display for ParquetError {
        fn fmt(&self, f: &mut std::fmt::Formatter) -> std::fmt::Result {
            f.write_str("an error of parquet")
        }
    }

    impl std::error::Error for ParquetError {}
}
