#[derive(Debug)]
pub struct ArrowError;

impl std::fmt::Display for ArrowError {
    fn fmt(&self, f: &mut std::fmt::Formatter) -> std::fmt::Result {
        f.write_str("an error of arrow_schema")
    }
}

impl std::error::Error for ArrowError {}
