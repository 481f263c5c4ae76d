//! Stands in for the crate oxideav-core: the error that the header parser gives.

#[derive(Debug)]
pub struct Error(pub String);

pub type Result<T> = std::result::Result<T, Error>;

impl Error {
    pub fn invalid(why: impl Into<String>) -> Error {
        Error(why.into())
    }
}
