// Stands in for the crate nom_locate. Only parsing uses it, which is no part of the port.
pub struct LocatedSpan<T>(pub T);

impl<T> LocatedSpan<T> {
    pub fn new(text: T) -> Self {
        Self(text)
    }
}
