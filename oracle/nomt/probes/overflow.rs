
/// Reaches this file's private items.
pub mod probe {
    use super::{FatPage, PageNumber};

    pub const BODY_SIZE: usize = super::BODY_SIZE;

    pub fn total_needed_pages(value_size: usize) -> usize {
        super::total_needed_pages(value_size)
    }

    pub fn parse_page(page: &FatPage) -> (impl Iterator<Item = PageNumber> + '_, &[u8]) {
        super::parse_page(page)
    }
}
