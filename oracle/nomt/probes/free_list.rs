
/// Reaches this file's private items.
pub mod probe {
    use super::{FatPage, PageNumber, PagePool};

    pub use super::FreeList;

    pub const MAX_PNS_PER_PAGE: usize = super::MAX_PNS_PER_PAGE;

    pub fn portions(list: &FreeList) -> &Vec<(PageNumber, Vec<PageNumber>)> {
        &list.portions
    }

    /// A list as if these portions had been read.
    pub fn from_portions(portions: Vec<(PageNumber, Vec<PageNumber>)>) -> FreeList {
        let (len, fragmented) = super::len_and_fragmented(&portions);
        FreeList {
            portions,
            pop: false,
            len,
            fragmented,
            released_portions: vec![],
        }
    }

    pub fn fragmented(list: &FreeList) -> bool {
        list.fragmented
    }

    pub fn decode_free_list_page(page: FatPage, max_pn: u32) -> (PageNumber, Vec<PageNumber>) {
        super::decode_free_list_page(page, max_pn)
    }

    pub fn encode_free_list_page(prev: PageNumber, entries: &[PageNumber]) -> FatPage {
        super::encode_free_list_page(&PagePool, prev, entries)
    }
}
