//! The calls of libtest_calls.a on the bytes of an opened plan, any three sizes and, where they test it, any sum.

/// A slice as the library hands it out.
#[repr(C)]
pub struct Part {
    pub start: *const u8,
    pub length: usize,
}

extern "C" {
    pub fn test_read_carried(
        bytes: *const u8,
        bytes_len: usize,
        cards: u32,
        links: u32,
        columns: u32,
        total: u32,
        answer: *mut u32,
        answer_len: usize,
    ) -> u32;
    pub fn test_address_carried(
        bytes: *const u8,
        bytes_len: usize,
        cards: u32,
        links: u32,
        columns: u32,
        total: u32,
        card: u32,
        part: *mut Part,
    );
    pub fn test_address_refusal_carried(
        bytes: *const u8,
        bytes_len: usize,
        cards: u32,
        links: u32,
        columns: u32,
        total: u32,
        card: u32,
    ) -> u32;
    pub fn test_step_carried(
        bytes: *const u8,
        bytes_len: usize,
        cards: u32,
        links: u32,
        columns: u32,
        from: u32,
        goal: u32,
        answer: *mut u32,
        answer_len: usize,
    ) -> u32;
    pub fn test_walk_carried(
        bytes: *const u8,
        bytes_len: usize,
        cards: u32,
        links: u32,
        columns: u32,
        from: u32,
        goal: u32,
        caller: u32,
        frames: *mut u32,
        hops: *mut u32,
        turns: *mut u32,
        met: *mut u16,
        met_len: usize,
        answer: *mut u32,
        answer_len: usize,
    ) -> u32;
    pub fn test_conference_carried(
        bytes: *const u8,
        bytes_len: usize,
        cards: u32,
        links: u32,
        columns: u32,
        total: u32,
        a: u32,
        b: u32,
        c: u32,
        answer: *mut u32,
        answer_len: usize,
    ) -> u32;
    pub fn test_add_carried(
        bytes: *const u8,
        bytes_len: usize,
        cards: u32,
        links: u32,
        columns: u32,
        total: u32,
        card: u32,
        output: *mut u8,
        output_len: usize,
        answer: *mut u32,
        answer_len: usize,
    ) -> u32;
    pub fn test_take_off_carried(
        bytes: *const u8,
        bytes_len: usize,
        cards: u32,
        links: u32,
        columns: u32,
        total: u32,
        output: *mut u8,
        output_len: usize,
        answer: *mut u32,
        answer_len: usize,
    ) -> u32;
}

/// An opened plan: its bytes, its cards, links and columns, and its sum.
#[derive(Clone, Copy)]
pub struct Opened<'a> {
    pub bytes: &'a [u8],
    pub sizes: [u32; 3],
    pub total: u32,
}

impl<'a> Opened<'a> {
    /// The number.
    pub fn read(self) -> u32 {
        let (start, long) = (self.bytes.as_ptr(), self.bytes.len());
        let ([n, m, k], mut answer) = (self.sizes, [0; 3]);
        let (fields, count) = (answer.as_mut_ptr(), answer.len());
        unsafe { test_read_carried(start, long, n, m, k, self.total, fields, count) }
    }

    /// A card's address.
    pub fn address(self, card: u32) -> &'a [u8] {
        let (start, long) = (self.bytes.as_ptr(), self.bytes.len());
        let [n, m, k] = self.sizes;
        let mut part = Part { start, length: 0 };
        unsafe {
            test_address_carried(start, long, n, m, k, self.total, card, &mut part);
            std::slice::from_raw_parts(part.start, part.length)
        }
    }

    /// The number, 1 for a card or 0 for none, and the card.
    pub fn conference(self, [a, b, c]: [u32; 3]) -> [u32; 3] {
        let (start, long) = (self.bytes.as_ptr(), self.bytes.len());
        let ([n, m, k], total, mut answer) = (self.sizes, self.total, [0; 2]);
        let (fields, count) = (answer.as_mut_ptr(), answer.len());
        let number =
            unsafe { test_conference_carried(start, long, n, m, k, total, a, b, c, fields, count) };
        [number, answer[0], answer[1]]
    }
}
