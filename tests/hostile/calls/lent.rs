//! The bytes that are lent to a call.

/// Bytes before and behind those lent.
const MARGIN: usize = 16;
const MARK: u8 = 0xC7;

/// Bytes lent to a call, with a margin on both sides that no call may touch.
pub struct Lent {
    memory: Vec<u8>,
    is_null: bool,
}

impl Lent {
    /// No bytes at all are lent as null, or as a pointer to none.
    pub fn of(bytes: &[u8], null: bool) -> Lent {
        let mut memory = vec![MARK; bytes.len() + 2 * MARGIN];
        memory[MARGIN..MARGIN + bytes.len()].copy_from_slice(bytes);
        Lent { memory, is_null: null && bytes.is_empty() }
    }

    pub fn length(&self) -> usize {
        self.memory.len() - 2 * MARGIN
    }

    pub fn pointer(&mut self) -> *mut u8 {
        if self.is_null {
            std::ptr::null_mut()
        } else {
            self.memory[MARGIN..].as_mut_ptr()
        }
    }

    /// The bytes as the call left them: none where it touched the margin.
    pub fn bytes(&self) -> Option<&[u8]> {
        let end = MARGIN + self.length();
        let is_whole =
            self.memory[..MARGIN].iter().chain(&self.memory[end..]).all(|&byte| byte == MARK);
        is_whole.then(|| &self.memory[MARGIN..end])
    }
}
