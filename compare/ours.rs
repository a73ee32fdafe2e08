//! The proved code, through the C face: the functions of include/muchqawi.h, and slices around them.

type Keyed = unsafe extern "C" fn(*const u8, usize, *const u8, usize, *mut u8, usize) -> u8;
type Started = unsafe extern "C" fn(*const u8, usize, u64, u64, *const u8, usize, *mut u8, usize) -> u8;

#[rustfmt::skip]
extern "C" {
    fn muchqawi_issue(key: *const u8, key_len: usize, site: u16, checkpoint: u16, serial: u32, out: *mut u8, out_len: usize) -> u8;
    fn muchqawi_ecb_encrypt(key: *const u8, key_len: usize, message: *const u8, message_len: usize, out: *mut u8, out_len: usize) -> u8;
    fn muchqawi_ecb_decrypt(key: *const u8, key_len: usize, message: *const u8, message_len: usize, out: *mut u8, out_len: usize) -> u8;
    fn muchqawi_cbc_encrypt(key: *const u8, key_len: usize, first: u64, second: u64, message: *const u8, message_len: usize, out: *mut u8, out_len: usize) -> u8;
    fn muchqawi_cbc_decrypt(key: *const u8, key_len: usize, first: u64, second: u64, message: *const u8, message_len: usize, out: *mut u8, out_len: usize) -> u8;
    fn muchqawi_cfb_encrypt(key: *const u8, key_len: usize, first: u64, second: u64, message: *const u8, message_len: usize, out: *mut u8, out_len: usize) -> u8;
    fn muchqawi_cfb_decrypt(key: *const u8, key_len: usize, first: u64, second: u64, message: *const u8, message_len: usize, out: *mut u8, out_len: usize) -> u8;
    fn muchqawi_ctr_encrypt(key: *const u8, key_len: usize, first: u64, second: u64, message: *const u8, message_len: usize, out: *mut u8, out_len: usize) -> u8;
    fn muchqawi_ctr_decrypt(key: *const u8, key_len: usize, first: u64, second: u64, message: *const u8, message_len: usize, out: *mut u8, out_len: usize) -> u8;
    fn muchqawi_checksum(key: *const u8, key_len: usize, message: *const u8, message_len: usize, out: *mut u8, out_len: usize) -> u8;
    fn muchqawi_hash(message: *const u8, message_len: usize, out: *mut u8, out_len: usize) -> u8;
    fn muchqawi_wrap(key: *const u8, key_len: usize, first: u64, second: u64, text: *const u8, text_len: usize, out: *mut u8, out_len: usize) -> u8;
    fn muchqawi_unwrap(key: *const u8, key_len: usize, first: u64, second: u64, text: *const u8, text_len: usize, scratch: *mut u8, scratch_len: usize, out: *mut u8, out_len: usize) -> u8;
}

/// How to call: with `nulls`, an empty buffer goes as a null pointer, else as an address with the length 0.
#[derive(Clone, Copy)]
pub struct Face {
    pub nulls: bool,
}

/// The two numbers of a start or a header.
fn numbers(start: &[u8; 16]) -> (u64, u64) {
    (u64::from_le_bytes(start[..8].try_into().unwrap()), u64::from_le_bytes(start[8..].try_into().unwrap()))
}

// Every call below hands on whole slices with their own lengths, and an output that is borrowed by itself, which are the caller's duties.
impl Face {
    fn read(self, x: &[u8]) -> *const u8 {
        if self.nulls && x.is_empty() { std::ptr::null() } else { x.as_ptr() }
    }

    fn write(self, x: &mut [u8]) -> *mut u8 {
        if self.nulls && x.is_empty() { std::ptr::null_mut() } else { x.as_mut_ptr() }
    }

    fn keyed(self, call: Keyed, key: &[u8], message: &[u8], out: &mut [u8]) -> u8 {
        unsafe { call(self.read(key), key.len(), self.read(message), message.len(), self.write(out), out.len()) }
    }

    fn started(self, call: Started, key: &[u8], start: &[u8; 16], message: &[u8], out: &mut [u8]) -> u8 {
        let (first, second) = numbers(start);
        unsafe { call(self.read(key), key.len(), first, second, self.read(message), message.len(), self.write(out), out.len()) }
    }

    pub fn issue(self, key: &[u8], site: u16, checkpoint: u16, serial: u32, out: &mut [u8]) -> u8 {
        unsafe { muchqawi_issue(self.read(key), key.len(), site, checkpoint, serial, self.write(out), out.len()) }
    }

    pub fn ecb_encrypt(self, key: &[u8], message: &[u8], out: &mut [u8]) -> u8 {
        self.keyed(muchqawi_ecb_encrypt, key, message, out)
    }

    pub fn ecb_decrypt(self, key: &[u8], message: &[u8], out: &mut [u8]) -> u8 {
        self.keyed(muchqawi_ecb_decrypt, key, message, out)
    }

    pub fn cbc_encrypt(self, key: &[u8], start: &[u8; 16], message: &[u8], out: &mut [u8]) -> u8 {
        self.started(muchqawi_cbc_encrypt, key, start, message, out)
    }

    pub fn cbc_decrypt(self, key: &[u8], start: &[u8; 16], message: &[u8], out: &mut [u8]) -> u8 {
        self.started(muchqawi_cbc_decrypt, key, start, message, out)
    }

    pub fn cfb_encrypt(self, key: &[u8], start: &[u8; 16], message: &[u8], out: &mut [u8]) -> u8 {
        self.started(muchqawi_cfb_encrypt, key, start, message, out)
    }

    pub fn cfb_decrypt(self, key: &[u8], start: &[u8; 16], message: &[u8], out: &mut [u8]) -> u8 {
        self.started(muchqawi_cfb_decrypt, key, start, message, out)
    }

    pub fn ctr_encrypt(self, key: &[u8], start: &[u8; 16], message: &[u8], out: &mut [u8]) -> u8 {
        self.started(muchqawi_ctr_encrypt, key, start, message, out)
    }

    pub fn ctr_decrypt(self, key: &[u8], start: &[u8; 16], message: &[u8], out: &mut [u8]) -> u8 {
        self.started(muchqawi_ctr_decrypt, key, start, message, out)
    }

    pub fn checksum(self, key: &[u8], message: &[u8], out: &mut [u8]) -> u8 {
        self.keyed(muchqawi_checksum, key, message, out)
    }

    pub fn hash(self, message: &[u8], out: &mut [u8]) -> u8 {
        unsafe { muchqawi_hash(self.read(message), message.len(), self.write(out), out.len()) }
    }

    pub fn wrap(self, key: &[u8], header: &[u8; 16], text: &[u8], out: &mut [u8]) -> u8 {
        self.started(muchqawi_wrap, key, header, text, out)
    }

    pub fn unwrap(self, key: &[u8], header: &[u8; 16], text: &[u8], scratch: &mut [u8], out: &mut [u8]) -> u8 {
        let (first, second) = numbers(header);
        unsafe {
            muchqawi_unwrap(
                self.read(key), key.len(), first, second, self.read(text), text.len(),
                self.write(scratch), scratch.len(), self.write(out), out.len(),
            )
        }
    }
}
