//! The C interface for Rust: the declarations, and a safe function over each. `include/lemonludo.h` says what they do and what they refuse.
//! No function has a condition to test first; a `&mut` overlaps nothing else that is passed, and an empty slice may have any pointer.
#![allow(dead_code)]

/// The four words: 0 for done or the number of the refusal; then its place, or what the call hands back.
pub type Answer = [u64; 4];

pub mod raw {
    use super::Answer;

    #[link(name = "capi", kind = "static")]
    extern "C" {
        pub fn ll_read(record: *const u8, record_len: usize, answer: &mut Answer);
        pub fn ll_check(record: *const u8, record_len: usize, table: *const u8, table_len: usize, answer: &mut Answer);
        pub fn ll_fit(width: u32, bits: u32, table: *const u8, table_len: usize, basis: *const u8, basis_len: usize,
            work: *mut u8, work_len: usize, record: *mut u8, record_len: usize, answer: &mut Answer);
        pub fn ll_house_fit(table: *const u8, table_len: usize, work: *mut u8, work_len: usize,
            record: *mut u8, record_len: usize, answer: &mut Answer);
        pub fn ll_sbox(record: *const u8, record_len: usize, s: u32, shares: *const u8, shares_len: usize,
            random: *const u8, random_len: usize, out: *mut u8, out_len: usize, answer: &mut Answer);
        pub fn ll_sbox_watch(record: *const u8, record_len: usize, s: u32, shares: *const u8, shares_len: usize,
            random: *const u8, random_len: usize, list: *const u32, list_len: usize,
            values: *mut u8, values_len: usize, answer: &mut Answer);
        pub fn ll_block(record: *const u8, record_len: usize, s: u32, key_shares: *const u8, key_shares_len: usize,
            block_shares: *const u8, block_shares_len: usize, random: *const u8, random_len: usize,
            out: *mut u8, out_len: usize, answer: &mut Answer);
        pub fn ll_block_watch(record: *const u8, record_len: usize, s: u32, key_shares: *const u8, key_shares_len: usize,
            block_shares: *const u8, block_shares_len: usize, random: *const u8, random_len: usize,
            list: *const u32, list_len: usize, values: *mut u8, values_len: usize, answer: &mut Answer);
        pub fn ll_open(record: *const u8, record_len: usize, inverse_record: *const u8, inverse_record_len: usize, s: u32,
            key_shares: *const u8, key_shares_len: usize, block_shares: *const u8, block_shares_len: usize,
            random: *const u8, random_len: usize, out: *mut u8, out_len: usize, answer: &mut Answer);
        pub fn ll_open_watch(record: *const u8, record_len: usize, inverse_record: *const u8, inverse_record_len: usize, s: u32,
            key_shares: *const u8, key_shares_len: usize, block_shares: *const u8, block_shares_len: usize,
            random: *const u8, random_len: usize, list: *const u32, list_len: usize,
            values: *mut u8, values_len: usize, answer: &mut Answer);
        pub fn ll_encrypt(key: *const u8, key_len: usize, block: *const u8, block_len: usize,
            out: *mut u8, out_len: usize, answer: &mut Answer);
        pub fn ll_decrypt(key: *const u8, key_len: usize, block: *const u8, block_len: usize,
            out: *mut u8, out_len: usize, answer: &mut Answer);
        pub fn ll_aes_block(s: u32, key_shares: *const u8, key_shares_len: usize,
            block_shares: *const u8, block_shares_len: usize, random: *const u8, random_len: usize,
            out: *mut u8, out_len: usize, answer: &mut Answer);
        pub fn ll_aes_block_watch(s: u32, key_shares: *const u8, key_shares_len: usize,
            block_shares: *const u8, block_shares_len: usize, random: *const u8, random_len: usize,
            list: *const u32, list_len: usize, values: *mut u8, values_len: usize, answer: &mut Answer);
        pub fn ll_split(value: *const u8, value_len: usize, s: u32, masks: *const u8, masks_len: usize,
            out: *mut u8, out_len: usize, answer: &mut Answer);
        pub fn ll_join(shares: *const u8, shares_len: usize, s: u32, out: *mut u8, out_len: usize, answer: &mut Answer);
    }
}

pub fn read(record: &[u8]) -> Answer {
    let mut answer = [0; 4];
    unsafe { raw::ll_read(record.as_ptr(), record.len(), &mut answer) };
    answer
}

pub fn check(record: &[u8], table: &[u8]) -> Answer {
    let mut answer = [0; 4];
    unsafe { raw::ll_check(record.as_ptr(), record.len(), table.as_ptr(), table.len(), &mut answer) };
    answer
}

pub fn fit(width: u32, bits: u32, table: &[u8], basis: &[u8], work: &mut [u8], record: &mut [u8]) -> Answer {
    let mut answer = [0; 4];
    unsafe {
        raw::ll_fit(width, bits, table.as_ptr(), table.len(), basis.as_ptr(), basis.len(),
            work.as_mut_ptr(), work.len(), record.as_mut_ptr(), record.len(), &mut answer)
    };
    answer
}

pub fn house_fit(table: &[u8], work: &mut [u8], record: &mut [u8]) -> Answer {
    let mut answer = [0; 4];
    unsafe {
        raw::ll_house_fit(table.as_ptr(), table.len(), work.as_mut_ptr(), work.len(),
            record.as_mut_ptr(), record.len(), &mut answer)
    };
    answer
}

pub fn sbox(record: &[u8], s: u32, shares: &[u8], random: &[u8], out: &mut [u8]) -> Answer {
    let mut answer = [0; 4];
    unsafe {
        raw::ll_sbox(record.as_ptr(), record.len(), s, shares.as_ptr(), shares.len(),
            random.as_ptr(), random.len(), out.as_mut_ptr(), out.len(), &mut answer)
    };
    answer
}

pub fn sbox_watch(record: &[u8], s: u32, shares: &[u8], random: &[u8], list: &[u32], values: &mut [u8]) -> Answer {
    let mut answer = [0; 4];
    unsafe {
        raw::ll_sbox_watch(record.as_ptr(), record.len(), s, shares.as_ptr(), shares.len(),
            random.as_ptr(), random.len(), list.as_ptr(), list.len(),
            values.as_mut_ptr(), values.len(), &mut answer)
    };
    answer
}

pub fn block(record: &[u8], s: u32, key_shares: &[u8], block_shares: &[u8], random: &[u8], out: &mut [u8]) -> Answer {
    let mut answer = [0; 4];
    unsafe {
        raw::ll_block(record.as_ptr(), record.len(), s, key_shares.as_ptr(), key_shares.len(),
            block_shares.as_ptr(), block_shares.len(), random.as_ptr(), random.len(),
            out.as_mut_ptr(), out.len(), &mut answer)
    };
    answer
}

pub fn block_watch(record: &[u8], s: u32, key_shares: &[u8], block_shares: &[u8], random: &[u8], list: &[u32],
    values: &mut [u8]) -> Answer {
    let mut answer = [0; 4];
    unsafe {
        raw::ll_block_watch(record.as_ptr(), record.len(), s, key_shares.as_ptr(), key_shares.len(),
            block_shares.as_ptr(), block_shares.len(), random.as_ptr(), random.len(),
            list.as_ptr(), list.len(), values.as_mut_ptr(), values.len(), &mut answer)
    };
    answer
}

pub fn open(record: &[u8], inverse_record: &[u8], s: u32, key_shares: &[u8], block_shares: &[u8], random: &[u8],
    out: &mut [u8]) -> Answer {
    let mut answer = [0; 4];
    unsafe {
        raw::ll_open(record.as_ptr(), record.len(), inverse_record.as_ptr(), inverse_record.len(), s,
            key_shares.as_ptr(), key_shares.len(), block_shares.as_ptr(), block_shares.len(),
            random.as_ptr(), random.len(), out.as_mut_ptr(), out.len(), &mut answer)
    };
    answer
}

pub fn open_watch(record: &[u8], inverse_record: &[u8], s: u32, key_shares: &[u8], block_shares: &[u8], random: &[u8],
    list: &[u32], values: &mut [u8]) -> Answer {
    let mut answer = [0; 4];
    unsafe {
        raw::ll_open_watch(record.as_ptr(), record.len(), inverse_record.as_ptr(), inverse_record.len(), s,
            key_shares.as_ptr(), key_shares.len(), block_shares.as_ptr(), block_shares.len(),
            random.as_ptr(), random.len(), list.as_ptr(), list.len(), values.as_mut_ptr(), values.len(), &mut answer)
    };
    answer
}

pub fn encrypt(key: &[u8], block: &[u8], out: &mut [u8]) -> Answer {
    let mut answer = [0; 4];
    unsafe {
        raw::ll_encrypt(key.as_ptr(), key.len(), block.as_ptr(), block.len(),
            out.as_mut_ptr(), out.len(), &mut answer)
    };
    answer
}

pub fn decrypt(key: &[u8], block: &[u8], out: &mut [u8]) -> Answer {
    let mut answer = [0; 4];
    unsafe {
        raw::ll_decrypt(key.as_ptr(), key.len(), block.as_ptr(), block.len(),
            out.as_mut_ptr(), out.len(), &mut answer)
    };
    answer
}

pub fn aes_block(s: u32, key_shares: &[u8], block_shares: &[u8], random: &[u8], out: &mut [u8]) -> Answer {
    let mut answer = [0; 4];
    unsafe {
        raw::ll_aes_block(s, key_shares.as_ptr(), key_shares.len(), block_shares.as_ptr(), block_shares.len(),
            random.as_ptr(), random.len(), out.as_mut_ptr(), out.len(), &mut answer)
    };
    answer
}

pub fn aes_block_watch(s: u32, key_shares: &[u8], block_shares: &[u8], random: &[u8], list: &[u32], values: &mut [u8]) -> Answer {
    let mut answer = [0; 4];
    unsafe {
        raw::ll_aes_block_watch(s, key_shares.as_ptr(), key_shares.len(), block_shares.as_ptr(), block_shares.len(),
            random.as_ptr(), random.len(), list.as_ptr(), list.len(), values.as_mut_ptr(), values.len(), &mut answer)
    };
    answer
}

pub fn split(value: &[u8], s: u32, masks: &[u8], out: &mut [u8]) -> Answer {
    let mut answer = [0; 4];
    unsafe {
        raw::ll_split(value.as_ptr(), value.len(), s, masks.as_ptr(), masks.len(),
            out.as_mut_ptr(), out.len(), &mut answer)
    };
    answer
}

pub fn join(shares: &[u8], s: u32, out: &mut [u8]) -> Answer {
    let mut answer = [0; 4];
    unsafe { raw::ll_join(shares.as_ptr(), shares.len(), s, out.as_mut_ptr(), out.len(), &mut answer) };
    answer
}
