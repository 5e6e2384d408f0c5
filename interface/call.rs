//! Calls every function of the C interface from Rust and compares the answer, and what is written, with what is expected.
mod lemonludo;

use lemonludo::{self as ll, raw, Answer};
use std::ptr::{null, null_mut};

const FILL: u8 = 0xee;

const HOUSE_BASIS: [u8; 9] = [0, 1, 1, 0, 0, 0, 0, 1, 0];
const PRESENT_TABLE: [u8; 16] = [12, 5, 6, 11, 9, 0, 10, 13, 3, 14, 15, 8, 4, 7, 1, 2];

/// The record of PRESENT's table over the house basis.
const PRESENT_RECORD: [u8; 34] = [
    b'D', b'C', b'P', 0, 2, 4, 4, 0, 1, 1, 0, 0, 0, 0, 1, 0, // mark, version, width, output bits, basis
    12, 3, 3, 13, 7, 0, 4, 14, 14, 12, 1, 8, 13, 3, 3, 15, 0, 0,
];
const INVERSE_RECORD: [u8; 34] = [
    b'D', b'C', b'P', 0, 2, 4, 4, 0, 1, 1, 0, 0, 0, 0, 1, 0, //
    10, 12, 2, 5, 12, 0, 9, 15, 9, 5, 10, 12, 0, 9, 10, 12, 0, 0,
];

/// The record of the identity's low bits over a zero basis of width 6.
fn identity_record(bits: u8) -> Vec<u8> {
    let (length, place) = if bits == 4 { (102, 84) } else { (140, 122) };
    let mut record = vec![0; length];
    record[..7].copy_from_slice(&[b'D', b'C', b'P', 0, 2, 6, bits]);
    record[place] = 1;
    record
}

fn identity_table(bits: u8) -> Vec<u8> {
    (0..64).map(|x: u8| x % (1 << bits)).collect()
}

/// A record of equal widths in version 1, which has no byte for the output bits.
fn version_1(record: &[u8]) -> Vec<u8> {
    [&record[..4], &[1, record[5]], &record[7..]].concat()
}

fn with(bytes: &[u8], place: usize, value: u8) -> Vec<u8> {
    let mut changed = bytes.to_vec();
    changed[place] = value;
    changed
}

fn random_bytes(count: usize) -> Vec<u8> {
    (0..count).map(|i| (59 * i + i / 251 + 7) as u8).collect()
}

/// Share 0 is the value plus the masks; the rest are the masks.
fn share(value: &[u8], s: usize) -> Vec<u8> {
    let n = value.len();
    let masks: Vec<u8> = (0..n * (s - 1)).map(|i| (37 * i + 11) as u8).collect();
    let mut shares = value.to_vec();
    masks.iter().enumerate().for_each(|(i, mask)| shares[i % n] ^= mask);
    shares.extend(masks);
    shares
}

fn add_up(shares: &[u8], s: usize) -> Vec<u8> {
    let n = shares.len() / s;
    (0..n).map(|i| (0..s).fold(0, |sum, k| sum ^ shares[k * n + i])).collect()
}

/// Nibble k of eight bytes, nibble 0 the lowest.
fn nibble(eight: &[u8], k: usize) -> u8 {
    eight[7 - k / 2] >> (4 * (k % 2)) & 15
}

fn done(first: u64, second: u64, third: u64) -> Answer {
    [0, first, second, third]
}

fn refused(number: u64, place: u64) -> Answer {
    [number, place, 0, 0]
}

/// Counts calls and failures of one function.
#[derive(Default)]
struct Calls {
    made: usize,
    failed: usize,
}

impl Calls {
    fn same<T: PartialEq + std::fmt::Debug>(&mut self, what: &str, got: T, expected: T) {
        if got != expected {
            self.failed += 1;
            println!("  FAILED {what}: {got:?}, expected {expected:?}");
        }
    }

    fn answer(&mut self, what: &str, got: Answer, expected: Answer) {
        self.made += 1;
        self.same(what, got, expected);
    }

    /// A call with an output of this length, which has to be refused and leave the output as it was.
    fn refuses(&mut self, what: &str, length: usize, number: u64, place: u64, call: impl FnOnce(&mut [u8]) -> Answer) {
        let mut out = vec![FILL; length];
        let answer = call(&mut out);
        self.answer(what, answer, refused(number, place));
        self.same(what, out, vec![FILL; length]);
    }

    /// A call that is done and fills an output of this length, which is handed back.
    fn fills(&mut self, what: &str, length: usize, counts: Answer, call: impl FnOnce(&mut [u8]) -> Answer) -> Vec<u8> {
        let mut out = vec![FILL; length];
        let answer = call(&mut out);
        self.answer(what, answer, counts);
        out
    }

    /// Each of the slices in turn one entry short, one entry long and empty: refused with 2.
    fn wrong_lengths<const N: usize>(&mut self, slices: [&[u8]; N], length: usize, call: impl Fn([&[u8]; N], &mut [u8]) -> Answer) {
        for k in 0..N {
            let longer = [slices[k], &[0]].concat();
            for changed in [&longer[..slices[k].len() - 1], &longer, &[]] {
                let mut given = slices;
                given[k] = changed;
                self.refuses(&format!("slice {k} of {} bytes", changed.len()), length, 2, 0, |out| call(given, out));
            }
        }
        for changed in [length - 1, length + 1, 0] {
            self.refuses(&format!("output of {changed} bytes"), changed, 2, 0, |out| call(slices, out));
        }
    }

    /// Records that Read refuses.
    fn wrong_records(&mut self, length: usize, call: impl Fn(&[u8], &mut [u8]) -> Answer) {
        let record = &PRESENT_RECORD;
        self.refuses("record of 5 bytes", length, 2, 0, |out| call(&record[..5], out));
        self.refuses("wrong mark", length, 5, 0, |out| call(&with(record, 1, b'c'), out));
        self.refuses("version 3", length, 5, 0, |out| call(&with(record, 4, 3), out));
        self.refuses("version 1, length of 2", length, 2, 0, |out| call(&with(record, 4, 1), out));
        self.refuses("width 5", length, 1, 0, |out| call(&with(record, 5, 5), out));
        self.refuses("record of 6 bytes, width 5", length, 1, 0, |out| call(&with(record, 5, 5)[..6], out));
        self.refuses("record of 6 bytes", length, 2, 0, |out| call(&record[..6], out));
        self.refuses("output bits 6", length, 9, 0, |out| call(&with(record, 6, 6), out));
        self.refuses("record of 7 bytes, output bits 5", length, 9, 0, |out| call(&with(record, 6, 5)[..7], out));
        self.refuses("width 6, length of 4", length, 2, 0, |out| call(&with(record, 5, 6), out));
        self.refuses("coefficient 16", length, 3, 20, |out| call(&with(record, 20, 16), out));
    }

    fn wrong_share_counts(&mut self, length: usize, call: impl Fn(u32, &mut [u8]) -> Answer) {
        for s in [0, 10, 259, u32::MAX] {
            self.refuses(&format!("{s} shares"), length, 7, 0, |out| call(s, out));
        }
    }
}

/// A call through the declarations, for slices that are NULL.
fn by_hand(call: impl FnOnce(&mut Answer)) -> Answer {
    let mut answer = [u64::MAX; 4];
    call(&mut answer);
    answer
}

fn read(c: &mut Calls) {
    c.answer("width 4", ll::read(&PRESENT_RECORD), done(4, 0, 0));
    c.answer("width 6", ll::read(&identity_record(6)), done(6, 0, 0));
    c.answer("width 6, four output bits", ll::read(&identity_record(4)), done(6, 0, 0));
    c.answer("width 4, version 1", ll::read(&version_1(&PRESENT_RECORD)), done(4, 0, 0));
    c.answer("width 6, version 1", ll::read(&version_1(&identity_record(6))), done(6, 0, 0));
    c.answer("coefficient 15", ll::read(&with(&PRESENT_RECORD, 20, 15)), done(4, 0, 0));
    c.wrong_records(0, |record, _| ll::read(record));
    for length in [0, 6, 7, 33, 102, 139] {
        c.answer("a wrong length", ll::read(&identity_record(6)[..length]), refused(2, 0));
    }
    c.answer("NULL", by_hand(|a| unsafe { raw::ll_read(null(), 0, a) }), refused(2, 0));
}

fn check(c: &mut Calls) {
    let (record, table) = (&PRESENT_RECORD, &PRESENT_TABLE);
    c.answer("PRESENT's table", ll::check(record, table), done(0, 0, 0));
    c.answer("PRESENT's table, version 1", ll::check(&version_1(record), table), done(0, 0, 0));
    c.answer("identity of width 6", ll::check(&identity_record(6), &identity_table(6)), done(0, 0, 0));
    c.answer("its low four bits", ll::check(&identity_record(4), &identity_table(4)), done(0, 0, 0));
    c.answer("entry 16, four output bits", ll::check(&identity_record(4), &identity_table(6)), refused(3, 16));
    c.answer("low bits, six output bits", ll::check(&identity_record(6), &identity_table(4)), refused(6, 16));
    c.wrong_records(0, |record, _| ll::check(record, table));
    for length in [0, 15] {
        c.answer("a short table", ll::check(record, &table[..length]), refused(2, 0));
    }
    c.answer("entry 16", ll::check(record, &with(table, 7, 16)), refused(3, 7));
    c.answer("last entry differs", ll::check(record, &with(table, 15, 3)), refused(6, 15));
    c.answer("NULL table", by_hand(|a| unsafe { raw::ll_check(record.as_ptr(), 34, null(), 0, a) }), refused(2, 0));
}

/// Width 6 with four output bits.
fn fit_low_bits(c: &mut Calls) {
    let mut work = [FILL; 11008];
    let table = identity_table(4);
    let record = c.fills("low four bits", 102, done(0, 0, 0), |out| ll::fit(6, 4, &table, &[0; 38], &mut work, out));
    c.same("record of the low bits", record, identity_record(4));
    c.same("longest work after done", &work[..], &[0; 11008]);

    work = [FILL; 11008];
    let unit = with(&[0; 64], 0, 1);
    c.refuses("1, 0 .. 0, four output bits", 102, 4, 0, |out| ll::fit(6, 4, &unit, &[0; 38], &mut work, out));
    c.same("longest work after 4", &work[..], &[0; 11008]);

    work = [FILL; 11008];
    c.refuses("entry 16", 102, 3, 16, |out| ll::fit(6, 4, &identity_table(6), &[0; 38], &mut work, out));
    c.refuses("entry 64 in the basis", 102, 3, 101, |out| ll::fit(6, 4, &table, &with(&[63; 38], 37, 64), &mut work, out));
    c.refuses("work of six output bits", 102, 2, 0, |out| ll::fit(6, 4, &table, &[0; 38], &mut work[..4928], out));
    c.refuses("output bits 5", 102, 9, 0, |out| ll::fit(6, 5, &table, &[0; 38], &mut work, out));
    c.same("longest work after refusals", &work[..], &[FILL; 11008]);
    c.wrong_lengths([&table, &[0; 38]], 102, |[table, basis], out| ll::fit(6, 4, table, basis, &mut [FILL; 11008], out));
}

fn fit(c: &mut Calls) {
    let mut work = [FILL; 304];
    let record = c.fills("PRESENT's table", 34, done(0, 0, 0), |out| ll::fit(4, 4, &PRESENT_TABLE, &HOUSE_BASIS, &mut work, out));
    c.same("PRESENT's record", &record[..], &PRESENT_RECORD);
    c.same("work after done", work, [0; 304]);

    let mut wide = [FILL; 4928];
    let record = c.fills("identity of width 6", 140, done(0, 0, 0), |out| ll::fit(6, 6, &identity_table(6), &[0; 57], &mut wide, out));
    c.same("identity's record", record, identity_record(6));
    c.same("wide work after done", wide, [0; 4928]);

    fit_low_bits(c);

    work = [FILL; 304];
    let unit = with(&[0; 16], 0, 1);
    c.refuses("1, 0 .. 0 over a zero basis", 34, 4, 0, |out| ll::fit(4, 4, &unit, &[0; 9], &mut work, out));
    c.same("work after 4", work, [0; 304]);

    work = [FILL; 304];
    for width in [0, 5, 260, u32::MAX] {
        c.refuses("another width", 34, 1, 0, |out| ll::fit(width, 4, &PRESENT_TABLE, &HOUSE_BASIS, &mut work, out));
    }
    for bits in [0, 5, 6, 260, u32::MAX] {
        c.refuses("other output bits", 34, 9, 0, |out| ll::fit(4, bits, &PRESENT_TABLE, &HOUSE_BASIS, &mut work, out));
    }
    c.refuses("width 5, output bits 5", 34, 1, 0, |out| ll::fit(5, 5, &PRESENT_TABLE, &HOUSE_BASIS, &mut work, out));
    c.refuses("entry in the basis", 34, 3, 20, |out| ll::fit(4, 4, &PRESENT_TABLE, &with(&HOUSE_BASIS, 4, 16), &mut work, out));
    c.refuses("entry in the table", 34, 3, 3, |out| ll::fit(4, 4, &with(&PRESENT_TABLE, 3, 16), &HOUSE_BASIS, &mut work, out));
    for length in [0, 303] {
        c.refuses("short work", 34, 2, 0, |out| ll::fit(4, 4, &PRESENT_TABLE, &HOUSE_BASIS, &mut work[..length], out));
    }
    c.same("work after refusals", work, [FILL; 304]);
    c.refuses("long work", 34, 2, 0, |out| ll::fit(4, 4, &PRESENT_TABLE, &HOUSE_BASIS, &mut [FILL; 448], out));
    c.wrong_lengths([&PRESENT_TABLE, &HOUSE_BASIS], 34, |[table, basis], out| ll::fit(4, 4, table, basis, &mut [FILL; 304], out));
    let answer = by_hand(|a| unsafe { raw::ll_fit(4, 4, null(), 0, null(), 0, null_mut(), 0, null_mut(), 0, a) });
    c.answer("NULL", answer, refused(2, 0));
}

fn house_fit(c: &mut Calls) {
    let mut work = [FILL; 304];
    let record = c.fills("PRESENT's table", 34, done(0, 0, 0), |out| ll::house_fit(&PRESENT_TABLE, &mut work, out));
    c.same("PRESENT's record", &record[..], &PRESENT_RECORD);
    c.same("work after done", work, [0; 304]);
    c.answer("Check of it", ll::check(&record, &PRESENT_TABLE), done(0, 0, 0));
    let record = c.fills("zero table", 34, done(0, 0, 0), |out| ll::house_fit(&[0; 16], &mut work, out));
    c.same("zero p", &record[16..], &[0; 18]);

    work = [FILL; 304];
    c.refuses("entry 16", 34, 3, 15, |out| ll::house_fit(&with(&PRESENT_TABLE, 15, 16), &mut work, out));
    c.refuses("short work", 34, 2, 0, |out| ll::house_fit(&PRESENT_TABLE, &mut work[..303], out));
    c.same("work after refusals", work, [FILL; 304]);
    c.refuses("long work", 34, 2, 0, |out| ll::house_fit(&PRESENT_TABLE, &mut [FILL; 448], out));
    c.wrong_lengths([&PRESENT_TABLE], 34, |[table], out| ll::house_fit(table, &mut [FILL; 304], out));
    let answer = by_hand(|a| unsafe { raw::ll_house_fit(null(), 0, null_mut(), 0, null_mut(), 0, a) });
    c.answer("NULL", answer, refused(2, 0));
}

/// An element in three shares, random elements, the shares that the S-box gives, and the counts.
const SHARES: [u8; 3] = [2, 9, 15];
const RANDOM: [u8; 3] = [0x12, 0x34, 0x56];
const SBOX_OUT: [u8; 3] = [14, 5, 2];
const SBOX_COUNTS: Answer = [0, 2, 3, 213];

fn sbox(c: &mut Calls) {
    let out = c.fills("three shares", 3, SBOX_COUNTS, |out| ll::sbox(&PRESENT_RECORD, 3, &SHARES, &RANDOM, out));
    c.same("three shares", &out[..], &SBOX_OUT);
    let out = c.fills("version 1", 3, SBOX_COUNTS, |out| ll::sbox(&version_1(&PRESENT_RECORD), 3, &SHARES, &RANDOM, out));
    c.same("version 1", &out[..], &SBOX_OUT);
    for x in 0..16 {
        let shares = [x ^ 9 ^ 15, 9, 15];
        let out = c.fills("table", 3, SBOX_COUNTS, |out| ll::sbox(&PRESENT_RECORD, 3, &shares, &RANDOM, out));
        c.same("table", add_up(&out, 3)[0], PRESENT_TABLE[x as usize]);
    }
    let out = c.fills("width 6", 3, done(5, 15, 930), |out| ll::sbox(&identity_record(6), 3, &[61, 62, 63], &[60; 15], out));
    c.same("width 6", add_up(&out, 3)[0], 61 ^ 62 ^ 63);
    let out = c.fills("four output bits", 3, done(4, 12, 687), |out| ll::sbox(&identity_record(4), 3, &[61, 62, 63], &[60; 12], out));
    c.same("four output bits, and the form's upper two", add_up(&out, 3)[0], 61 ^ 62 ^ 63);
    let out = c.fills("one share", 1, done(2, 0, 57), |out| ll::sbox(&PRESENT_RECORD, 1, &[4], &[], out));
    c.same("one share", out[0], PRESENT_TABLE[4]);

    c.wrong_records(3, |record, out| ll::sbox(record, 3, &SHARES, &RANDOM, out));
    c.wrong_share_counts(3, |s, out| ll::sbox(&PRESENT_RECORD, s, &SHARES, &RANDOM, out));
    c.wrong_lengths([&PRESENT_RECORD, &SHARES, &RANDOM], 3, |[record, shares, random], out| ll::sbox(record, 3, shares, random, out));
    c.refuses("share 16", 3, 3, 1, |out| ll::sbox(&PRESENT_RECORD, 3, &with(&SHARES, 1, 16), &RANDOM, out));
    c.refuses("random 64", 3, 3, 8, |out| ll::sbox(&identity_record(6), 3, &SHARES, &with(&[60; 15], 5, 64), out));
    c.refuses("random of six output bits", 3, 2, 0, |out| ll::sbox(&identity_record(4), 3, &SHARES, &[60; 15], out));
    let mut out = [FILL];
    let answer = by_hand(|a| unsafe { raw::ll_sbox(PRESENT_RECORD.as_ptr(), 34, 1, [4].as_ptr(), 1, null(), 0, out.as_mut_ptr(), 1, a) });
    c.answer("one share, random NULL", answer, done(2, 0, 57));
    c.same("one share, random NULL", out[0], PRESENT_TABLE[4]);
}

fn sbox_watch(c: &mut Calls) {
    // The squares of the shares, the random elements of the two masked products, the result, and a repeat.
    let list = [0, 1, 2, 12, 19, 26, 189, 196, 203, 212, 211, 210, 0];
    let values = [4, 13, 10, 1, 2, 3, 4, 5, 6, 2, 5, 14, 4];
    let watch = |list: &[u32], out: &mut [u8]| ll::sbox_watch(&PRESENT_RECORD, 3, &SHARES, &RANDOM, list, out);
    let out = c.fills("thirteen steps", 13, SBOX_COUNTS, |out| watch(&list, out));
    c.same("thirteen steps", &out[..], &values);
    let out = c.fills("64 steps", 64, SBOX_COUNTS, |out| watch(&[212; 64], out));
    c.same("64 steps", out, vec![2; 64]);
    c.fills("no steps", 0, SBOX_COUNTS, |out| watch(&[], out));
    let watch_low = |list: &[u32], out: &mut [u8]| ll::sbox_watch(&identity_record(4), 3, &[0, 0, 60], &[5; 12], list, out);
    let out = c.fills("four output bits", 2, done(4, 12, 687), |out| watch_low(&[18, 686], out));
    c.same("four output bits", out, vec![5, 60]);
    c.refuses("four output bits, step 687", 2, 8, 1, |out| watch_low(&[686, 687], out));

    c.wrong_records(13, |record, out| ll::sbox_watch(record, 3, &SHARES, &RANDOM, &list, out));
    c.wrong_share_counts(13, |s, out| ll::sbox_watch(&PRESENT_RECORD, s, &SHARES, &RANDOM, &list, out));
    c.wrong_lengths([&PRESENT_RECORD, &SHARES, &RANDOM], 13, |[record, shares, random], out| {
        ll::sbox_watch(record, 3, shares, random, &list, out)
    });
    c.refuses("empty list", 13, 2, 0, |out| watch(&[], out));
    c.refuses("65 steps", 65, 2, 0, |out| watch(&[0; 65], out));
    c.refuses("random 64", 13, 3, 8, |out| ll::sbox_watch(&identity_record(6), 3, &SHARES, &with(&[60; 15], 5, 64), &list, out));
    c.refuses("step 213", 3, 8, 1, |out| watch(&[212, 213, u32::MAX], out));
    let answer = by_hand(|a| unsafe {
        raw::ll_sbox_watch(PRESENT_RECORD.as_ptr(), 34, 3, SHARES.as_ptr(), 3, RANDOM.as_ptr(), 3, null(), 0, null_mut(), 0, a)
    });
    c.answer("NULL list", answer, SBOX_COUNTS);
}

/// The published vectors: each byte of the key, each byte of the block, the ciphertext.
const VECTORS: [(u8, u8, u64); 4] = [
    (0x00, 0x00, 0x5579c1387b228445),
    (0xff, 0x00, 0xe72c46c0f5945049),
    (0x00, 0xff, 0xa112ffc72f68417b),
    (0xff, 0xff, 0x3333dcd3213210d2),
];
const BLOCK_COUNTS: Answer = [0, 1054, 1581, 117197];

fn block(c: &mut Calls) {
    let random = random_bytes(1581);
    for (key, block, ciphertext) in VECTORS {
        let (key, block) = (share(&[key; 10], 3), share(&[block; 8], 3));
        let out = c.fills("vector", 24, BLOCK_COUNTS, |out| ll::block(&PRESENT_RECORD, 3, &key, &block, &random, out));
        c.same("vector", add_up(&out, 3), ciphertext.to_be_bytes().to_vec());
    }
    let (zero_key, zero_block) = (share(&[0; 10], 3), share(&[0; 8], 3));
    let out = c.fills("version 1", 24, BLOCK_COUNTS, |out| ll::block(&version_1(&PRESENT_RECORD), 3, &zero_key, &zero_block, &random, out));
    c.same("version 1", add_up(&out, 3), VECTORS[0].2.to_be_bytes().to_vec());
    let out = c.fills("one share", 8, done(1054, 0, 31729), |out| ll::block(&PRESENT_RECORD, 1, &[0; 10], &[0; 8], &[], out));
    c.same("one share", out, VECTORS[0].2.to_be_bytes().to_vec());

    let (key, block) = (share(&[0; 10], 3), share(&[0; 8], 3));
    let with_record = |record: &[u8], out: &mut [u8]| ll::block(record, 3, &key, &block, &random, out);
    c.wrong_records(24, with_record);
    c.refuses("width 6", 24, 1, 0, |out| with_record(&identity_record(6), out));
    c.refuses("width 6, four output bits", 24, 1, 0, |out| with_record(&identity_record(4), out));
    c.refuses("another table", 24, 6, 0, |out| with_record(&with(&PRESENT_RECORD, 26, 0), out));
    c.wrong_share_counts(24, |s, out| ll::block(&PRESENT_RECORD, s, &key, &block, &random, out));
    c.wrong_lengths([&PRESENT_RECORD, &key, &block, &random], 24, |[record, key, block, random], out| {
        ll::block(record, 3, key, block, random, out)
    });
    let mut out = [FILL; 8];
    let answer = by_hand(|a| unsafe {
        raw::ll_block(PRESENT_RECORD.as_ptr(), 34, 1, [0; 10].as_ptr(), 10, [0; 8].as_ptr(), 8, null(), 0, out.as_mut_ptr(), 8, a)
    });
    c.answer("one share, random NULL", answer, done(1054, 0, 31729));
    c.same("one share, random NULL", out, VECTORS[0].2.to_be_bytes());
}

fn block_watch(c: &mut Calls) {
    let (key, block, random) = (share(&[0xff; 10], 3), share(&[0; 8], 3), random_bytes(1581));
    let watch = |list: &[u32], out: &mut [u8]| ll::block_watch(&PRESENT_RECORD, 3, &key, &block, &random, list, out);

    // The last 48 steps are the nibbles of the result, share by share; the first 16 those of share 0 after the first key addition.
    let list: Vec<u32> = (117149..117197).chain(0..16).collect();
    let values = c.fills("64 steps", 64, BLOCK_COUNTS, |out| watch(&list, out));
    let joined: Vec<u8> = add_up(&values[..48], 3);
    let ciphertext = VECTORS[1].2.to_be_bytes();
    c.same("the last steps", joined, (0..16).map(|k| nibble(&ciphertext, k)).collect());
    c.same("the first steps", values[48..].to_vec(), (0..16).map(|k| nibble(&block, k) ^ nibble(&key, k)).collect());
    c.fills("no steps", 0, BLOCK_COUNTS, |out| watch(&[], out));

    let with_record = |record: &[u8], out: &mut [u8]| ll::block_watch(record, 3, &key, &block, &random, &list, out);
    c.wrong_records(64, with_record);
    c.refuses("width 6", 64, 1, 0, |out| with_record(&identity_record(6), out));
    c.refuses("width 6, four output bits", 64, 1, 0, |out| with_record(&identity_record(4), out));
    c.refuses("another table", 64, 6, 0, |out| with_record(&with(&PRESENT_RECORD, 26, 0), out));
    c.wrong_share_counts(64, |s, out| ll::block_watch(&PRESENT_RECORD, s, &key, &block, &random, &list, out));
    c.wrong_lengths([&PRESENT_RECORD, &key, &block, &random], 64, |[record, key, block, random], out| {
        ll::block_watch(record, 3, key, block, random, &list, out)
    });
    c.refuses("empty list", 64, 2, 0, |out| watch(&[], out));
    c.refuses("65 steps", 65, 2, 0, |out| watch(&[0; 65], out));
    c.refuses("step 117197", 3, 8, 1, |out| watch(&[117196, 117197, u32::MAX], out));
    let answer = by_hand(|a| unsafe {
        raw::ll_block_watch(PRESENT_RECORD.as_ptr(), 34, 3, key.as_ptr(), 30, block.as_ptr(), 24, random.as_ptr(), 1581,
            null(), 0, null_mut(), 0, a)
    });
    c.answer("NULL list", answer, BLOCK_COUNTS);
}

const OPEN_COUNTS: Answer = [0, 1116, 1674, 125722];

fn open(c: &mut Calls) {
    let random = random_bytes(1674);
    for (key, block, ciphertext) in VECTORS {
        let (key, sealed) = (share(&[key; 10], 3), share(&ciphertext.to_be_bytes(), 3));
        let out = c.fills("vector", 24, OPEN_COUNTS, |out| ll::open(&PRESENT_RECORD, &INVERSE_RECORD, 3, &key, &sealed, &random, out));
        c.same("vector", add_up(&out, 3), vec![block; 8]);
    }
    let (key, block) = (random_bytes(30), random_bytes(24));
    let sealed = c.fills("sealed", 24, BLOCK_COUNTS, |out| ll::block(&PRESENT_RECORD, 3, &key, &block, &random[..1581], out));
    let opened = c.fills("opened", 24, OPEN_COUNTS, |out| ll::open(&PRESENT_RECORD, &INVERSE_RECORD, 3, &key, &sealed, &random, out));
    c.same("opened", add_up(&opened, 3), add_up(&block, 3));

    let with_records = |record: &[u8], inverse: &[u8], out: &mut [u8]| ll::open(record, inverse, 3, &key, &block, &random, out);
    c.wrong_records(24, |record, out| with_records(record, &INVERSE_RECORD, out));
    c.refuses("width 6", 24, 1, 0, |out| with_records(&PRESENT_RECORD, &identity_record(6), out));
    c.refuses("the two exchanged", 24, 6, 0, |out| with_records(&INVERSE_RECORD, &PRESENT_RECORD, out));
    c.refuses("the first twice", 24, 6, 0, |out| with_records(&PRESENT_RECORD, &PRESENT_RECORD, out));
    c.wrong_share_counts(24, |s, out| ll::open(&PRESENT_RECORD, &INVERSE_RECORD, s, &key, &block, &random, out));
    c.wrong_lengths([&PRESENT_RECORD, &INVERSE_RECORD, &key, &block, &random], 24, |[record, inverse, key, block, random], out| {
        ll::open(record, inverse, 3, key, block, random, out)
    });
}

fn open_watch(c: &mut Calls) {
    let (key, block, random) = (random_bytes(30), random_bytes(24), random_bytes(1674));
    let watch = |list: &[u32], out: &mut [u8]| ll::open_watch(&PRESENT_RECORD, &INVERSE_RECORD, 3, &key, &block, &random, list, out);
    // The last 48 steps are the nibbles of the result, share by share.
    let list: Vec<u32> = (125674..125722).collect();
    let values = c.fills("48 steps", 48, OPEN_COUNTS, |out| watch(&list, out));
    let opened = c.fills("opened", 24, OPEN_COUNTS, |out| ll::open(&PRESENT_RECORD, &INVERSE_RECORD, 3, &key, &block, &random, out));
    c.same("the last steps", values, (0..48).map(|k| nibble(&opened[k / 16 * 8..][..8], k % 16)).collect());
    c.fills("no steps", 0, OPEN_COUNTS, |out| watch(&[], out));
    c.refuses("65 steps", 65, 2, 0, |out| watch(&[0; 65], out));
    c.refuses("step 125722", 3, 8, 1, |out| watch(&[125721, 125722, u32::MAX], out));
}

fn encrypt(c: &mut Calls) {
    for (key, block, ciphertext) in VECTORS {
        let out = c.fills("vector", 8, done(0, 0, 0), |out| ll::encrypt(&[key; 10], &[block; 8], out));
        c.same("vector", out, ciphertext.to_be_bytes().to_vec());
    }
    c.wrong_lengths([&[0; 10], &[0; 8]], 8, |[key, block], out| ll::encrypt(key, block, out));
    c.refuses("key one short, block one long", 8, 2, 0, |out| ll::encrypt(&[0; 9], &[0; 9], out));
    let answer = by_hand(|a| unsafe { raw::ll_encrypt(null(), 0, null(), 0, null_mut(), 0, a) });
    c.answer("NULL", answer, refused(2, 0));
}

fn decrypt(c: &mut Calls) {
    for (key, block, ciphertext) in VECTORS {
        let out = c.fills("vector", 8, done(0, 0, 0), |out| ll::decrypt(&[key; 10], &ciphertext.to_be_bytes(), out));
        c.same("vector", out, vec![block; 8]);
    }
    for k in 0..16 {
        let (key, block) = (random_bytes(10 + k), random_bytes(26 + k));
        let (key, block) = (&key[k..], &block[18 + k..]);
        let ciphertext = c.fills("sealed", 8, done(0, 0, 0), |out| ll::encrypt(key, block, out));
        let out = c.fills("opened", 8, done(0, 0, 0), |out| ll::decrypt(key, &ciphertext, out));
        c.same("opened", out, block.to_vec());
    }
    c.wrong_lengths([&[0; 10], &[0; 8]], 8, |[key, block], out| ll::decrypt(key, block, out));
    c.refuses("key one long, block one short", 8, 2, 0, |out| ll::decrypt(&[0; 11], &[0; 7], out));
    let answer = by_hand(|a| unsafe { raw::ll_decrypt(null(), 0, null(), 0, null_mut(), 0, a) });
    c.answer("NULL", answer, refused(2, 0));
}

/// Key, block and ciphertext of FIPS 197, appendices B and C.1.
const AES_VECTORS: [(u128, u128, u128); 2] = [
    (0x2b7e151628aed2a6abf7158809cf4f3c, 0x3243f6a8885a308d313198a2e0370734, 0x3925841d02dc09fbdc118597196a0b32),
    (0x000102030405060708090a0b0c0d0e0f, 0x00112233445566778899aabbccddeeff, 0x69c4e0d86a7b0430d8cdb78070b4c55a),
];
const AES_COUNTS: Answer = [0, 800, 2400, 26050];

fn aes_counts(s: usize) -> Answer {
    done(800, (400 * s * (s - 1)) as u64, (3080 * s + 2800 * s * (s - 1) + 10) as u64)
}

/// A vector in s shares with its random bytes: key, block, random.
fn aes_inputs((key, block, _): (u128, u128, u128), s: usize) -> (Vec<u8>, Vec<u8>, Vec<u8>) {
    (share(&key.to_be_bytes(), s), share(&block.to_be_bytes(), s), random_bytes(400 * s * (s - 1)))
}

fn aes_block(c: &mut Calls) {
    for vector in AES_VECTORS {
        for s in 1..=9 {
            let (key, block, random) = aes_inputs(vector, s);
            let out = c.fills("vector", 16 * s, aes_counts(s), |out| ll::aes_block(s as u32, &key, &block, &random, out));
            c.same("vector", add_up(&out, s), vector.2.to_be_bytes().to_vec());
        }
    }
    let (key, block, random) = aes_inputs(AES_VECTORS[0], 3);
    c.wrong_share_counts(48, |s, out| ll::aes_block(s, &key, &block, &random, out));
    c.wrong_lengths([&key, &block, &random], 48, |[key, block, random], out| ll::aes_block(3, key, block, random, out));
    let longer = [&block[..], &[0]].concat();
    c.refuses("key one short, block one long", 48, 2, 0, |out| ll::aes_block(3, &key[..47], &longer, &random, out));

    let (key, block, _) = aes_inputs(AES_VECTORS[0], 1);
    let mut out = [FILL; 16];
    let answer = by_hand(|a| unsafe { raw::ll_aes_block(1, key.as_ptr(), 16, block.as_ptr(), 16, null(), 0, out.as_mut_ptr(), 16, a) });
    c.answer("one share, random NULL", answer, done(800, 0, 3090));
    c.same("one share, random NULL", out, AES_VECTORS[0].2.to_be_bytes());
    let answer = by_hand(|a| unsafe { raw::ll_aes_block(0, null(), 0, null(), 0, null(), 0, null_mut(), 0, a) });
    c.answer("no shares, NULL", answer, refused(7, 0));
}

/// In 1 to 9 shares the first seven bytes of the result, which in each share are the first of its last 16 steps.
fn aes_watch_vectors(c: &mut Calls) {
    for s in 1..=9 {
        let (key, block, random) = aes_inputs(AES_VECTORS[1], s);
        let counts = aes_counts(s);
        let first = counts[3] as usize - 16 * s;
        let list: Vec<u32> = (0..7 * s).map(|k| (first + 16 * (k / 7) + k % 7) as u32).collect();
        let values = c.fills("vector", 7 * s, counts, |out| ll::aes_block_watch(s as u32, &key, &block, &random, &list, out));
        c.same("vector", add_up(&values, s), AES_VECTORS[1].2.to_be_bytes()[..7].to_vec());
    }
}

fn aes_block_watch(c: &mut Calls) {
    aes_watch_vectors(c);
    let (key, block, random) = aes_inputs(AES_VECTORS[0], 3);
    let watch = |list: &[u32], out: &mut [u8]| ll::aes_block_watch(3, &key, &block, &random, list, out);

    // The last 48 steps are the bytes of the result, share by share; the first 12 those of RotWord, from the last word of the key.
    let list: Vec<u32> = (26002..26050).chain(0..12).collect();
    let values = c.fills("60 steps", 60, AES_COUNTS, |out| watch(&list, out));
    c.same("the last steps", add_up(&values[..48], 3), AES_VECTORS[0].2.to_be_bytes().to_vec());
    c.same("the first steps", values[48..].to_vec(), (0..12).map(|k| key[k / 4 * 16 + 12 + (k + 1) % 4]).collect());
    let repeated = c.fills("64 steps", 64, AES_COUNTS, |out| watch(&[26049; 64], out));
    c.same("64 steps", repeated, vec![values[47]; 64]);
    c.fills("no steps", 0, AES_COUNTS, |out| watch(&[], out));

    c.wrong_share_counts(60, |s, out| ll::aes_block_watch(s, &key, &block, &random, &list, out));
    c.wrong_lengths([&key, &block, &random], 60, |[key, block, random], out| ll::aes_block_watch(3, key, block, random, &list, out));
    c.refuses("empty list", 60, 2, 0, |out| watch(&[], out));
    c.refuses("65 steps", 65, 2, 0, |out| watch(&[26050; 65], out));
    c.refuses("step 26050", 3, 8, 1, |out| watch(&[26049, 26050, u32::MAX], out));
    c.refuses("step 26050, two values", 2, 2, 0, |out| watch(&[26049, 26050, u32::MAX], out));
    let answer = by_hand(|a| unsafe {
        raw::ll_aes_block_watch(3, key.as_ptr(), 48, block.as_ptr(), 48, random.as_ptr(), 2400, null(), 0, null_mut(), 0, a)
    });
    c.answer("NULL list", answer, AES_COUNTS);
}

fn split(c: &mut Calls) {
    let out = c.fills("7 with masks 1, 2", 3, done(0, 0, 0), |out| ll::split(&[7], 3, &[1, 2], out));
    c.same("7 with masks 1, 2", out, vec![4, 1, 2]);
    let out = c.fills("one share", 1, done(0, 0, 0), |out| ll::split(&[7], 1, &[], out));
    c.same("one share", out, vec![7]);
    let shares = share(&[0x5a; 16], 9);
    let out = c.fills("16 bytes in nine shares", 144, done(0, 0, 0), |out| ll::split(&[0x5a; 16], 9, &shares[16..], out));
    c.same("16 bytes in nine shares", out, shares);

    c.wrong_share_counts(6, |s, out| ll::split(&[7, 8], s, &[1, 2, 3, 4], out));
    c.wrong_lengths([&[7, 8], &[1, 2, 3, 4]], 6, |[value, masks], out| ll::split(value, 3, masks, out));
    c.refuses("17 bytes", 51, 2, 0, |out| ll::split(&[0; 17], 3, &[0; 34], out));
    let answer = by_hand(|a| unsafe { raw::ll_split(null(), 0, 3, null(), 0, null_mut(), 0, a) });
    c.answer("NULL", answer, refused(2, 0));
    let mut out = [FILL];
    let answer = by_hand(|a| unsafe { raw::ll_split([7].as_ptr(), 1, 1, null(), 0, out.as_mut_ptr(), 1, a) });
    c.answer("one share, masks NULL", answer, done(0, 0, 0));
    c.same("one share, masks NULL", out, [7]);
}

fn join(c: &mut Calls) {
    let out = c.fills("4, 1, 2", 1, done(0, 0, 0), |out| ll::join(&[4, 1, 2], 3, out));
    c.same("4, 1, 2", out, vec![7]);
    let out = c.fills("16 bytes in nine shares", 16, done(0, 0, 0), |out| ll::join(&share(&[0x5a; 16], 9), 9, out));
    c.same("16 bytes in nine shares", out, vec![0x5a; 16]);

    c.wrong_share_counts(2, |s, out| ll::join(&[1, 2, 3, 4, 5, 6], s, out));
    c.wrong_lengths([&[1, 2, 3, 4, 5, 6]], 2, |[shares], out| ll::join(shares, 3, out));
    c.refuses("17 bytes", 17, 2, 0, |out| ll::join(&[0; 51], 3, out));
    let answer = by_hand(|a| unsafe { raw::ll_join(null(), 0, 3, null_mut(), 0, a) });
    c.answer("NULL", answer, refused(2, 0));
}

/// Makes the calls of one function and says how they went.
fn report(name: &str, calls: fn(&mut Calls)) -> usize {
    let mut c = Calls::default();
    calls(&mut c);
    let verdict = if c.failed == 0 { "as expected" } else { "NOT as expected" };
    println!("  {name:20}{:3} calls {verdict}", c.made);
    c.failed
}

fn main() {
    let mut failed = 0;
    failed += report("ll_read", read);
    failed += report("ll_check", check);
    failed += report("ll_fit", fit);
    failed += report("ll_house_fit", house_fit);
    failed += report("ll_sbox", sbox);
    failed += report("ll_sbox_watch", sbox_watch);
    failed += report("ll_block", block);
    failed += report("ll_block_watch", block_watch);
    failed += report("ll_open", open);
    failed += report("ll_open_watch", open_watch);
    failed += report("ll_encrypt", encrypt);
    failed += report("ll_decrypt", decrypt);
    failed += report("ll_aes_block", aes_block);
    failed += report("ll_aes_block_watch", aes_block_watch);
    failed += report("ll_split", split);
    failed += report("ll_join", join);
    std::process::exit(if failed == 0 { 0 } else { 1 });
}
