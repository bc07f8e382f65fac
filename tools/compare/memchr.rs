//! Stand-in for the crate `memchr`: the first place of one of the named bytes, or none.

pub fn memchr(wanted: u8, bytes: &[u8]) -> Option<usize> {
    bytes.iter().position(|&byte| byte == wanted)
}

pub fn memchr2(first: u8, second: u8, bytes: &[u8]) -> Option<usize> {
    bytes
        .iter()
        .position(|&byte| byte == first || byte == second)
}

pub fn memchr3(first: u8, second: u8, third: u8, bytes: &[u8]) -> Option<usize> {
    bytes
        .iter()
        .position(|&byte| byte == first || byte == second || byte == third)
}
