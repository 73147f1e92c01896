//! Plans in frames on standard input (oracle/README.md).

use std::io::Read;

pub fn frames() -> Vec<Vec<u8>> {
    let mut input = Vec::new();
    std::io::stdin().read_to_end(&mut input).expect("standard input");
    let mut rest = input.as_slice();
    let mut plans = Vec::new();
    while !rest.is_empty() {
        let end = rest.iter().position(|&b| b == b'\n').expect("a frame's length");
        let length: usize = std::str::from_utf8(&rest[..end]).unwrap().parse().expect("a frame's length");
        plans.push(rest[end + 1..end + 1 + length].to_vec());
        rest = &rest[end + 1 + length..];
    }
    plans
}
