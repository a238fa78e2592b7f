//! SHA-256: the standard's messages, lengths around the limits of a block, and the constants.

use workbench::sha256::{hex, sha256, FIRST_STATE, ROUNDS};

fn digest(message: &[u8]) -> String {
    hex(&sha256(message))
}

#[test]
fn messages_of_the_standard() {
    let million = vec![b'a'; 1_000_000];
    let messages: [(&[u8], &str); 4] = [
        (
            b"",
            "e3b0c44298fc1c149afbf4c8996fb92427ae41e4649b934ca495991b7852b855",
        ),
        (
            b"abc",
            "ba7816bf8f01cfea414140de5dae2223b00361a396177a9cb410ff61f20015ad",
        ),
        (
            b"abcdbcdecdefdefgefghfghighijhijkijkljklmklmnlmnomnopnopq",
            "248d6a61d20638b8e5c026930c3e6039a33ce45964ff2167f6ecedd419db06c1",
        ),
        (
            &million,
            "cdc76e5c9914fb9281a1c7e284d73e67f1809a48a497200e046d39ccc7112cd0",
        ),
    ];
    for (message, expected) in messages {
        assert_eq!(digest(message), expected, "{} bytes", message.len());
    }
}

/// Lengths and what `sha256sum` prints for them: byte i is 7 i modulo 251. The last is that of the longest
/// sheet.
const LENGTHS: [(usize, &str); 13] = [
    (
        1,
        "6e340b9cffb37a989ca544e6bb780a2c78901d3fb33738768511a30617afa01d",
    ),
    (
        55,
        "8af594de0e003fdee5c8bb088216c824349b4137070f559574f4a4bddd27b714",
    ),
    (
        56,
        "db81bc2bfd43620591df192139062da77d4c376f1888ea3d2190bd07c8d901f9",
    ),
    (
        57,
        "4d95ad65f5ec430c9a97ae9243b87d4d6fa0c474288c93cecfbfe9257e711780",
    ),
    (
        63,
        "bd535b38bf0d0d1a09d370b7e34b2696cea3767801a45d5611a4aaa6954e8527",
    ),
    (
        64,
        "292be91abe8c0909fe3d26575af5755eee74d23816dc68c3ba41765136967654",
    ),
    (
        65,
        "ba65aedf7884642499a59ae124894611d986cf429e69f569488048af3a99e25a",
    ),
    (
        119,
        "d367ab298e74477421127b0b448667c37c006c636f5738f081c39388756e5fad",
    ),
    (
        120,
        "be7beb9c82089eb08da8fe6eb30c13b9d56869014e228a8c3eb0fdfe832efab2",
    ),
    (
        121,
        "46289689c6bc1b365c894aea324bfd77435527db72732f96301f39d1a6ef5a41",
    ),
    (
        127,
        "770cba7b80c7615a327db5812ccd3f80895d801b587448fcd0b2c1a10f5c88a3",
    ),
    (
        128,
        "cb5311e1d7aa8e11d6af7081f3ffc3e4efa008c7483a1a791fe170bf37546ba7",
    ),
    (
        8_712,
        "9e0842f0037f823c6b9aa32793b4b33660147000b307015fab82fe2919baff78",
    ),
];

#[test]
fn lengths_around_the_limits_of_a_block() {
    for (length, expected) in LENGTHS {
        let message: Vec<u8> = (0..length).map(|place| (7 * place % 251) as u8).collect();
        assert_eq!(digest(&message), expected, "{length} bytes");
    }
}

fn primes() -> impl Iterator<Item = u128> {
    (2..).filter(|&number| (2..number).all(|divisor| number % divisor != 0))
}

/// The first 32 bits of the fractional part of a number's root, of the square root for power 2 and of the
/// cube root for power 3, found by halving.
fn root_bits(number: u128, power: u32) -> u32 {
    let wanted = number << (32 * power);
    let [mut low, mut high] = [0, 1 << 40];
    while high - low > 1 {
        let middle: u128 = (low + high) / 2;
        match middle.pow(power) <= wanted {
            true => low = middle,
            false => high = middle,
        }
    }
    low as u32
}

#[test]
fn constants_are_bits_of_roots() {
    let of_power = |power| primes().map(move |prime| root_bits(prime, power));
    assert!(of_power(2).take(FIRST_STATE.len()).eq(FIRST_STATE));
    assert!(of_power(3).take(ROUNDS.len()).eq(ROUNDS));
}

#[test]
fn digits_are_lower_case() {
    assert_eq!(hex(&[0x00, 0x9a, 0xff]), "009aff");
}
