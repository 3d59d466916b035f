//! HMAC (RFC 2104) for keys of at most one block; the calls refuse longer keys.

use crate::sha2::Hash;

/// H((K xor opad) | H((K xor ipad) | message)), the key filled with zeros to a block.
pub fn hmac(hash: Hash, key: &[u8], message: &[u8]) -> Vec<u8> {
    let mut block_key = key.to_vec();
    block_key.resize(hash.block(), 0);
    let inner = hash.digest(&padded(&block_key, 0x36, message));
    hash.digest(&padded(&block_key, 0x5c, &inner))
}

fn padded(block_key: &[u8], pad: u8, text: &[u8]) -> Vec<u8> {
    let mut bytes: Vec<u8> = block_key.iter().map(|byte| byte ^ pad).collect();
    bytes.extend_from_slice(text);
    bytes
}
