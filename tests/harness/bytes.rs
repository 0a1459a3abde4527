//! Bytes made smaller while a difference stays, and how they are told.

/// Clears as many bytes as it can, in ever smaller pieces, and then bits, while the difference is still there.
pub fn shrink(bytes: &mut [u8], mut still: impl FnMut(&[u8]) -> bool) {
    let mut size = bytes.len();
    while size > 0 {
        for at in (0..bytes.len()).step_by(size) {
            let end = (at + size).min(bytes.len());
            if bytes[at..end].iter().all(|&byte| byte == 0) {
                continue;
            }
            let kept = bytes[at..end].to_vec();
            bytes[at..end].fill(0);
            if !still(bytes) {
                bytes[at..end].copy_from_slice(&kept);
            }
        }
        size /= 2;
    }
    for at in 0..bytes.len() {
        for bit in 0..8 {
            let kept = bytes[at];
            bytes[at] &= !(1 << bit);
            if bytes[at] != kept && !still(bytes) {
                bytes[at] = kept;
            }
        }
    }
}

/// The bytes that are not 0, up to twelve of them, if there are any.
pub fn set_bytes(name: &str, bytes: &[u8]) -> Option<String> {
    let set: Vec<(usize, u8)> = bytes
        .iter()
        .copied()
        .enumerate()
        .filter(|&(_, byte)| byte != 0)
        .collect();
    let some: Vec<String> = set
        .iter()
        .take(12)
        .map(|(at, byte)| format!("{:04X}: {:02X}", at, byte))
        .collect();
    match set.len() {
        0 => None,
        more if more > 12 => Some(format!(
            "  {}: {} .. ({} bytes not 0)",
            name,
            some.join(", "),
            more
        )),
        _ => Some(format!("  {}: {}, the rest 0", name, some.join(", "))),
    }
}
