//! A dump of bytes for reports.

/// Sixteen bytes a line, each line with the offset of its first.
pub fn dump(bytes: &[u8]) -> String {
    let mut text = String::new();
    for (line, chunk) in bytes.chunks(16).enumerate() {
        text += &format!("{:05}:", 16 * line);
        for byte in chunk {
            text += &format!(" {byte:02x}");
        }
        text.push('\n');
    }
    text
}
