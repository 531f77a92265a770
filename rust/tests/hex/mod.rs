/// The bytes of a hex text; `-` is none.
pub fn bytes(text: &str) -> Vec<u8> {
    let byte = |i| u8::from_str_radix(&text[i..i + 2], 16).expect("hex");
    if text == "-" { vec![] } else { (0..text.len()).step_by(2).map(byte).collect() }
}
