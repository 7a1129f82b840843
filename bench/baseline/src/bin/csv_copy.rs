// Identity copy: whole input, ByteRecord reused, csv Writer to a Vec, then to standard output.
use std::io::{Read, Write};
fn main() {
    let mut text = Vec::new();
    std::io::stdin().lock().read_to_end(&mut text).unwrap();
    let mut reader = csv::ReaderBuilder::new().has_headers(false).flexible(true).from_reader(&text[..]);
    let mut writer = csv::WriterBuilder::new().flexible(true).from_writer(Vec::new());
    let mut row = csv::ByteRecord::new();
    while reader.read_byte_record(&mut row).unwrap() {
        writer.write_byte_record(&row).unwrap();
    }
    let out = writer.into_inner().unwrap();
    std::io::stdout().lock().write_all(&out).unwrap();
}
