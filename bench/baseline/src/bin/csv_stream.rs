// Identity copy, streaming: what a tool that may write while it reads does.
fn main() {
    let mut reader = csv::ReaderBuilder::new().has_headers(false).flexible(true).from_reader(std::io::stdin().lock());
    let mut writer = csv::WriterBuilder::new().flexible(true).from_writer(std::io::stdout().lock());
    let mut row = csv::ByteRecord::new();
    while reader.read_byte_record(&mut row).unwrap() {
        writer.write_byte_record(&row).unwrap();
    }
    writer.flush().unwrap();
}
