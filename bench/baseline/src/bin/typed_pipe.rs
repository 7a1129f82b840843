// What arrowpipe does, by an unverified program: the whole input is held, parsed by csv into typed columns
// (offsets + data, i64, i128, bits, validity bits), stages run on columns, and the text is written from columns.
//   typed_pipe copy | select | filter | select_filter | totals      (schema id:l;amount:d:10,2;paid:b; name is u)
//   typed_pipe text                                            (no schema: all four columns are u)
use std::io::{Read, Write};

struct Bits { bytes: Vec<u8>, len: usize }
impl Bits {
    fn new() -> Bits { Bits { bytes: Vec::new(), len: 0 } }
    fn push(&mut self, b: bool) {
        if self.len % 8 == 0 { self.bytes.push(0); }
        if b { *self.bytes.last_mut().unwrap() |= 1 << (self.len % 8); }
        self.len += 1;
    }
    fn get(&self, i: usize) -> bool { self.bytes[i / 8] >> (i % 8) & 1 == 1 }
}
enum Data { Long(Vec<u8>), Decimal(Vec<u8>), Truth(Bits), Text { offsets: Vec<u8>, data: Vec<u8> } }
struct Column { name: Vec<u8>, valid: Bits, data: Data }
impl Column {
    fn new(name: &[u8], kind: u8) -> Column {
        Column { name: name.to_vec(), valid: Bits::new(), data: match kind {
            b'l' => Data::Long(Vec::new()), b'd' => Data::Decimal(Vec::new()), b'b' => Data::Truth(Bits::new()),
            _ => Data::Text { offsets: 0i32.to_le_bytes().to_vec(), data: Vec::new() } } }
    }
    fn kind(&self) -> u8 { match self.data { Data::Long(_) => b'l', Data::Decimal(_) => b'd', Data::Truth(_) => b'b', _ => b'u' } }
    fn push(&mut self, field: &[u8]) -> bool {
        let valid = !field.is_empty();
        self.valid.push(valid);
        match &mut self.data {
            Data::Long(v) => {
                let n = if valid { match whole(field) { Some(n) if n >= i64::MIN as i128 && n <= i64::MAX as i128 => n as i64, _ => return false } } else { 0 };
                v.extend_from_slice(&n.to_le_bytes());
            }
            Data::Decimal(v) => {
                let n = if valid { match decimal(field, 2) { Some(n) if n.unsigned_abs() < 10_000_000_000 => n, _ => return false } } else { 0 };
                v.extend_from_slice(&n.to_le_bytes());
            }
            Data::Truth(v) => v.push(match field { b"true" | b"True" | b"TRUE" => true, b"false" | b"False" | b"FALSE" | b"" => false, _ => return false }),
            Data::Text { offsets, data } => {
                if std::str::from_utf8(field).is_err() { return false; }
                data.extend_from_slice(field);
                offsets.extend_from_slice(&(data.len() as i32).to_le_bytes());
            }
        }
        true
    }
}
fn whole(text: &[u8]) -> Option<i128> {
    let (neg, rest) = match text.first()? { b'-' => (true, &text[1..]), b'+' => (false, &text[1..]), _ => (false, text) };
    if rest.is_empty() { return None; }
    if rest.len() <= 18 {
        let mut v = 0i64;
        for &b in rest { if !b.is_ascii_digit() { return None; } v = v * 10 + (b - b'0') as i64; }
        return Some(if neg { -v } else { v } as i128);
    }
    let mut v = 0i128;
    for &b in rest { if !b.is_ascii_digit() { return None; } v = v.checked_mul(10)?.checked_add((b - b'0') as i128)?; }
    Some(if neg { -v } else { v })
}
fn decimal(text: &[u8], scale: usize) -> Option<i128> {
    match text.iter().position(|&b| b == b'.') {
        None => Some(whole(text)? * 10i128.pow(scale as u32)),
        Some(at) => {
            let after = &text[at + 1..];
            if after.is_empty() || after.len() > scale { return None; }
            let neg = text[0] == b'-';
            let head = whole(&text[..at])?;
            let mut v = head.abs();
            for &b in after { if !b.is_ascii_digit() { return None; } v = v * 10 + (b - b'0') as i128; }
            for _ in after.len()..scale { v *= 10; }
            Some(if neg { -v } else { v })
        }
    }
}
fn le64(v: &[u8], i: usize) -> i64 { let mut a = [0; 8]; a.copy_from_slice(&v[i * 8..i * 8 + 8]); i64::from_le_bytes(a) }
fn le128(v: &[u8], i: usize) -> i128 { let mut a = [0; 16]; a.copy_from_slice(&v[i * 16..i * 16 + 16]); i128::from_le_bytes(a) }
fn le32(v: &[u8], i: usize) -> usize { let mut a = [0; 4]; a.copy_from_slice(&v[i * 4..i * 4 + 4]); i32::from_le_bytes(a) as usize }

fn decimal_text(out: &mut Vec<u8>, n: i128, scale: usize) {
    if n < 0 { out.push(b'-'); }
    let unit = 10u128.pow(scale as u32);
    let size = n.unsigned_abs();
    let mut b = itoa::Buffer::new();
    if size <= u64::MAX as u128 { out.extend_from_slice(b.format((size as u64) / unit as u64).as_bytes()); }
    else { out.extend_from_slice(b.format(size / unit).as_bytes()); }
    if scale > 0 {
        out.push(b'.');
        let rest = (size % unit) as u64;
        let mut d = unit as u64 / 10;
        while d > 0 { out.push(b'0' + (rest / d % 10) as u8); d /= 10; }
    }
}
fn text_of(columns: &[Column], rows: &[(usize, usize)], out: &mut csv::Writer<Vec<u8>>) {
    let mut cell = Vec::new();
    let mut b = itoa::Buffer::new();
    for &(from, to) in rows {
        for i in from..to {
            for c in columns {
                if !c.valid.get(i) { out.write_field(b"").unwrap(); continue; }
                match &c.data {
                    Data::Long(v) => out.write_field(b.format(le64(v, i))).unwrap(),
                    Data::Decimal(v) => { cell.clear(); decimal_text(&mut cell, le128(v, i), 2); out.write_field(&cell).unwrap() }
                    Data::Truth(v) => out.write_field(if v.get(i) { "true" } else { "false" }).unwrap(),
                    Data::Text { offsets, data } => out.write_field(&data[le32(offsets, i)..le32(offsets, i + 1)]).unwrap(),
                }
            }
            out.write_record(None::<&[u8]>).unwrap();
        }
    }
}
fn filtered(chunk: Vec<Column>, paid: usize) -> Vec<Column> {
    let len = chunk[0].valid.len;
    let keep: Vec<usize> = match &chunk[paid].data { Data::Truth(v) => (0..len).filter(|&i| chunk[paid].valid.get(i) && v.get(i)).collect(), _ => panic!() };
    chunk.iter().map(|c| {
        let mut to = Column::new(&c.name, c.kind());
        for &i in &keep {
            to.valid.push(c.valid.get(i));
            match (&c.data, &mut to.data) {
                (Data::Long(v), Data::Long(t)) => t.extend_from_slice(&v[i * 8..i * 8 + 8]),
                (Data::Decimal(v), Data::Decimal(t)) => t.extend_from_slice(&v[i * 16..i * 16 + 16]),
                (Data::Truth(v), Data::Truth(t)) => t.push(v.get(i)),
                (Data::Text { offsets, data }, Data::Text { offsets: to_offsets, data: to_data }) => {
                    to_data.extend_from_slice(&data[le32(offsets, i)..le32(offsets, i + 1)]);
                    to_offsets.extend_from_slice(&(to_data.len() as i32).to_le_bytes());
                }
                _ => panic!(),
            }
        }
        to
    }).collect()
}
fn main() {
    let work = std::env::args().nth(1).unwrap();
    let batch: usize = std::env::args().nth(2).map_or(1024, |t| t.parse().unwrap());
    let mut input = Vec::new();
    std::io::stdin().lock().read_to_end(&mut input).unwrap();
    let mut reader = csv::ReaderBuilder::new().has_headers(false).flexible(true).from_reader(&input[..]);
    let mut row = csv::ByteRecord::new();
    assert!(reader.read_byte_record(&mut row).unwrap());
    let heads: Vec<Vec<u8>> = row.iter().map(|f| f.to_vec()).collect();
    let kinds: Vec<u8> = heads.iter().map(|h| if work == "text" { b'u' } else { match &h[..] { b"id" => b'l', b"amount" => b'd', b"paid" => b'b', _ => b'u' } }).collect();
    let mut out = csv::WriterBuilder::new().flexible(true).from_writer(Vec::new());
    let at = |n: &str| heads.iter().position(|h| h == n.as_bytes()).unwrap();
    let picks: Vec<usize> = if work == "select" || work == "select_filter" { vec![at("id"), at("name"), at("paid")] } else { (0..heads.len()).collect() };
    if work != "totals" { for &p in &picks { out.write_field(&heads[p]).unwrap(); } out.write_record(None::<&[u8]>).unwrap(); }
    let mut totals = [(0u64, 0i128, None::<i128>, None::<i128>); 2];
    let mut done = false;
    let mut record = 0u64;
    while !done {
        let mut chunk: Vec<Column> = heads.iter().zip(&kinds).map(|(h, &k)| Column::new(h, k)).collect();
        let mut rows = 0;
        while rows < batch {
            if !reader.read_byte_record(&mut row).unwrap() { done = true; break; }
            record += 1;
            if row.len() != heads.len() { eprintln!("ragged {}", record); std::process::exit(4); }
            for (c, f) in chunk.iter_mut().zip(row.iter()) { if !c.push(f) { eprintln!("field {}", record); std::process::exit(4); } }
            rows += 1;
        }
        if rows == 0 { break; }
        if work == "totals" {
            for (k, n) in ["id", "amount"].iter().enumerate() {
                let c = &chunk[at(n)];
                let t = &mut totals[k];
                for i in 0..rows { if c.valid.get(i) {
                    let v = match &c.data { Data::Long(v) => le64(v, i) as i128, Data::Decimal(v) => le128(v, i), _ => panic!() };
                    t.0 += 1; t.1 += v; t.2 = Some(t.2.map_or(v, |m| m.min(v))); t.3 = Some(t.3.map_or(v, |m| m.max(v)));
                } }
            }
            continue;
        }
        if work == "select" || work == "select_filter" {
            let mut kept = Vec::new();
            let mut slots: Vec<Option<Column>> = chunk.into_iter().map(Some).collect();
            for &p in &picks { kept.push(slots[p].take().unwrap()); }
            chunk = kept;
        }
        if work == "filter" || work == "select_filter" { let p = chunk.iter().position(|c| c.name == b"paid").unwrap(); chunk = filtered(chunk, p); rows = chunk[0].valid.len; }
        text_of(&chunk, &[(0, rows)], &mut out);
    }
    if work == "totals" {
        out.write_record("id_count,id_sum,id_min,id_max,amount_count,amount_sum,amount_min,amount_max".split(',')).unwrap();
        let mut cell = Vec::new();
        for (t, scale) in totals.iter().zip([0usize, 2].iter()) {
            out.write_field(t.0.to_string()).unwrap();
            for v in [Some(t.1), t.2, t.3].iter() { cell.clear(); if let Some(v) = v { decimal_text(&mut cell, *v, *scale); } out.write_field(&cell).unwrap(); }
        }
        out.write_record(None::<&[u8]>).unwrap();
    }
    let text = out.into_inner().unwrap();
    std::io::stdout().lock().write_all(&text).unwrap();
}
