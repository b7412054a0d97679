// The yardstick of `first_path`: the same lines and replies, in plain Rust without proofs.
use std::collections::HashMap;
use std::fs::File;
use std::io::{self, BufRead, BufReader, Read, Write};
use std::os::fd::FromRawFd;

struct Object {
    name: Vec<u8>,
    value: i64,
    slope: i64,
}

fn thousandths(text: &str) -> i64 {
    let (sign, digits) = match text.strip_prefix('-') {
        Some(digits) => (-1, digits),
        None => (1, text),
    };
    let (whole, decimals) = digits.split_once('.').unwrap_or((digits, ""));
    let mut value: i64 = whole.parse().unwrap();
    for place in 0..3 {
        value = value * 10 + decimals.as_bytes().get(place).map_or(0, |digit| i64::from(digit - b'0'));
    }
    sign * value
}

fn answer(objects: &[Object], span: i64, number: i64, out: &mut Vec<u8>) {
    for object in objects {
        let mut runs: Vec<(i64, i64)> = Vec::new();
        for t in 0..=span {
            if object.value + object.slope * t <= number {
                match runs.last_mut() {
                    Some(run) if run.1 + 1 == t => run.1 = t,
                    _ => runs.push((t, t)),
                }
            }
        }
        if runs.is_empty() {
            continue;
        }
        out.extend_from_slice(if runs[0].0 == 0 { b"now " } else { b"later " });
        out.extend_from_slice(&object.name);
        out.extend_from_slice(b" :");
        for (lo, hi) in runs {
            write!(out, " {lo}..{hi}").unwrap();
        }
        out.push(b'\n');
    }
}

fn main() -> io::Result<()> {
    // One write for each reply, and reads of 4,096 bytes.
    let mut sink = unsafe { File::from_raw_fd(1) };
    let source = unsafe { File::from_raw_fd(0) };
    let mut reader = BufReader::with_capacity(4096, source.take(u64::MAX));
    let mut names: HashMap<Vec<u8>, usize> = HashMap::new();
    let mut objects: Vec<Object> = Vec::new();
    let mut line = String::new();
    let mut out = Vec::new();
    while reader.read_line(&mut line)? > 0 {
        let words: Vec<&str> = line.split_whitespace().collect();
        out.clear();
        match words.as_slice() {
            ["class", ..] => {}
            ["insert", _, name, _, "=", value, "rate", slope] => {
                if names.insert(name.as_bytes().to_vec(), objects.len()).is_none() {
                    objects.push(Object {
                        name: name.as_bytes().to_vec(),
                        value: thousandths(value),
                        slope: thousandths(slope),
                    });
                }
            }
            ["ask", span, .., number] => answer(&objects, span.parse().unwrap(), thousandths(number), &mut out),
            _ => {}
        }
        out.extend_from_slice(b"ok\n");
        sink.write_all(&out)?;
        line.clear();
    }
    Ok(())
}
