//! The lines of a trace: each is read and written again by the proved functions, and by the driver's `parse` and `render`. Both must take the
//! same lines, and write them as they were.
use compare::lines::{MOST_RENDERED, rewrite_line};
use oracle::driver::generator::Generator;
use oracle::driver::{Random, Request};
use std::fs;
use std::path::Path;

/// Bytes that a line is changed by.
const NASTY: &[u8] = b"\t\0\r 019azZ+";

/// What a line becomes in a buffer of noise: nothing, or the same bytes over its front.
fn compare(line: &[u8], random: &mut Random, room: usize) -> bool {
    let noise: Vec<u8> = (0..room).map(|_| random.next() as u8).collect();
    let mut out = noise.clone();
    let written = rewrite_line(line, &mut out);
    let expected = Request::parse(line).map(|request| request.render()).filter(|_| room >= MOST_RENDERED);
    let length = expected.as_ref().map_or(0, |text| text.len());
    let mut buffer = noise;
    buffer[..length].copy_from_slice(expected.as_deref().unwrap_or("").as_bytes());
    assert_eq!((written, &out), (length, &buffer), "the line {}", String::from_utf8_lossy(line));
    assert!(length == 0 || &out[..length] == line);
    length != 0
}

#[test]
fn lines_of_the_lists() {
    let mut random = Random::new(1);
    let (mut taken, mut refused) = (0, 0);
    for entry in fs::read_dir(Path::new(env!("CARGO_MANIFEST_DIR")).join("../oracle/lists")).unwrap() {
        let path = entry.unwrap().path();
        if path.extension().is_some_and(|extension| extension == "trace") {
            for line in fs::read(&path).unwrap().split(|byte| *byte == b'\n') {
                *if compare(line, &mut random, 200) { &mut taken } else { &mut refused } += 1;
            }
        }
    }
    assert!(taken > 20_000 && refused > 2_000, "{taken} lines were taken, and {refused} were not");
}

#[test]
fn generated_lines_and_lines_with_one_byte_changed() {
    let mut random = Random::new(2);
    let (mut taken, mut refused) = (0, 0);
    for seed in 0..20 {
        let mut generator = Generator::new(seed);
        for _ in 0..1_000 {
            let mut line = generator.line();
            compare(&line, &mut random, 200);
            let place = random.below(line.len() + 1);
            match random.below(3) {
                0 if place < line.len() => line[place] = random.of(NASTY),
                1 if place < line.len() => drop(line.remove(place)),
                _ => line.insert(place, random.of(NASTY)),
            }
            *if compare(&line, &mut random, 200) { &mut taken } else { &mut refused } += 1;
        }
    }
    assert!(taken > 1_000 && refused > 5_000, "{taken} changed lines were taken, and {refused} were not");
}

#[test]
fn every_number_at_its_limits() {
    let mut random = Random::new(3);
    for words in
        ["setup\t1\t2\t3\t4\t5\t6\t7", "await\t1\t2\t3\t4", "broadcast\t1\t2\t3\t4\t5\t6\t7", "start\t1\t2\t3", "steal\t1\t2", "off\t1"]
    {
        let fields: Vec<&str> = words.split('\t').collect();
        for place in 1..fields.len() {
            for number in [
                "0",
                "9",
                "10",
                "18446744073709551615",
                "18446744073709551616",
                "99999999999999999999",
                "184467440737095516150",
                "00",
                "01",
                "",
            ] {
                let mut fields = fields.clone();
                fields[place] = number;
                compare(fields.join("\t").as_bytes(), &mut random, 200);
            }
        }
    }
}

#[test]
fn short_buffers() {
    let mut random = Random::new(4);
    let longest = "broadcast\t18446744073709551615\t18446744073709551615\t18446744073709551615\t18446744073709551615\t18446744073709551615\t18446744073709551615\t18446744073709551615";
    assert_eq!(longest.len(), MOST_RENDERED);
    for room in 0..MOST_RENDERED + 3 {
        assert_eq!(compare(longest.as_bytes(), &mut random, room), room >= MOST_RENDERED);
        assert_eq!(compare(b"home", &mut random, room), room >= MOST_RENDERED);
        assert!(!compare(b"hame", &mut random, room));
    }
}
