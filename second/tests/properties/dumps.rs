use crate::frames::{damage, set_spare_bits};
use crate::plain::{pack_square, unpack_square, Random};
use second::dump::report_with;
use second::{Code, Ending};

/// A frame of random data as it may be received.
fn received_frame(code: &Code, random: &mut Random, n: usize) -> Vec<u8> {
    let k = n - 17;
    let data: Vec<Vec<bool>> = (0..k).map(|_| random.bits(k)).collect();
    let mut frame = vec![0; n * ((n + 7) / 8)];
    code.encode(n, &pack_square(&data), &mut frame).unwrap();
    let mut rows = unpack_square(n, &frame);
    let kind = random.below(5);
    damage(random, kind, &mut rows);
    frame = pack_square(&rows);
    set_spare_bits(random, n, &mut frame);
    frame
}

fn line_of(number: usize, n: usize, allowance: usize, frame: &[u8]) -> String {
    let hex: String = frame.iter().map(|byte| format!("{:02X}", byte)).collect();
    [number, n, allowance].map(|x| x.to_string()).join("\t") + "\t" + &hex
}

/// A record whose frame is decoded, and the line that reports it.
fn decoded(code: &Code, random: &mut Random, seen: &mut [usize; 4]) -> (String, String) {
    let widest = if random.below(8) == 0 { 256 } else { 48 };
    let n = 18 + random.below(widest - 17);
    let (number, allowance) = (random.below(1_000_000_000), 1 + random.below(6));
    let frame = received_frame(code, random, n);
    let answer = code.decode(n, allowance, &frame, &mut frame.clone());
    let answer = answer.unwrap();
    seen[answer.ending as usize] += 1;
    let ending = match answer.ending {
        Ending::Clean => "clean",
        Ending::Repaired => "repaired",
        Ending::Stuck => "stuck",
        Ending::Spent => "spent",
    };
    let (rows, columns) = (answer.bad_rows, answer.bad_columns);
    let counts = [answer.passes, answer.bits, rows, columns].map(|x| x.to_string());
    let report = format!("{}\t{}\t{}\n", number, ending, counts.join("\t"));
    (line_of(number, n, allowance, &frame), report)
}

/// A record that is refused, and the line that reports it.
fn refused(random: &mut Random) -> (String, String) {
    let (number, n) = (random.below(1000), 18 + random.below(20));
    let bytes = n * ((n + 7) / 8);
    let (reason, n, allowance, bytes) = match random.below(3) {
        0 => (1, random.below(18), random.below(40), random.below(60)),
        1 => (2, n, random.below(40), random.below(bytes)),
        _ => (4, n, 201 * random.below(99), bytes),
    };
    let report = format!("{}\trefused\t{}\t0\t0\t0\n", number, reason);
    (line_of(number, n, allowance, &vec![0; bytes]), report)
}

/// A record whose frame is erased, and the line that reports it.
fn erased(random: &mut Random) -> (String, String) {
    let (number, n, allowance) = (random.below(1000), 18 + random.below(20), random.below(201));
    let mut frame = pack_square(&vec![vec![true; n]; n]);
    set_spare_bits(random, n, &mut frame);
    let said = match allowance {
        0 => "refused\t4\t0\t0\t0",
        _ => "erased\t0\t0\t0\t0",
    };
    let report = format!("{}\t{}\n", number, said);
    (line_of(number, n, allowance, &frame), report)
}

/// A line that is no record.
fn bad(random: &mut Random) -> String {
    let good = line_of(random.below(100), 18, 2, &[0xab; 54]);
    match random.below(6) {
        0 => String::new(),
        1 => good + "\r",
        2 => good + "0",
        3 => good.to_lowercase(),
        4 => "0".to_string() + &good + "\t",
        _ => good.replacen('\t', " ", 1),
    }
}

#[test]
fn reports_of_whole_dumps() {
    let code = Code::new();
    let mut random = Random(5);
    let mut seen = [0; 4];
    for _ in 0..60 {
        let mut dump = String::from("frames\t1");
        let mut expected = String::from("repair\t1\n");
        for i in 0..random.below(30) {
            let (line, report) = match random.below(5) {
                0 => (bad(&mut random), format!("?\t{}\n", i + 2)),
                1 => refused(&mut random),
                2 => erased(&mut random),
                _ => decoded(&code, &mut random, &mut seen),
            };
            dump += &("\n".to_string() + &line);
            expected += &report;
        }
        // An empty last line is one only with its LF.
        if random.below(2) == 0 || dump.ends_with('\n') {
            dump += "\n";
        }
        assert_eq!(report_with(&code, dump.as_bytes()), expected.into_bytes());
    }
    assert!(seen.iter().all(|&count| count >= 20), "{:?}", seen);
}
