//! Writes random short traces as antt: `antt_batch SEED EACH MOST`, EACH for every aim, of up to MOST events.

use std::collections::BTreeMap;

fn main() {
    let args: Vec<usize> = std::env::args().skip(1).map(|a| a.parse().expect("a number")).collect();
    let traces = papers::antt::batch(args[0] as u64, args[1], args[2]);
    let longest = traces.iter().map(|s| s.good.len() + s.bad.iter().len()).max().unwrap_or(0);
    let mut hit = BTreeMap::new();
    for s in &traces {
        let key = s.bad.map_or("accepted".to_string(), |(e, n)| format!("{n} {}", e.letter as char));
        *hit.entry(key).or_insert(0) += 1;
    }
    eprintln!("{} traces, longest {longest}: {hit:?}", traces.len());
    print!("{}", papers::antt::file(&traces));
}
