//! Writes a part of the accepted traces of fewer than MOST events as antt, each with the verdict on every next event:
//! `antt_every MOST FROM TO`.

fn main() {
    let args: Vec<usize> = std::env::args().skip(1).map(|a| a.parse().expect("a number")).collect();
    let traces = papers::antt::accepted(args[0]);
    let (from, to) = (args[1].min(traces.len()), args[2].min(traces.len()));
    eprintln!("{} of {} traces", to - from, traces.len());
    print!("{}", papers::antt::every_file(&traces[from..to]));
}
