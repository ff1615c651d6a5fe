//! Texts to begin with.

use super::case_writer::{series, told};
use super::plan_text::handle;
use crate::messages::Case;

/// A case that passes reading: two sets and a zone over 24 hours, with a word on each line.
pub const CASE: &str = "\
case edition 5
# Power in kW, time in minutes or h:mm, money in grains. What is not said is 0.
intervals 24x60                      # minutes of each, even, 2 to 360
mismatch price 1000                  # per kW min between what is given and taken
overrun price 1                      # per kW min beyond an energy window
link limit 0                         # the most that flows between the bars, either way

zone 1
  share rgu 50 rgd 50 scr 0 nsc 0    # thousandths of what is taken (rgu, rgd), of the largest set (scr, nsc)
  shortfall price all 1              # per W min; also rru, rrd, and per var min qru, qrd
  minimum rru 0                      # by interval; also rrd, qru, qrd

set 1 producing \"Diesel\"
  zones 1
  bar 0
  initially off 600 min at 0 kW
  minimum up 60 down 60              # minutes
  ramp up 10 down 10 starting 2 stopping 2
  cost on 4 start 10_000 stop 0      # on: per minute
  limit all 20                       # of rgu rgd scr nsc rru_on rru_off rrd_on rrd_off
  state 8:00 -2_000                  # longest downtime and cost of a start so soon; up to three
  starts 0:00 24:00 at most 3        # up to four windows
  energy 0:00 24:00 at most 9_000_000    # kW min; or at least; up to four
  pq lines upper 0 750 lower 0 -750  # kvar: offset and slope in thousandths of power; or pq equality
  status free                        # by interval: free, on or off
  pmin 150                           # by interval: one figure, 6x100 18x150, or 100 6:00 150
  pmax 200
  block 1 cap 100 floor 0 price 3    # up to four; a cap of '-': no such block in that interval
  block 2 cap 100 floor 0 price 5
  price rgu 1                        # of the eight, qru, qrd; by interval
  qmin -150
  qmax 150

set 2 consuming \"Town\"
  zones 1
  initially on 600 min at 30 kW
  ramp up 100 down 100 starting 100 stopping 100
  limit all 20
  pmax 200
  qmin 0
  qmax 100
  block 1 cap 200 price 20
";

/// A plan of a case to begin with: each set as it was before the day, at the least power.
pub fn plan(case: &Case) -> String {
    let moments = case.moments();
    let mut lines = vec![
        format!("plan edition {}", case.edition),
        "# By interval: one figure, 6x100 18x150, or 100 6:00 150 (each from its time on).".into(),
        "# Also rgu rgd scr nsc rru_on rru_off rrd_on rrd_off, from edition 2 on q qru qrd.".into(),
    ];
    for (j, device) in case.devices.iter().enumerate() {
        let set = handle(Some(case), j);
        let on = i64::from(device.initially_on);
        lines.push(format!("set {set} on {on}"));
        let power = device.cells.iter().map(|cell| on * cell.pmin);
        let power = series(&told(power), Some(&moments));
        lines.push(format!("set {set} power {power}"));
    }
    if case.has_bars() {
        lines.push("flow 0               # from bar 0 to bar 1".into());
    }
    lines.join("\n") + "\n"
}
