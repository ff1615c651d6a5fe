//! A judged day as one picture (SVG): what runs when, what is given and taken, what is short, what it
//! is worth or what is broken.

mod bars;
mod canvas;
mod lists;
mod sets;

pub use canvas::escaped;

use crate::balance::{balances, powers, reactive_balances, Balance};
use crate::day::Day;
use crate::explain::Breach;
use crate::judged::{Findings, Judged};
use crate::text::clock;
use canvas::{Canvas, BROKEN, LEFT};

/// What is drawn of a day.
struct View<'a> {
    day: &'a Day,
    list: &'a [Breach],
    /// By interval, then set.
    powers: Vec<Vec<i64>>,
    /// By interval, then bar.
    balances: Vec<[Balance; 2]>,
    reactive: Vec<[Balance; 2]>,
    /// Of each set.
    colours: Vec<String>,
    /// The rules that are broken, by interval, then set from 1, or 0 for the link.
    rules: Vec<Vec<Vec<String>>>,
}

impl<'a> View<'a> {
    fn new(judged: &'a Judged) -> View<'a> {
        let (day, list) = (&judged.day, judged.breaches());
        let powers = powers(day);
        View {
            day,
            list,
            balances: balances(day, &powers),
            reactive: reactive_balances(day),
            colours: sets::colours(&day.case),
            rules: rules_by_place(day, list),
            powers,
        }
    }

    fn is_on(&self, t: usize, j: usize) -> bool {
        self.day.plan.rows[t].settings[j].on
    }

    /// The most that a set has or may have in the day.
    fn most(&self, j: usize) -> i64 {
        let cells = &self.day.case.devices[j].cells;
        let highest = self.powers.iter().zip(cells);
        let highest = highest.map(|(powers, cell)| powers[j].max(cell.pmax));
        highest.max().unwrap_or(0).max(1)
    }

    /// Intervals of one power as runs, from one to before another.
    fn runs(&self, j: usize) -> Vec<(usize, usize)> {
        let state = |t: usize| (self.powers[t][j], self.is_on(t, j));
        let mut runs = Vec::new();
        let mut from = 0;
        for until in 1..=self.powers.len() {
            if until == self.powers.len() || state(until) != state(from) {
                runs.push((from, until));
                from = until;
            }
        }
        runs
    }

    /// The rules that a set, from 1, or the link breaks in an interval.
    fn rules_at(&self, t: usize, device: usize) -> &[String] {
        &self.rules[t][device]
    }

    /// Whether a set's start window, from 1, is broken.
    fn breaks_window(&self, j: usize, window: usize) -> bool {
        let is_it = |breach: &Breach| {
            breach.interval == 0
                && usize::from(breach.device) == j + 1
                && usize::from(breach.window) == window
        };
        self.list.iter().any(is_it)
    }
}

fn rules_by_place(day: &Day, list: &[Breach]) -> Vec<Vec<Vec<String>>> {
    let row = vec![Vec::new(); day.case.devices.len() + 1];
    let mut places = vec![row; day.case.intervals.len()];
    for breach in list {
        if let Some(t) = usize::from(breach.interval).checked_sub(1) {
            places[t][usize::from(breach.device)].push(breach.rule.to_string());
        }
    }
    places
}

/// The picture of a day; or what is not borne out.
pub fn picture(judged: &Judged) -> Result<String, String> {
    let list = judged.breaches();
    let lines = judged.lines(lists::told_breaches(list.len()))?;
    let mut canvas = Canvas::new(judged.day.case.moments());
    head(&mut canvas, judged)?;
    let mut bottom = draw_charts(&mut canvas, judged, 46.0);
    bottom = match &judged.findings {
        Findings::Accepted { bill, .. } => lists::bill(&mut canvas, bill, bottom + 34.0),
        Findings::Broken(list) => lists::breaches(&mut canvas, list, &lines, bottom + 34.0),
    };
    if let Some(mend) = judged.mend() {
        bottom = lists::mend(&mut canvas, &mend, bottom + 24.0);
    }
    Ok(canvas.finish(bottom + 14.0))
}

/// The same without verdict and lists, for a page that has them.
pub fn charts(judged: &Judged) -> String {
    let mut canvas = Canvas::new(judged.day.case.moments());
    let bottom = draw_charts(&mut canvas, judged, 14.0);
    canvas.finish(bottom + 14.0)
}

/// Sets, bars and zones below a line on the day; answers how far down they reach.
fn draw_charts(canvas: &mut Canvas, judged: &Judged, line: f64) -> f64 {
    let view = View::new(judged);
    about(canvas, judged, line);
    let top = axis(canvas, line + 18.0);
    let mut bottom = sets::draw(canvas, &view, top + 6.0);
    bottom = bars::draw(canvas, &view, bottom);
    if let Findings::Accepted { completion, .. } = &judged.findings {
        bottom = lists::zones(canvas, &view.day.case, completion, bottom + 10.0);
    }
    grid(canvas, top, bottom);
    bottom
}

fn head(canvas: &mut Canvas, judged: &Judged) -> Result<(), String> {
    let ink = match judged.findings {
        Findings::Accepted { .. } => "#1b7837",
        Findings::Broken(_) => BROKEN,
    };
    let headline = judged.headline()?;
    // A long sentence in smaller letters.
    let size = if headline.chars().count() > 100 {
        12
    } else {
        18
    };
    let how = format!("font-size='{size}' class='verdict' fill='{ink}'");
    canvas.text(10.0, 28.0, &how, &canvas::cut(&headline, 160));
    Ok(())
}

fn about(canvas: &mut Canvas, judged: &Judged, line: f64) {
    let case = &judged.day.case;
    let about = format!(
        "edition {}, {} sets, {} intervals, {} in all",
        case.edition,
        case.devices.len(),
        case.intervals.len(),
        clock(canvas.day())
    );
    canvas.text(10.0, line, "fill='#555'", &about);
}

/// Clock, and the numbers of the intervals, by which breaches are told.
fn axis(canvas: &mut Canvas, top: f64) -> f64 {
    for minute in hours(canvas) {
        let x = canvas.x(minute);
        canvas.text(x, top, "text-anchor='middle' fill='#333'", &clock(minute));
    }
    let how = "text-anchor='end' font-size='9' fill='#777'";
    canvas.text(LEFT - 8.0, top + 14.0, how, "interval");
    let mut free = 0.0;
    for t in 0..canvas.intervals() {
        let span = canvas.span(t, t + 1);
        let middle = span.left + span.width / 2.0;
        if middle - 9.0 >= free {
            let how = "text-anchor='middle' font-size='9' fill='#777'";
            canvas.text(middle, top + 14.0, how, &(t + 1).to_string());
            free = middle + 9.0;
        }
    }
    top + 20.0
}

/// The edges of the intervals where they are few, else round hours.
fn hours(canvas: &Canvas) -> Vec<i64> {
    const FEW: usize = 17;
    let (moments, day) = (&canvas.moments, canvas.day());
    let is_apart = |pair: &[i64]| pair[1] - pair[0] >= day / 24;
    if moments.len() <= FEW && moments.windows(2).all(is_apart) {
        return moments.clone();
    }
    let steps = [30, 60, 120, 180, 240, 360, 720];
    let step = steps.into_iter().find(|step| day / step <= 16);
    let step = step.unwrap_or(1440 * (1 + day / 1440 / 16));
    (0..=day / step).map(|number| number * step).collect()
}

fn grid(canvas: &mut Canvas, top: f64, bottom: f64) {
    let line = |minute: i64| format!("M{:.1} {top:.1} V{bottom:.1} ", canvas.x(minute));
    let lines: String = hours(canvas).into_iter().map(line).collect();
    canvas.path(&lines, "stroke='#000' stroke-opacity='0.13'", "");
}
