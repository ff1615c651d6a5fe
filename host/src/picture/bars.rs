//! What each bar is given, stacked, against what it takes.

use super::canvas::{round_step, Band, Canvas, Span, APART, BROKEN, LEFT, LINK, WIDE};
use super::View;
use crate::balance::Balance;
use crate::bill::grouped;

const HEIGHT: f64 = 190.0;
/// A bar's reactive power takes less room.
const REACTIVE_HEIGHT: f64 = 110.0;

/// What is drawn of a bar.
struct Chart<'a> {
    view: &'a View<'a>,
    bar: usize,
    is_reactive: bool,
    balances: Vec<Balance>,
    band: Band,
    most: i64,
}

/// A part of what is given: how much, its colour and whose it is.
type Part = (i64, String, String);

/// Every bar's real power, then its reactive power where there is any; answers how far down they
/// reach.
pub fn draw(canvas: &mut Canvas, view: &View, mut top: f64) -> f64 {
    for bar in 0..view.day.case.bars() {
        let balances = view.balances.iter().map(|bars| bars[bar]).collect();
        top = Chart::new(view, bar, false, balances, top + 40.0).draw(canvas);
        let reactive: Vec<Balance> = view.reactive.iter().map(|bars| bars[bar]).collect();
        if reactive
            .iter()
            .any(|balance| balance.given + balance.taken > 0)
        {
            top = Chart::new(view, bar, true, reactive, top + 34.0).draw(canvas);
        }
    }
    top
}

impl<'a> Chart<'a> {
    fn new(
        view: &'a View<'a>,
        bar: usize,
        is_reactive: bool,
        balances: Vec<Balance>,
        top: f64,
    ) -> Chart<'a> {
        let highest = balances
            .iter()
            .map(|balance| balance.given.max(balance.taken));
        let most = highest.max().unwrap_or(0).max(1);
        let height = if is_reactive { REACTIVE_HEIGHT } else { HEIGHT };
        let band = Band { top, height };
        Chart {
            view,
            bar,
            is_reactive,
            balances,
            band,
            most,
        }
    }

    fn unit(&self) -> &'static str {
        if self.is_reactive {
            "kvar"
        } else {
            "kW"
        }
    }

    fn y(&self, figure: i64) -> f64 {
        let Band { top, height } = self.band;
        top + height - height * figure as f64 / self.most as f64
    }

    /// From one figure up to another.
    fn between(&self, low: i64, high: i64) -> Band {
        let top = self.y(high);
        Band {
            top,
            height: self.y(low) - top,
        }
    }

    fn draw(&self, canvas: &mut Canvas) -> f64 {
        canvas.open("bar");
        self.title(canvas);
        self.scale(canvas);
        for t in 0..self.balances.len() {
            self.interval(canvas, t);
        }
        let taken = canvas.steps(|t| self.y(self.balances[t].taken));
        canvas.path(&taken, "stroke='black' stroke-width='2'", "taken");
        if !self.is_reactive {
            self.broken(canvas);
        }
        canvas.close();
        self.band.top + self.band.height + 4.0
    }

    fn title(&self, canvas: &mut Canvas) {
        let case = &self.view.day.case;
        let name = if case.has_bars() {
            format!("bar {}: ", self.bar)
        } else {
            String::new()
        };
        let limit = if self.bar == 1 && !self.is_reactive {
            format!("; link limit {}", grouped(i128::from(case.link_limit)))
        } else {
            String::new()
        };
        let words = format!(
            "{name}given, stacked in the colours of the sets, and taken (black line), {}{limit}",
            self.unit()
        );
        let y = self.band.top - 8.0;
        canvas.text(LEFT, y, "font-size='12'", &words);
        let mut keys = vec![("mismatch", APART, 78.0)];
        if case.has_bars() && !self.is_reactive {
            keys.push(("by the link", LINK, 175.0));
        }
        for (word, fill, back) in keys {
            let left = LEFT + WIDE - back;
            let span = Span { left, width: 14.0 };
            let band = Band {
                top: y - 10.0,
                height: 11.0,
            };
            let how = format!("fill='{fill}' stroke='#999' stroke-width='0.5'");
            canvas.rect(span, band, &how, "");
            canvas.text(left + 18.0, y, "fill='#555'", word);
        }
    }

    fn scale(&self, canvas: &mut Canvas) {
        let step = round_step(self.most, 5);
        for figure in (0..=self.most / step).map(|number| number * step) {
            let y = self.y(figure);
            let words = grouped(i128::from(figure));
            canvas.text(LEFT - 8.0, y + 4.0, "text-anchor='end' fill='#555'", &words);
            let line = format!("M{LEFT} {y:.1} h{WIDE}");
            canvas.path(&line, "stroke='#000' stroke-opacity='0.13'", "");
        }
    }

    /// What the sets of the bar, and the link, give in an interval.
    fn parts(&self, t: usize) -> Vec<Part> {
        let (view, case) = (self.view, &self.view.day.case);
        let own = (0..case.devices.len()).filter(|j| case.devices[*j].bar as usize == self.bar);
        let mut parts = Vec::new();
        for j in own {
            let figure = if self.is_reactive {
                view.day.plan.rows[t].settings[j].reactive.q
            } else {
                view.powers[t][j]
            };
            let given = if case.devices[j].consuming {
                -figure
            } else {
                figure
            };
            parts.push((given, view.colours[j].clone(), case.device_name(j)));
        }
        if !self.is_reactive {
            let flow = view.day.plan.rows[t].flow;
            let given = if self.bar == 1 { flow } else { -flow };
            parts.push((given, LINK.to_string(), "by the link".to_string()));
        }
        parts.retain(|(given, _, _)| *given > 0);
        parts
    }

    fn interval(&self, canvas: &mut Canvas, t: usize) {
        let span = canvas.span(t, t + 1);
        let (mut base, unit) = (0, self.unit());
        for (given, fill, who) in self.parts(t) {
            let band = self.between(base, base + given);
            let how = format!("fill='{fill}' fill-opacity='0.8'");
            let figure = grouped(i128::from(given));
            let title = format!("{who}, interval {}: {figure} {unit}", t + 1);
            canvas.rect(span, band, &how, &title);
            base += given;
        }
        let Balance { given, taken } = self.balances[t];
        let (low, high) = (given.min(taken), given.max(taken));
        if low < high {
            let which = if given < taken {
                "too little"
            } else {
                "too much"
            };
            let figure = grouped(i128::from(high - low));
            let title = format!("interval {}: {figure} {unit} {which} given", t + 1);
            let how = format!("class='mismatch' fill='{APART}'");
            canvas.rect(span, self.between(low, high), &how, &title);
        }
    }

    /// Intervals whose flow breaks the link's limit.
    fn broken(&self, canvas: &mut Canvas) {
        for t in 0..self.balances.len() {
            let rules = self.view.rules_at(t, 0);
            if rules.is_empty() {
                continue;
            }
            let span = canvas.span(t, t + 1);
            let flow = grouped(i128::from(self.view.day.plan.rows[t].flow));
            let title = format!("interval {}: breaks rule 27, flow {flow} kW", t + 1);
            let how = format!(
                "class='broken' fill='{BROKEN}' fill-opacity='0.08' stroke='{BROKEN}' stroke-width='1.5'"
            );
            canvas.rect(span, self.band, &how, &title);
            if span.width > 20.0 {
                let how = format!(
                    "font-size='10' font-weight='bold' fill='{BROKEN}' stroke='white' \
                     stroke-width='2.5' paint-order='stroke'"
                );
                canvas.text(span.left + 3.0, self.band.top + 11.0, &how, "!27");
            }
        }
    }
}
