//! A plan from and to a spreadsheet: a row for each interval and set.

use super::plan_text::{figure_of, figures_of, handle, idle_plan, put_figure, set_of, FIGURES};
use super::words::{figure, At, Lines, Read};
use crate::messages::{Case, Plan, BARS, REACTIVE};

/// How such a file begins.
pub const FIRST_COLUMN: &str = "interval";

/// Fields of a row, in quotes where they need them.
pub fn row(fields: &[String]) -> String {
    let quoted = |field: &String| match field.contains([',', ';', '"', '\n', '\r']) {
        true => format!("\"{}\"", field.replace('"', "\"\"")),
        false => field.clone(),
    };
    let fields: Vec<String> = fields.iter().map(quoted).collect();
    fields.join(",") + "\n"
}

/// Whether a file is a plan of a spreadsheet.
pub fn is_csv(text: &str) -> bool {
    let begin = text.trim_start_matches('\u{feff}');
    let behind = begin.strip_prefix(FIRST_COLUMN);
    behind.is_some_and(|behind| behind.starts_with([',', ';']))
}

/// A plan as rows.
pub fn plan_csv(plan: &Plan, case: Option<&Case>) -> String {
    let figures = &FIGURES[..figures_of(plan.edition)];
    let has_flow = plan.edition >= BARS;
    let mut heads = vec![FIRST_COLUMN.to_string(), "set".to_string()];
    heads.extend(figures.iter().map(|name| name.to_string()));
    heads.extend(has_flow.then(|| "flow".to_string()));
    let mut text = row(&heads);
    for (number, line) in (1..).zip(&plan.rows) {
        for (j, setting) in line.settings.iter().enumerate() {
            let set = handle(case, j).trim_matches('"').to_string();
            let mut fields = vec![i32::to_string(&number), set];
            let told = |index| figure_of(setting, index).to_string();
            fields.extend((0..figures.len()).map(told));
            fields.extend(has_flow.then(|| line.flow.to_string()));
            text += &row(&fields);
        }
    }
    text
}

/// The fields of a line; quotes keep one together, doubled they stand for one.
fn fields(at: At, line: &str, separator: char) -> Read<Vec<String>> {
    let mut fields = vec![String::new()];
    let mut letters = line.chars().peekable();
    let mut quoted = false;
    while let Some(letter) = letters.next() {
        let Some(field) = fields.last_mut() else {
            break;
        };
        match letter {
            '"' if quoted && letters.peek() == Some(&'"') => {
                letters.next();
                field.push('"');
            }
            '"' => quoted = !quoted,
            letter if letter == separator && !quoted => fields.push(String::new()),
            letter => field.push(letter),
        }
    }
    if quoted {
        return at.wrong("a quote is not closed");
    }
    Ok(fields
        .iter()
        .map(|field| field.trim().to_string())
        .collect())
}

/// What a column holds.
#[derive(Clone, Copy, PartialEq, Eq)]
enum Column {
    Interval,
    Set,
    /// By its place in `FIGURES`.
    Figure(usize),
    Flow,
}

fn columns(at: At, case: &Case, heads: &[String]) -> Read<Vec<Column>> {
    let mut columns = Vec::new();
    for head in heads {
        let column = match head.as_str() {
            FIRST_COLUMN => Column::Interval,
            "set" => Column::Set,
            "flow" => {
                at.since(BARS, case.edition, "flow")?;
                Column::Flow
            }
            name => match FIGURES.iter().position(|known| *known == name) {
                Some(index) => Column::Figure(index),
                None => return at.wrong(format!("unknown column '{name}'")),
            },
        };
        if matches!(column, Column::Figure(index) if index >= figures_of(case.edition)) {
            at.since(REACTIVE, case.edition, head)?;
        }
        if columns.contains(&column) {
            return at.wrong(format!("column '{head}' twice"));
        }
        columns.push(column);
    }
    for (needed, name) in [(Column::Set, "set"), (Column::Figure(0), "on")] {
        if !columns.contains(&needed) {
            return at.wrong(format!("no column '{name}'"));
        }
    }
    Ok(columns)
}

/// The plan of a spreadsheet for a case; a column that is not there is 0, and each interval has a row
/// for each set.
pub fn read_csv(case: &Case, text: &str) -> Read<(Plan, Lines)> {
    let text = text.trim_start_matches('\u{feff}');
    let mut lines = (1..).zip(text.lines());
    let first = lines.next().map_or("", |(_, line)| line);
    let separator = if first.contains(';') { ';' } else { ',' };
    let columns = columns(At(1), case, &fields(At(1), first, separator)?)?;
    let mut sheet = Sheet {
        case,
        plan: idle_plan(case),
        said: Lines::default(),
        flows: vec![None; case.intervals.len()],
    };
    let mut last = 1;
    for (number, line) in lines {
        let at = At(number);
        last = number;
        if line.trim().is_empty() {
            continue;
        }
        let fields = fields(at, line, separator)?;
        if fields.len() != columns.len() {
            let (there, heads) = (fields.len(), columns.len());
            return at.wrong(format!("{there} fields, the first line has {heads}"));
        }
        sheet.row(at, &columns, &fields)?;
    }
    sheet.is_whole(At(last))?;
    Ok((sheet.plan, sheet.said))
}

struct Sheet<'a> {
    case: &'a Case,
    plan: Plan,
    said: Lines,
    flows: Vec<Option<i64>>,
}

impl Sheet<'_> {
    fn row(&mut self, at: At, columns: &[Column], fields: &[String]) -> Read<()> {
        let field = |wanted: Column| {
            let index = columns.iter().position(|column| *column == wanted);
            index.map_or("", |index| fields[index].as_str())
        };
        let interval = figure(at, field(Column::Interval))?;
        let count = self.case.intervals.len();
        if !(1..=count as i64).contains(&interval) {
            return at.wrong(format!("interval {interval}: the day has {count}"));
        }
        let j = set_of(at, self.case, field(Column::Set))?;
        self.said
            .once(at, format!("set {}, interval {interval}", j + 1))?;
        let t = interval as usize - 1;
        for (column, text) in columns.iter().zip(fields) {
            match column {
                Column::Figure(index) => {
                    let value = figure(at, text)?;
                    put_figure(at, &mut self.plan.rows[t].settings[j], *index, value)?;
                }
                Column::Flow => self.flow(at, t, figure(at, text)?)?,
                Column::Interval | Column::Set => {}
            }
        }
        Ok(())
    }

    /// The flow stands in each row of its interval.
    fn flow(&mut self, at: At, t: usize, flow: i64) -> Read<()> {
        self.said.again(at, format!("flow, interval {}", t + 1));
        match self.flows[t].replace(flow) {
            Some(other) if other != flow => at.wrong(format!(
                "flow is {flow}, and {other} in another row of interval {}",
                t + 1
            )),
            _ => {
                self.plan.rows[t].flow = flow;
                Ok(())
            }
        }
    }

    fn is_whole(&self, at: At) -> Read<()> {
        for t in 1..=self.case.intervals.len() {
            for set in 1..=self.case.devices.len() {
                let key = format!("set {set}, interval {t}");
                if self.said.of(&key).is_none() {
                    return at.wrong(format!("interval {t} has no row of set {set}"));
                }
            }
        }
        Ok(())
    }
}
