//! A page for a browser that needs no network: verdict, charts, table, and bill, or breaches and
//! mend, of each plan.

use crate::bill::{grouped, Bill};
use crate::judged::{Findings, Judged};
use crate::picture::{charts, escaped};
use crate::table;

/// A plan by its name.
pub struct Reported {
    pub name: String,
    pub judged: Judged,
}

/// Breaches that a page lists; beyond them it says how many more there are.
const MOST_LINES: usize = 2_000;

const STYLE: &str = "body{font:14px/1.45 'DejaVu Sans',Verdana,sans-serif;margin:1.5em auto;\
max-width:1240px;padding:0 1em;color:#222}h1{font-size:1.4em}h2{font-size:1.15em;margin-top:2em;\
border-top:1px solid #ccc;padding-top:1em}table{border-collapse:collapse}td,th{padding:.15em .7em;\
text-align:left;border-bottom:1px solid #eee}.grains{text-align:right;font-variant-numeric:tabular-nums}\
.plan{white-space:nowrap}\
pre{overflow-x:auto;font-size:12px;background:#fafafa;padding:.7em}.accepted{color:#1b7837}\
.broken{color:#b2182b}svg{width:100%;height:auto}@media print{details{display:block}}";

/// The page of a case and its plans; or what is not borne out.
pub fn page(case: &str, plans: &[Reported]) -> Result<String, String> {
    let mut body = format!("<h1>{}</h1>\n", escaped(case));
    if plans.len() > 1 {
        body += &overview(plans)?;
    }
    for (number, plan) in (1..).zip(plans) {
        body += &section(number, plan)?;
    }
    Ok(format!(
        "<!DOCTYPE html>\n<html lang=\"en\">\n<head>\n<meta charset=\"utf-8\">\n\
         <meta name=\"viewport\" content=\"width=device-width\">\n<title>{}</title>\n\
         <style>{STYLE}</style>\n</head>\n<body>\n{body}</body>\n</html>\n",
        escaped(case)
    ))
}

fn class(judged: &Judged) -> &'static str {
    match judged.findings {
        Findings::Accepted { .. } => "accepted",
        Findings::Broken(_) => "broken",
    }
}

/// A line for each plan.
fn overview(plans: &[Reported]) -> Result<String, String> {
    let mut rows = String::new();
    for (number, plan) in (1..).zip(plans) {
        let (name, class) = (escaped(&plan.name), class(&plan.judged));
        let headline = escaped(&plan.judged.headline()?);
        rows += &format!(
            "<tr><td class=\"plan\"><a href=\"#plan-{}\">{name}</a></td><td class=\"{class}\">{headline}</td></tr>\n",
            i32::to_string(&number)
        );
    }
    Ok(format!("<table>\n{rows}</table>\n"))
}

fn section(number: usize, plan: &Reported) -> Result<String, String> {
    let judged = &plan.judged;
    let (name, class) = (escaped(&plan.name), class(judged));
    let headline = escaped(&judged.headline()?);
    let svg = charts(judged);
    let lines: Vec<String> = table::figures(judged)
        .iter()
        .map(|line| escaped(line))
        .collect();
    let table = lines.join("\n");
    let money = match &judged.findings {
        Findings::Accepted { bill, .. } => bill_table(bill),
        Findings::Broken(list) => breach_list(judged, list.len())?,
    };
    Ok(format!(
        "<section id=\"plan-{number}\">\n<h2>{name}</h2>\n<p class=\"{class} verdict\">{headline}</p>\n\
         {svg}{money}<details>\n<summary>The day as a table</summary>\n<pre>{table}</pre>\n</details>\n\
         </section>\n"
    ))
}

fn bill_table(bill: &Bill) -> String {
    let mut rows = String::new();
    for entry in &bill.entries {
        let [who, what, why] = [&entry.who, &entry.what, &entry.why].map(|text| escaped(text));
        let grains = grouped(entry.grains);
        rows += &format!(
            "<tr><td>{who}</td><td>{what}</td><td class=\"grains\">{grains}</td><td>{why}</td></tr>\n"
        );
    }
    let total = grouped(bill.total());
    format!(
        "<table class=\"bill\">\n<tr><th>Whose</th><th>For</th><th class=\"grains\">Grains</th><th></th></tr>\n{rows}\
         <tr><th>surplus</th><th></th><td class=\"grains\"><b>{total}</b></td><td></td></tr>\n</table>\n"
    )
}

fn breach_list(judged: &Judged, count: usize) -> Result<String, String> {
    let items: String = judged
        .lines(MOST_LINES)?
        .iter()
        .map(|line| format!("<li>{}</li>\n", escaped(line)))
        .collect();
    let more = match count.saturating_sub(MOST_LINES) {
        0 => String::new(),
        more => format!("<p>and {} more</p>\n", grouped(more as i128)),
    };
    let mend = escaped(&judged.mend().unwrap_or_default());
    Ok(format!(
        "<p class=\"mend\">{mend}</p>\n<ol class=\"breaches\">\n{items}</ol>\n{more}"
    ))
}
