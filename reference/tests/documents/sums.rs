//! Sums in the documents: whatever is written with `=`, `<`, `>`, `≤` or `≥` between figures holds.

use crate::day::Told;
use crate::text::{number, number_spans, MINUS};

#[derive(Clone, Copy, PartialEq, Debug)]
enum Token {
    Figure(i128),
    Sign(char),
    Other,
}

const RELATIONS: [char; 5] = ['=', '<', '>', '≤', '≥'];
const SIGNS: [char; 5] = ['+', MINUS, '·', '(', ')'];

fn tokens(text: &str) -> Vec<Token> {
    let spans = number_spans(text);
    let mut tokens = Vec::new();
    let mut at = 0;
    while let Some(c) = text[at..].chars().next() {
        if let Some((from, until)) = spans.iter().find(|(from, _)| *from == at) {
            let figure = number(&text[*from..*until]).expect("a span is a number");
            tokens.push(Token::Figure(figure));
            at = *until;
            continue;
        }
        if RELATIONS.contains(&c) || SIGNS.contains(&c) {
            tokens.push(Token::Sign(c));
        } else if c != ' ' {
            tokens.push(Token::Other);
        }
        at += c.len_utf8();
    }
    tokens
}

/// The statements of a text: runs of figures and signs with a relation among them.
fn statements(text: &str) -> Vec<Vec<Token>> {
    let tokens = tokens(text);
    let runs = tokens.split(|token| *token == Token::Other);
    runs.map(trimmed)
        .filter(|run| run.iter().any(is_relation))
        .collect()
}

/// Without brackets at its ends that belong to the words around it.
fn trimmed(run: &[Token]) -> Vec<Token> {
    let count = |run: &[Token], c| run.iter().filter(|t| **t == Token::Sign(c)).count();
    let mut run = run.to_vec();
    loop {
        let (opened, closed) = (count(&run, '('), count(&run, ')'));
        match (run.first(), run.last()) {
            (Some(Token::Sign(')')), _) => run.remove(0),
            (Some(Token::Sign('(')), _) if opened > closed => run.remove(0),
            (_, Some(Token::Sign('('))) => run.pop().expect("a last one"),
            (_, Some(Token::Sign(')'))) if closed > opened => run.pop().expect("a last one"),
            _ => return run,
        };
    }
}

fn is_relation(token: &Token) -> bool {
    matches!(token, Token::Sign(c) if RELATIONS.contains(c))
}

/// How many statements a text has, all of which hold.
pub fn held(text: &str) -> Told<usize> {
    let statements = statements(text);
    for statement in &statements {
        holds(statement).map_err(|e| format!("{text}: {e}"))?;
    }
    Ok(statements.len())
}

/// Whether every figure of a text stands in sums with `=`: each then fails with a figure changed.
pub fn is_one_equation(text: &str) -> bool {
    let all = statements(text);
    let figures: usize = all
        .iter()
        .flatten()
        .filter(|t| matches!(t, Token::Figure(_)))
        .count();
    let equations = |s: &Vec<Token>| {
        s.iter()
            .filter(|t| is_relation(t))
            .all(|t| *t == Token::Sign('='))
    };
    !all.is_empty() && all.iter().all(equations) && figures == number_spans(text).len()
}

fn holds(statement: &[Token]) -> Told<()> {
    let mut sides = statement.split(is_relation);
    let mut relations = statement.iter().filter(|token| is_relation(token));
    let mut left = value(sides.next().expect("a side"))?;
    for side in sides {
        let right = value(side)?;
        let kept = match relations.next() {
            Some(Token::Sign('=')) => left == right,
            Some(Token::Sign('<')) => left < right,
            Some(Token::Sign('>')) => left > right,
            Some(Token::Sign('≤')) => left <= right,
            _ => left >= right,
        };
        if !kept {
            return Err(format!("{left} and {right} do not stand so"));
        }
        left = right;
    }
    Ok(())
}

fn value(side: &[Token]) -> Told<i128> {
    let mut at = 0;
    let sum = sum(side, &mut at)?;
    if at == side.len() {
        Ok(sum)
    } else {
        Err("a sum that does not end".into())
    }
}

fn sum(side: &[Token], at: &mut usize) -> Told<i128> {
    let negative = side.get(*at) == Some(&Token::Sign(MINUS));
    *at += usize::from(negative);
    let mut total = product(side, at)? * if negative { -1 } else { 1 };
    while let Some(Token::Sign(sign @ ('+' | MINUS))) = side.get(*at) {
        *at += 1;
        let term = product(side, at)?;
        total += if *sign == '+' { term } else { -term };
    }
    Ok(total)
}

fn product(side: &[Token], at: &mut usize) -> Told<i128> {
    let mut total = factor(side, at)?;
    while side.get(*at) == Some(&Token::Sign('·')) {
        *at += 1;
        total *= factor(side, at)?;
    }
    Ok(total)
}

fn factor(side: &[Token], at: &mut usize) -> Told<i128> {
    let token = side.get(*at).copied();
    *at += 1;
    match token {
        Some(Token::Figure(figure)) => Ok(figure),
        Some(Token::Sign('(')) => {
            let inner = sum(side, at)?;
            *at += 1;
            match side.get(*at - 1) {
                Some(Token::Sign(')')) => Ok(inner),
                _ => Err("a bracket that does not close".into()),
            }
        }
        _ => Err("a sum without a figure".into()),
    }
}
