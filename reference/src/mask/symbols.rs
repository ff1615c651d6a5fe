//! Where a program holds its functions, as `nm` tells.

use std::collections::BTreeMap;

/// Addresses by symbol: several where local functions share a name.
pub type Symbols = BTreeMap<String, Vec<u64>>;

/// `00000000000042a0 t batch::main`: code of the program itself, local or not.
fn symbol(line: &str) -> Option<(&str, u64)> {
    let (digits, rest) = line.split_once(' ')?;
    let (kind, name) = rest.split_once(' ')?;
    let address = u64::from_str_radix(digits, 16).ok()?;
    ["t", "T", "w", "W"]
        .contains(&kind)
        .then_some((name, address))
}

pub fn symbols(listing: &str) -> Symbols {
    let mut symbols = Symbols::new();
    for (name, address) in listing.lines().filter_map(symbol) {
        symbols.entry(name.to_string()).or_default().push(address);
    }
    symbols
}

/// Where a program holds a function, nowhere if the linker left it out; or that it cannot be told.
pub fn place(symbols: &Symbols, name: &str) -> Result<Option<u64>, String> {
    match symbols.get(name).map(Vec::as_slice) {
        None => Ok(None),
        Some([address]) => Ok(Some(*address)),
        Some(_) => Err(format!("several functions are called {name}")),
    }
}
